/*
 * example.c: three engineers edit one settings file at once. A panel can start from here.
 *
 *   example SETTINGS.xml      prints each call with its answer, then the settings as they are written out
 *
 * Exit status: 0 if everything was done; 1 if the file cannot be read, is refused, or something was not done; 2 for wrong usage.
 */
#include <errno.h>
#include <stdarg.h>
#include <stdio.h>
#include <string.h>

#include "explain.h"
#include "noodlefen.h"

/* How often a step that waits is made before its engineer gives up. */
enum { TRIES = 3 };

enum { ROOT = 1 }; /* load numbers in document order: 0 is the document, 1 the root element */

static uint8_t state[NOODLEFEN_STATE_BYTES];
static uint8_t xml[NOODLEFEN_XML_BYTES + 1]; /* one byte more than is allowed, so that load sees that a file is too long */

/* The content of a node: a name or a text. */
struct content {
    uint8_t bytes[NOODLEFEN_CONTENT_BYTES];
    size_t length;
};

/* What a search came to. That there is no such node, that the search has to wait and that it is refused are three different things. */
enum outcome { FOUND, NONE, WAITS, REFUSED };
struct found {
    enum outcome outcome;
    noodlefen_node node;     /* FOUND */
    noodlefen_answer answer; /* WAITS, REFUSED: of the step that was not granted */
};

static const uint8_t *bytes_of(const char *text)
{
    return (const uint8_t *)text;
}

/* Prints an answer that was not granted. */
static void print_answer(noodlefen_answer answer)
{
    if (noodlefen_refused(answer)) {
        printf("refused: %s (cause %u)\n", noodlefen_cause_text(noodlefen_cause(answer)), noodlefen_cause(answer));
        return;
    }
    printf("waits for");
    for (uint32_t t = 1; t <= NOODLEFEN_TRANSACTIONS; t++)
        if (noodlefen_blocked_by(answer, t))
            printf(" transaction %u", (unsigned)t);
    printf("\n");
}

/* Prints a call and its answer, and hands the answer back. */
static noodlefen_answer show(noodlefen_answer answer, const char *format, ...)
{
    char call[160];
    va_list values;
    va_start(values, format);
    vsnprintf(call, sizeof call, format, values);
    va_end(values);
    printf("%-60s ", call);
    if (noodlefen_granted(answer))
        printf("granted\n");
    else
        print_answer(answer);
    return answer;
}

static noodlefen_answer read_content(uint32_t t, noodlefen_node n, struct content *content)
{
    noodlefen_answer answer = noodlefen_read(state, sizeof state, t, n, content->bytes, sizeof content->bytes);
    content->length = noodlefen_granted(answer) ? (size_t)noodlefen_value(answer) : 0;
    return answer;
}

static struct found found(noodlefen_node node)
{
    struct found result = {FOUND, node, 0};
    return result;
}

static struct found none(void)
{
    struct found result = {NONE, 0, 0};
    return result;
}

static struct found not_granted(noodlefen_answer answer)
{
    struct found result = {REFUSED, 0, answer};
    if (noodlefen_waits(answer))
        result.outcome = WAITS;
    return result;
}

/* The first child element with the name. C tells the kind, so that only elements are read: each step takes locks. */
static struct found child_named(uint32_t t, noodlefen_node parent, const char *name)
{
    for (uint32_t k = 1;; k++) {
        struct content content;
        noodlefen_answer child = noodlefen_child(state, sizeof state, t, parent, k);
        if (!noodlefen_granted(child))
            return not_granted(child);
        if (noodlefen_kind(child) == 0)
            return none();
        if (noodlefen_kind(child) != NOODLEFEN_ELEMENT)
            continue;
        noodlefen_answer answer = read_content(t, noodlefen_number(child), &content);
        if (!noodlefen_granted(answer))
            return not_granted(answer);
        if (content.length == strlen(name) && memcmp(content.bytes, name, content.length) == 0)
            return found(noodlefen_number(child));
    }
}

/* child_named, printed. */
static struct found look_for(uint32_t t, noodlefen_node parent, const char *name)
{
    char call[80];
    struct found result = child_named(t, parent, name);
    snprintf(call, sizeof call, "transaction %u: look for <%s> in node %u", (unsigned)t, name, (unsigned)parent);
    printf("%-60s ", call);
    if (result.outcome == FOUND)
        printf("node %u\n", (unsigned)result.node);
    else if (result.outcome == NONE)
        printf("none\n");
    else
        print_answer(result.answer);
    return result;
}

/* Whether to make a step that waits once more. There is no queue, and nobody is told: a panel serves its engineer or sleeps for a
 * moment here. In this program the others do what they do meanwhile. A step that is refused is not made again, also if two would wait for
 * each other (cause 17): then its engineer gives up. */
static int again(noodlefen_answer answer, int *tries, void (*meanwhile)(int tries))
{
    *tries += 1;
    if (!noodlefen_waits(answer) || *tries == TRIES)
        return 0;
    meanwhile(*tries);
    return 1;
}

static int begin(uint32_t t)
{
    return noodlefen_granted(show(noodlefen_begin(state, sizeof state, t), "transaction %u: begin", (unsigned)t));
}

static int commit(uint32_t t)
{
    return noodlefen_granted(show(noodlefen_commit(state, sizeof state, t), "transaction %u: commit", (unsigned)t));
}

/* Gives up: what the transaction changed is taken back, and its locks are free. */
static void give_up(uint32_t t)
{
    show(noodlefen_abort(state, sizeof state, t), "transaction %u: abort", (unsigned)t);
}

/* Whether a text has more than the blanks between tags. */
static int has_word(const uint8_t *bytes, size_t length)
{
    for (size_t i = 0; i < length; i++)
        if (bytes[i] > ' ')
            return 1;
    return 0;
}

/* Whether n is a text of an element. */
static noodlefen_answer is_elements_text(uint32_t t, noodlefen_node n, int *is)
{
    noodlefen_answer answer = noodlefen_test(state, sizeof state, t, n);
    *is = 0;
    if (noodlefen_granted(answer) && noodlefen_kind(answer) == NOODLEFEN_TEXT) {
        answer = noodlefen_test(state, sizeof state, t, noodlefen_number(answer));
        *is = noodlefen_granted(answer) && noodlefen_kind(answer) == NOODLEFEN_ELEMENT;
    }
    return answer;
}

/* The first text of an element that is more than blanks. */
static struct found find_text(uint32_t t)
{
    static uint8_t numbers[NOODLEFEN_NODES * NOODLEFEN_NUMBER_BYTES], cells[NOODLEFEN_NODES * NOODLEFEN_CELL_BYTES];
    noodlefen_answer answer = noodlefen_read_tree(state, sizeof state, t, 0, numbers, sizeof numbers, cells, sizeof cells);
    size_t count = (size_t)noodlefen_value(answer);
    for (size_t i = 0; noodlefen_granted(answer) && i < count; i++) {
        noodlefen_node n = noodlefen_list_number(numbers, i);
        int is = 0;
        if (has_word(noodlefen_cell_content(cells, i), noodlefen_cell_length(cells, i)))
            answer = is_elements_text(t, n, &is);
        if (is)
            return found(n);
    }
    return noodlefen_granted(answer) ? none() : not_granted(answer);
}

/* find_text in a transaction that ends at once, so that the locks of reading everything stand in nobody's way. The node may be gone
 * when it is used: that step is then refused for cause 7. */
static struct found find_text_and_end(uint32_t t)
{
    noodlefen_answer answer = noodlefen_begin(state, sizeof state, t);
    if (!noodlefen_granted(answer))
        return not_granted(answer);
    struct found text = find_text(t);
    noodlefen_abort(state, sizeof state, t);
    return text;
}

/* While the second engineer waits, the first thinks it over, then takes the change back. */
static void first_engineer_works(int tries)
{
    if (tries == 2)
        give_up(1);
}

/* The first engineer changes a node. The second waits for it, and reads what was there before. */
static int change_and_read(noodlefen_node n, const char *change)
{
    struct content content;
    noodlefen_answer answer;
    int tries = 0;
    answer = noodlefen_update(state, sizeof state, 1, n, bytes_of(change), strlen(change));
    if (!noodlefen_granted(show(answer, "transaction 1: update node %u to \"%s\"", (unsigned)n, change))) {
        give_up(1);
        return 0;
    }
    do {
        answer = show(read_content(2, n, &content), "transaction 2: read node %u", (unsigned)n);
    } while (again(answer, &tries, first_engineer_works));
    if (noodlefen_granted(answer))
        printf("    \"%.*s\"\n", (int)content.length, (const char *)content.bytes);
    return noodlefen_granted(answer);
}

/* The first number of the settings of a device in a cabin of a plant. Cabins, devices and a device's settings have two digits. Load gives
 * numbers below 1,024, so plants count from 1. */
static noodlefen_node number_of(unsigned plant, unsigned cabin, unsigned device)
{
    return 1000000 * plant + 10000 * cabin + 100 * device;
}

/* Step I with a number that no node has, for a setting of device 1 in cabin 24 of plant 7. At most 1,024 are held, so one is soon found. */
static noodlefen_answer insert_new(uint32_t t, uint32_t kind, const char *content, noodlefen_node parent, uint32_t k, noodlefen_node *m)
{
    static unsigned held;
    noodlefen_answer answer;
    for (;; held++) {
        *m = number_of(7, 24, 1) + held;
        answer = noodlefen_insert(state, sizeof state, t, *m, kind, bytes_of(content), strlen(content), parent, k);
        if (noodlefen_cause(answer) != NOODLEFEN_NUMBER_HELD)
            break;
    }
    return show(answer, "transaction %u: insert \"%s\" as child %u of node %u", (unsigned)t, content, (unsigned)k, (unsigned)parent);
}

/* How many children a node has; the answer is that of the last step. */
static noodlefen_answer count_children(uint32_t t, noodlefen_node n, uint32_t *count)
{
    for (*count = 0;; *count += 1) {
        noodlefen_answer child = noodlefen_child(state, sizeof state, t, n, *count + 1);
        if (!noodlefen_granted(child) || noodlefen_kind(child) == 0)
            return child;
    }
}

/* The second engineer adds a lamp behind the last child of the root, with an attribute and its value. The attribute's name is
 * mistyped at first. */
static int add_lamp(uint32_t t)
{
    noodlefen_node lamp, watts, value;
    uint32_t last;
    noodlefen_answer answer = count_children(t, ROOT, &last);
    if (!noodlefen_granted(answer) || !noodlefen_granted(insert_new(t, NOODLEFEN_ELEMENT, "lamp", ROOT, last + 1, &lamp)))
        return 0;
    answer = insert_new(t, NOODLEFEN_ATTRIBUTE, "max watts", lamp, 1, &watts);
    if (noodlefen_cause(answer) == NOODLEFEN_CONTENT) /* nothing has changed, the engineer types it anew */
        answer = insert_new(t, NOODLEFEN_ATTRIBUTE, "watts", lamp, 1, &watts);
    return noodlefen_granted(answer) && noodlefen_granted(insert_new(t, NOODLEFEN_TEXT, "40", watts, 1, &value));
}

static void nobody_works(int tries)
{
    (void)tries;
}

/* The third engineer looks for the lamp while the second has not ended, and gives up. */
static int look_in_vain(void)
{
    struct found lamp;
    int tries = 0;
    if (!begin(3))
        return 0;
    do {
        lamp = look_for(3, ROOT, "lamp");
    } while (lamp.outcome == WAITS && again(lamp.answer, &tries, nobody_works));
    give_up(3);
    return lamp.outcome != REFUSED;
}

/* Later the third begins anew. */
static int look_again(void)
{
    if (!begin(3))
        return 0;
    struct found lamp = look_for(3, ROOT, "lamp"), lantern = look_for(3, ROOT, "lantern");
    if (lamp.outcome != FOUND || lantern.outcome == WAITS || lantern.outcome == REFUSED) {
        give_up(3);
        return 0;
    }
    return commit(3);
}

static int edit(void)
{
    struct found text = find_text_and_end(1);
    if (text.outcome == WAITS || text.outcome == REFUSED)
        return 0;
    if (text.outcome == NONE)
        printf("No element has a text of more than blanks: the name of the root element is worked on.\n");
    if (!begin(1) || !begin(2))
        return 0;
    int done = text.outcome == FOUND ? change_and_read(text.node, "7") : change_and_read(ROOT, "changed");
    done = add_lamp(2) && done;
    done = look_in_vain() && done;
    if (!done)
        give_up(2);
    else
        done = commit(2) && look_again();
    return done;
}

/* Reads a file of any kind, a pipe too, and answers whether that went well. */
static int read_file(const char *path, size_t *length)
{
    FILE *file = fopen(path, "rb");
    if (file == NULL) {
        fprintf(stderr, "%s: cannot be read: %s\n", path, strerror(errno));
        return 0;
    }
    *length = fread(xml, 1, sizeof xml, file);
    int failed = ferror(file);
    if (failed)
        fprintf(stderr, "%s: cannot be read: %s\n", path, strerror(errno));
    fclose(file);
    return !failed;
}

static int load(const char *path, size_t length)
{
    noodlefen_answer answer = noodlefen_load(state, sizeof state, xml, length);
    if (noodlefen_granted(show(answer, "load"))) {
        printf("    %lu nodes\n", (unsigned long)noodlefen_value(answer));
        return 1;
    }
    noodlefen_position at = noodlefen_position_of(xml, length, noodlefen_value(answer));
    fflush(stdout);
    fprintf(stderr, "%s:%lu:%lu: %s (cause %u, byte %lu)\n", path, (unsigned long)at.line, (unsigned long)at.column,
            explain_refusal(xml, length, noodlefen_cause(answer), noodlefen_value(answer)), noodlefen_cause(answer),
            (unsigned long)noodlefen_value(answer));
    return 0;
}

static int write_out(void)
{
    static uint8_t out[NOODLEFEN_XML_BYTES];
    noodlefen_answer answer = show(noodlefen_write(state, sizeof state, out, sizeof out), "write");
    if (!noodlefen_granted(answer))
        return 0;
    printf("    %lu bytes:\n", (unsigned long)noodlefen_value(answer));
    fwrite(out, 1, (size_t)noodlefen_value(answer), stdout);
    printf("\n");
    return 1;
}

int main(int count, char **arguments)
{
    size_t length;
    if (count != 2) {
        fprintf(stderr, "usage: example SETTINGS.xml\n");
        return 2;
    }
    if (!read_file(arguments[1], &length))
        return 1;
    if (!noodlefen_granted(show(noodlefen_start(state, sizeof state), "start")) || !load(arguments[1], length))
        return 1;
    int done = edit();
    done = write_out() && done;
    if (fflush(stdout) != 0 || ferror(stdout)) {
        fprintf(stderr, "the output cannot be written\n");
        done = 0;
    }
    if (!done)
        fprintf(stderr, "%s: not everything was done\n", arguments[1]);
    return done ? 0 : 1;
}
