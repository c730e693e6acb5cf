/*
 * handover.c: a handover sheet: every node of the committed settings with the commit that inserted it or last updated its content.
 *
 *   handover      prints handover.txt: the sheet of a shift, what was touched last, and the sheet after a load
 *
 * print_sheet can be copied. The rest is a shift of five engineers.
 */
#include <stdio.h>
#include <stdlib.h>
#include <string.h>

#include "noodlefen.h"

static uint8_t state[NOODLEFEN_STATE_BYTES];

/* Ends the program where a call that has to be granted is not. */
static noodlefen_answer must(noodlefen_answer answer)
{
    if (!noodlefen_granted(answer)) {
        printf("FAILED: %s\n", noodlefen_waits(answer) ? "a call waits" : noodlefen_cause_text(noodlefen_cause(answer)));
        exit(1);
    }
    return answer;
}

/* --- The sheet ---------------------------------------------------------------------------------------------------------------------- */

/* The committed settings of shown, with transaction 1 open in the copy: its steps there wait for nobody and lock nothing in shown. */
static void copy_committed(uint8_t *copy, const uint8_t *shown)
{
    memcpy(copy, shown, NOODLEFEN_STATE_BYTES);
    for (uint32_t t = 1; t <= NOODLEFEN_TRANSACTIONS; t++)
        noodlefen_abort(copy, NOODLEFEN_STATE_BYTES, t); /* refused for cause 3 where t is not open */
    must(noodlefen_begin(copy, NOODLEFEN_STATE_BYTES, 1));
}

/* A name or a text, on one line. */
static void print_content(const uint8_t *content, size_t length)
{
    for (size_t i = 0; i < length; i++)
        if (content[i] == '\n')
            printf("\\n");
        else if (content[i] == '\t')
            printf("\\t");
        else
            putchar(content[i]);
}

static void print_node(unsigned kind, int depth, const uint8_t *content, size_t length)
{
    static const char *const before[] = {"", "/", "", "@", "\""}; /* by kind */
    printf("%*s%s", 2 * depth, "", before[kind]);
    print_content(content, length);
    printf("%s\n", kind == NOODLEFEN_TEXT ? "\"" : "");
}

/* Prints the nodes in document order whose count is at least this one: with 0 all of them. The copy has the counts of the state. */
static void print_sheet(const uint8_t *shown, uint32_t least)
{
    static uint8_t copy[NOODLEFEN_STATE_BYTES];
    static uint8_t numbers[NOODLEFEN_NODES * NOODLEFEN_NUMBER_BYTES], cells[NOODLEFEN_NODES * NOODLEFEN_CELL_BYTES];
    static noodlefen_node above[NOODLEFEN_NODES]; /* by depth: the node whose children are being listed */
    copy_committed(copy, shown);
    noodlefen_answer tree = must(noodlefen_read_tree(copy, sizeof copy, 1, 0, numbers, sizeof numbers, cells, sizeof cells));
    int depth = 0;
    printf("      node   commit\n");
    for (size_t i = 0; i < noodlefen_value(tree); i++) {
        noodlefen_node n = noodlefen_list_number(numbers, i);
        noodlefen_answer test = must(noodlefen_test(copy, sizeof copy, 1, n));
        while (depth > 0 && above[depth - 1] != noodlefen_number(test))
            depth--;
        uint32_t set_by = noodlefen_count(must(noodlefen_count_of(copy, sizeof copy, n)));
        if (set_by >= least) {
            printf("%10u  %7u  ", (unsigned)n, (unsigned)set_by);
            print_node(noodlefen_kind(test), depth, noodlefen_cell_content(cells, i), noodlefen_cell_length(cells, i));
        }
        above[depth++] = n;
    }
}

/* --- The shift ---------------------------------------------------------------------------------------------------------------------- */

static void begin(uint32_t t) { must(noodlefen_begin(state, sizeof state, t)); }
static void commit(uint32_t t) { must(noodlefen_commit(state, sizeof state, t)); }

static void update(uint32_t t, noodlefen_node n, const char *text)
{
    must(noodlefen_update(state, sizeof state, t, n, (const uint8_t *)text, strlen(text)));
}

static void insert(uint32_t t, noodlefen_node m, uint32_t kind, const char *content, noodlefen_node n, uint32_t k)
{
    must(noodlefen_insert(state, sizeof state, t, m, kind, (const uint8_t *)content, strlen(content), n, k));
}

static void load(const uint8_t *xml, size_t length)
{
    must(noodlefen_load(state, sizeof state, xml, length));
}

/* Prints the count of a node, or that it is not in the committed settings. */
static void print_count(noodlefen_node n)
{
    noodlefen_answer answer = noodlefen_count_of(state, sizeof state, n);
    if (noodlefen_granted(answer))
        printf("node %u: commit %u\n", (unsigned)n, (unsigned)noodlefen_count(answer));
    else
        printf("node %u: refused, cause %u\n", (unsigned)n, noodlefen_cause(answer));
}

static const char settings[] = "<line><drive kind=\"gearless\"><speed>6</speed><creep>0.3</creep></drive>"
                               "<station name=\"Valley\"/><station name=\"Summit\"/></line>";
enum { SPEED = 6, CREEP = 8, VALLEY = 9, SUMMIT_NAME = 13, LAMP = 7240100, DOOR = 7240200 };

static void work(void)
{
    begin(1);
    update(1, SPEED, "7");
    commit(1); /* the first */
    begin(2);
    update(2, CREEP, "0.3"); /* confirmed: the same bytes are touched too */
    commit(2); /* the second */
    begin(3);
    update(3, SPEED, "9");
    must(noodlefen_abort(state, sizeof state, 3)); /* no commit, and nothing is touched */
    begin(4);
    commit(4); /* the third, of nothing */
    begin(2);
    insert(2, LAMP, NOODLEFEN_ELEMENT, "lamp", VALLEY, 2);
    insert(2, LAMP + 1, NOODLEFEN_TEXT, "on", LAMP, 1);
    commit(2); /* the fourth */
    begin(5);
    must(noodlefen_rename_tree(state, sizeof state, 5, 0, (const uint8_t *)"station", 7, (const uint8_t *)"terminal", 8));
    must(noodlefen_delete(state, sizeof state, 5, SUMMIT_NAME));
    commit(5); /* the fifth */
}

/* What the first engineer has not committed when the shift ends. */
static void work_in_progress(void)
{
    begin(1);
    update(1, SPEED, "8");
    insert(1, DOOR, NOODLEFEN_ELEMENT, "door", VALLEY, 3);
    must(noodlefen_delete(state, sizeof state, 1, LAMP));
}

/* The committed settings once more, from the file that a write gives. Nothing may be open. */
static void reload(void)
{
    static uint8_t out[NOODLEFEN_XML_BYTES];
    size_t length = (size_t)noodlefen_value(must(noodlefen_write(state, sizeof state, out, sizeof out)));
    load(out, length);
}

int main(void)
{
    must(noodlefen_start(state, sizeof state));
    load((const uint8_t *)settings, strlen(settings));
    work();
    work_in_progress();
    printf("after five commits; what the first engineer has not committed does not show\n");
    print_sheet(state, 0);
    print_count(SPEED);
    print_count(LAMP);
    print_count(DOOR);
    printf("touched by the fourth commit and later\n");
    print_sheet(state, 4);
    commit(1);
    printf("after the sixth commit\n");
    print_sheet(state, 6);
    reload();
    printf("after a load: numbered anew, and all from the file\n");
    print_sheet(state, 0);
    return 0;
}
