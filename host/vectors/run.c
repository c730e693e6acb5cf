/* run.c: checks an engine against files of vectors; FORMAT.txt says how they are written. */
#include <stdio.h>
#include <stdlib.h>
#include <string.h>

#include "../engine.h"
#include "bytes.h"
#include "calls.h"

static const char tree_e[] = "<lift rope=\"2\"><speed>6</speed><ramp/></lift>";

static unsigned long passed, failed;

static void verdict(int right, const char *file, unsigned line, const char *text, const char *got)
{
    if (right) {
        passed++;
        return;
    }
    failed++;
    printf("%s:%u: %.120s\n    got %.200s\n", file, line, text, got);
}

static const char *skip_word(const char *text)
{
    text += strcspn(text, " ");
    return text + strspn(text, " ");
}

/* The nodes that a granted load gives, compared with the list: kind, parent and content of each, and the order by TT. */
static int nodes_match(const struct engine *engine, void *e, size_t count, const char *list, char *got)
{
    static uint8_t numbers[NOODLEFEN_NUMBER_BYTES * NOODLEFEN_NODES];
    engine->begin(e, 1);
    if (noodlefen_value(engine->test_tree(e, 1, 0, numbers, sizeof numbers)) != count)
        return sprintf(got, "another count by TT"), 0;
    for (size_t i = 0; i < count; i++)
        if (noodlefen_list_number(numbers, i) != i)
            return sprintf(got, "another order by TT"), 0;
    char *expanded = expand(list, strlen(list));
    size_t node = 1;
    int right = 1, open_list = 0;
    for (char *token = strtok(expanded, " "); token != NULL && right; token = strtok(NULL, " "), node++) {
        if (strcmp(token, "...") == 0) {
            open_list = 1;
            break;
        }
        char kind, *content = strchr(token, ':');
        unsigned parent;
        if (content == NULL || sscanf(token, "%c%u", &kind, &parent) != 2)
            return sprintf(got, "(a node that cannot be read: %s)", token), 0;
        uint8_t read[NOODLEFEN_CONTENT_BYTES];
        struct bytes expected = unescape(content + 1, strlen(content + 1));
        noodlefen_answer t = engine->test(e, 1, (noodlefen_node)node);
        noodlefen_answer r = engine->read(e, 1, (noodlefen_node)node, read, sizeof read);
        right = noodlefen_granted(t) && noodlefen_granted(r) && noodlefen_number(t) == parent
            && noodlefen_kind(t) == (kind == 'e' ? 2u : kind == 'a' ? 3u : 4u)
            && noodlefen_value(r) == expected.length && memcmp(read, expected.bytes, expected.length) == 0;
        if (!right)
            sprintf(got, "node %u: kind %u, parent %u, content of %u bytes", (unsigned)node, noodlefen_kind(t),
                    (unsigned)noodlefen_number(t), (unsigned)noodlefen_value(r));
        free(expected.bytes);
    }
    free(expanded);
    if (right && !open_list && node != count)
        return sprintf(got, "%u nodes, %u listed", (unsigned)count, (unsigned)node), 0;
    return right;
}

/* A refused load leaves the settings as they were. */
static int settings_kept(const struct engine *engine, void *e)
{
    static const char kept[] = "<?xml version=\"1.0\" encoding=\"UTF-8\"?>\n<kept/>";
    uint8_t out[100];
    return noodlefen_value(engine->write(e, out, sizeof out)) == sizeof kept - 1 && memcmp(out, kept, sizeof kept - 1) == 0;
}

static int run_load(const struct engine *engine, const char *input, size_t input_length, const char *expected, char *got)
{
    void *e = engine->make();
    struct bytes xml = unescape(input, input_length);
    int right = 0;
    unsigned long a = 0, b = 0;
    engine->start(e);
    engine->load(e, (const uint8_t *)"<kept/>", 7);
    noodlefen_answer answer = engine->load(e, xml.bytes, xml.length);
    describe(answer, got);
    if (sscanf(expected, "refused %lu %lu", &a, &b) == 2) {
        right = noodlefen_refused(answer) && noodlefen_cause(answer) == a && noodlefen_value(answer) == b;
        if (right && !settings_kept(engine, e)) {
            sprintf(got, "refused, but the settings changed");
            right = 0;
        }
    } else if (sscanf(expected, "granted %lu", &a) == 1) {
        right = noodlefen_granted(answer) && noodlefen_value(answer) == a
            && nodes_match(engine, e, a, skip_word(skip_word(expected)), got);
    }
    free(xml.bytes);
    engine->drop(e);
    return right;
}

/* The input and then calls, divided by " ; ". */
static int run_write(const struct engine *engine, char *given, const char *expected, char *got)
{
    static uint8_t out[NOODLEFEN_XML_BYTES];
    void *e = engine->make();
    size_t room = sizeof out;
    unsigned long cause = 0;
    char *calls = strstr(given, " ; ");
    size_t input_length = calls != NULL ? (size_t)(calls - given) : strlen(given);
    int right = 0;
    engine->start(e);
    if (strncmp(given, "-", input_length) != 0) {
        struct bytes xml = unescape(given, input_length);
        engine->load(e, xml.bytes, xml.length);
        free(xml.bytes);
    }
    engine->begin(e, 1);
    while (calls != NULL) {
        char *call = calls + 3, *end = strstr(call, " ; ");
        size_t length = end != NULL ? (size_t)(end - call) : strlen(call);
        unsigned long lent;
        if (sscanf(call, "room %lu", &lent) == 1) {
            room = lent;
        } else {
            char *one = copy_text(call, length);
            run_call(engine, e, 1, one, got);
            free(one);
            if (strncmp(got, "granted", 7) != 0) {
                engine->drop(e);
                return 0;
            }
        }
        calls = end;
    }
    engine->commit(e, 1);
    memset(out, 0x55, sizeof out);
    noodlefen_answer answer = engine->write(e, out, room);
    describe(answer, got);
    if (sscanf(expected, "refused %lu", &cause) == 1) {
        right = noodlefen_refused(answer) && noodlefen_cause(answer) == cause && noodlefen_value(answer) == 0;
        for (size_t i = 0; i < sizeof out; i++)
            right = right && out[i] == 0x55;
    } else {
        struct bytes output = unescape(skip_word(expected), strlen(skip_word(expected)));
        right = noodlefen_granted(answer) && noodlefen_value(answer) == output.length
            && memcmp(out, output.bytes, output.length) == 0;
        if (noodlefen_granted(answer) && !right)
            sprintf(got, "%.*s", noodlefen_value(answer) < 190 ? (int)noodlefen_value(answer) : 190, (char *)out);
        free(output.bytes);
    }
    engine->drop(e);
    return right;
}

/* The engine of the case that is being run. */
static void *of_case;

static void begin_case(const struct engine *engine)
{
    if (of_case != NULL)
        engine->drop(of_case);
    of_case = engine->make();
    engine->start(of_case);
    engine->load(of_case, (const uint8_t *)tree_e, sizeof tree_e - 1);
    engine->begin(of_case, 1);
    engine->begin(of_case, 2);
}

/* Runs one vector. The line is changed. */
static void run_vector(const struct engine *engine, const char *path, unsigned number, char *line)
{
    static char text[8192], got[65536];
    strcpy(text, line);
    char *expected = strstr(line, " => ");
    int right;
    if (expected == NULL) {
        verdict(0, path, number, text, "(a line that cannot be read)");
        return;
    }
    *expected = 0;
    expected += 4;
    got[0] = 0;
    if (strncmp(line, "load ", 5) == 0) {
        right = run_load(engine, line + 5, strlen(line + 5), expected, got);
    } else if (strncmp(line, "write ", 6) == 0) {
        right = run_write(engine, line + 6, expected, got);
    } else {
        run_call(engine, of_case, (uint32_t)strtoul(line, NULL, 10), (char *)skip_word(line), got);
        right = strcmp(got, expected) == 0;
        if (right && engine->faults(of_case) != 0) {
            strcpy(got, "(the engine's own check)");
            right = 0;
        }
    }
    verdict(right, path, number, text, got);
}

/* The vector behind "each XX YY " for every byte from XX to YY, which stands where it says ??. */
static void run_each(const struct engine *engine, const char *path, unsigned number, const char *line)
{
    static char one[8192];
    unsigned from, to;
    int used;
    if (sscanf(line, "each %x %x %n", &from, &to, &used) != 2) {
        verdict(0, path, number, line, "(a line that cannot be read)");
        return;
    }
    for (unsigned byte = from; byte <= to; byte++) {
        char hex[3];
        sprintf(hex, "%02X", byte);
        strcpy(one, line + used);
        for (char *at = strstr(one, "??"); at != NULL; at = strstr(at, "??"))
            memcpy(at, hex, 2);
        run_vector(engine, path, number, one);
    }
}

static void run_file(const struct engine *engine, const char *path)
{
    FILE *file = fopen(path, "r");
    static char line[8192];
    if (file == NULL) {
        printf("%s: cannot be read\n", path);
        failed++;
        return;
    }
    for (unsigned number = 1; fgets(line, sizeof line, file) != NULL; number++) {
        line[strcspn(line, "\n")] = 0;
        if (line[0] == 0 || line[0] == '#')
            continue;
        if (strncmp(line, "case ", 5) == 0)
            begin_case(engine);
        else if (strncmp(line, "each ", 5) == 0)
            run_each(engine, path, number, line);
        else
            run_vector(engine, path, number, line);
    }
    if (of_case != NULL)
        engine->drop(of_case);
    of_case = NULL;
    fclose(file);
}

int main(int count, char **arguments)
{
    for (int i = 1; i < count; i++)
        run_file(tested_engine, arguments[i]);
    printf("vectors, %s\n%lu passed, %lu failed\n", tested_engine->name, passed, failed);
    return failed != 0;
}
