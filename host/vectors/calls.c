#include "calls.h"

#include <stdio.h>
#include <stdlib.h>
#include <string.h>

#include "bytes.h"

void describe(noodlefen_answer answer, char *got)
{
    if (noodlefen_granted(answer))
        sprintf(got, "granted %lu", (unsigned long)noodlefen_value(answer));
    else if (noodlefen_waits(answer))
        sprintf(got, "waits %lu", (unsigned long)noodlefen_value(answer));
    else
        sprintf(got, "refused %u %lu", noodlefen_cause(answer), (unsigned long)noodlefen_value(answer));
}

enum { MOST_WORDS = 8, DECLARATION = 39 };

struct words {
    char *list[MOST_WORDS];
    int count;
};

static struct words split(char *text)
{
    struct words words = {{0}, 0};
    for (char *word = strtok(text, " "); word != NULL && words.count < MOST_WORDS; word = strtok(NULL, " "))
        words.list[words.count++] = word;
    return words;
}

static uint32_t number(const struct words *words, int place)
{
    unsigned long long value = place < words->count ? strtoull(words->list[place], NULL, 10) : 0;
    if (value > UINT32_MAX) {
        fprintf(stderr, "a vector has the number %s\n", words->list[place]);
        exit(2);
    }
    return (uint32_t)value;
}

static struct bytes bytes_of(const struct words *words, int place)
{
    const char *word = place < words->count ? words->list[place] : "";
    return unescape(word, strlen(word));
}

static size_t room(const struct words *words, int place, size_t otherwise)
{
    return place < words->count ? strtoul(words->list[place], NULL, 10) : otherwise;
}

static uint8_t numbers[NOODLEFEN_NUMBER_BYTES * NOODLEFEN_NODES], cells[NOODLEFEN_CELL_BYTES * NOODLEFEN_NODES];

static void list_nodes(char *got, size_t count, int with_cells)
{
    for (size_t i = 0; i < count; i++) {
        got += sprintf(got, i == 0 ? "%u" : ",%u", (unsigned)noodlefen_list_number(numbers, i));
        if (with_cells) {
            strcpy(got, "=");
            append_readable(got, noodlefen_cell_content(cells, i), noodlefen_cell_length(cells, i));
            got += strlen(got);
        }
    }
}

/* The counts of the nodes that the words name; granted, unless one is refused otherwise than for 7. */
static noodlefen_answer counts(const struct engine *engine, void *e, const struct words *w, char *value)
{
    for (int i = 1; i < w->count; i++) {
        noodlefen_answer answer = engine->count_of(e, number(w, i));
        const char *comma = i > 1 ? "," : "";
        if (noodlefen_granted(answer))
            value += sprintf(value, "%s%lu", comma, (unsigned long)noodlefen_value(answer));
        else if (answer == (NOODLEFEN_REFUSED | NOODLEFEN_NO_NODE << 8))
            value += sprintf(value, "%s-", comma);
        else
            return answer;
    }
    return 0;
}

static noodlefen_answer call(const struct engine *engine, void *e, uint32_t t, const struct words *w, char *value)
{
    const char *what = w->list[0];
    noodlefen_node n = number(w, 1);
    noodlefen_answer answer = 0;
    if (strcmp(what, "start") == 0)
        return engine->start(e);
    if (strcmp(what, "begin") == 0)
        return engine->begin(e, t);
    if (strcmp(what, "commit") == 0)
        return engine->commit(e, t);
    if (strcmp(what, "abort") == 0)
        return engine->abort(e, t);
    if (strcmp(what, "commits") == 0) {
        engine->put_commits(e, n);
    } else if (strcmp(what, "count") == 0) {
        answer = engine->count_of(e, n);
        sprintf(value, "%lu", (unsigned long)noodlefen_value(answer));
    } else if (strcmp(what, "counts") == 0) {
        answer = counts(engine, e, w, value);
    } else if (strcmp(what, "load") == 0) {
        struct bytes xml = bytes_of(w, 1);
        answer = engine->load(e, xml.bytes, xml.length);
        sprintf(value, "%lu", (unsigned long)noodlefen_value(answer));
        free(xml.bytes);
    } else if (strcmp(what, "write") == 0) {
        static uint8_t out[NOODLEFEN_XML_BYTES];
        answer = engine->write(e, out, sizeof out);
        if (noodlefen_granted(answer))
            append_readable(value, out + DECLARATION, noodlefen_value(answer) - DECLARATION);
    } else if (strcmp(what, "T") == 0) {
        answer = engine->test(e, t, n);
        sprintf(value, "%u,%u", noodlefen_kind(answer), (unsigned)noodlefen_number(answer));
    } else if (strcmp(what, "C") == 0) {
        answer = engine->child(e, t, n, number(w, 2));
        if (noodlefen_kind(answer) == 0)
            strcpy(value, "none");
        else
            sprintf(value, "%u,%u", noodlefen_kind(answer), (unsigned)noodlefen_number(answer));
    } else if (strcmp(what, "R") == 0) {
        uint8_t out[NOODLEFEN_CONTENT_BYTES];
        answer = engine->read(e, t, n, out, room(w, 2, sizeof out));
        if (noodlefen_granted(answer))
            append_readable(value, out, noodlefen_value(answer));
    } else if (strcmp(what, "U") == 0) {
        struct bytes bytes = bytes_of(w, 2);
        answer = engine->update(e, t, n, bytes.bytes, bytes.length);
        free(bytes.bytes);
    } else if (strcmp(what, "D") == 0) {
        answer = engine->delete(e, t, n);
    } else if (strcmp(what, "I") == 0) {
        struct bytes bytes = bytes_of(w, 3);
        answer = engine->insert(e, t, n, number(w, 2), bytes.bytes, bytes.length, number(w, 4), number(w, 5));
        free(bytes.bytes);
    } else if (strcmp(what, "TT") == 0) {
        answer = engine->test_tree(e, t, n, numbers, room(w, 2, sizeof numbers));
        if (noodlefen_granted(answer))
            list_nodes(value, noodlefen_value(answer), 0);
    } else if (strcmp(what, "RR") == 0) {
        answer = engine->read_tree(e, t, n, numbers, room(w, 2, sizeof numbers), cells, room(w, 3, sizeof cells));
        if (noodlefen_granted(answer))
            list_nodes(value, noodlefen_value(answer), 1);
    } else if (strcmp(what, "UU") == 0) {
        struct bytes from = bytes_of(w, 2), to = bytes_of(w, 3);
        answer = engine->rename_tree(e, t, n, from.bytes, from.length, to.bytes, to.length);
        sprintf(value, "%lu", (unsigned long)noodlefen_value(answer));
        free(from.bytes);
        free(to.bytes);
    } else {
        fprintf(stderr, "a vector has the call %s\n", what);
        exit(2);
    }
    return answer;
}

void run_call(const struct engine *engine, void *e, uint32_t t, char *text, char *got)
{
    static char value[5 * NOODLEFEN_XML_BYTES];
    struct words words = split(text);
    value[0] = 0;
    noodlefen_answer answer = call(engine, e, t, &words, value);
    if (noodlefen_granted(answer))
        sprintf(got, value[0] != 0 ? "granted %.4000s" : "granted", value);
    else if (noodlefen_waits(answer))
        sprintf(got, "waits %lu", (unsigned long)noodlefen_value(answer));
    else
        sprintf(got, "refused %u", noodlefen_cause(answer));
}
