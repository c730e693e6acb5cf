#include "flat.h"

#include <stdio.h>
#include <stdlib.h>
#include <string.h>

static void add(struct flat *flat, const char *bytes, size_t length)
{
    while (flat->length + length > flat->room) {
        flat->room = 2 * flat->room + 256;
        flat->text = realloc(flat->text, flat->room);
        if (flat->text == NULL)
            abort();
    }
    memcpy(flat->text + flat->length, bytes, length);
    flat->length += length;
}

void flat_add(struct flat *flat, char kind, unsigned depth, const char *content, size_t length)
{
    char head[48];
    /* The length too, for a content may hold line feeds. */
    int head_length = sprintf(head, "%c %u %lu ", kind, depth, (unsigned long)length);
    add(flat, head, (size_t)head_length);
    add(flat, content, length);
    add(flat, "\n", 1);
}

void flat_add_value(struct flat *flat, unsigned depth, const char *content, size_t length)
{
    if (length > 0)
        flat_add(flat, 't', depth, content, length);
}

void flat_free(struct flat *flat)
{
    free(flat->text);
    memset(flat, 0, sizeof *flat);
}

int flat_equal(const struct flat *one, const struct flat *other)
{
    return one->length == other->length && (one->length == 0 || memcmp(one->text, other->text, one->length) == 0);
}

void flat_of_engine(struct flat *flat, const struct engine *engine, void *e)
{
    static uint8_t numbers[NOODLEFEN_NUMBER_BYTES * NOODLEFEN_NODES], cells[NOODLEFEN_CELL_BYTES * NOODLEFEN_NODES];
    static noodlefen_node open[NOODLEFEN_NODES]; /* the last node and those above it, by depth; the document first */
    unsigned depth = 0;
    engine->begin(e, 1);
    noodlefen_answer answer = engine->read_tree(e, 1, 0, numbers, sizeof numbers, cells, sizeof cells);
    for (size_t i = 1; i < noodlefen_value(answer); i++) {
        noodlefen_node number = noodlefen_list_number(numbers, i);
        noodlefen_answer test = engine->test(e, 1, number);
        const char *content = (const char *)noodlefen_cell_content(cells, i);
        size_t length = noodlefen_cell_length(cells, i);
        while (depth > 0 && open[depth] != noodlefen_number(test))
            depth--;
        depth++;
        open[depth] = number;
        flat_add(flat, "  eat"[noodlefen_kind(test)], depth, content, length);
    }
    engine->abort(e, 1);
}
