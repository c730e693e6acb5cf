#include "state.h"

enum { MOST_XML = 65536 };

static const char declaration[] = "<?xml version=\"1.0\" encoding=\"UTF-8\"?>\n";

/* Bytes that a byte of a text and of a value is written as, less one. */
#define IN_BOTH ['&'] = 4, ['<'] = 3, ['>'] = 3, ['"'] = 5
static const uint8_t in_text[256] = {IN_BOTH}, in_value[256] = {IN_BOTH, [9] = 3, [10] = 4};
#undef IN_BOTH

struct writer {
    const uint8_t *s;
    uint8_t *out;      /* NULL while only the length is wanted */
    size_t length;
    int expressible;
    /* The nodes that are open, by depth. */
    uint16_t rows[NODES + 1];
    uint8_t has_content[NODES + 1];
    uint8_t last_kind[NODES + 1]; /* of the last child */
    /* The attributes of the element opened last. */
    unsigned attributes;
    uint16_t attribute_rows[NODES];
    uint32_t attribute_hashes[NODES];
};

static const uint8_t *committed_cell(const uint8_t *s, unsigned row)
{
    return s + (s[AT_CHANGED + row] != 0 ? AT_SAVED : AT_CELL) + CELL * slot_of(s, row);
}

static inline void put(struct writer *w, const void *bytes, size_t length)
{
    if (w->out != NULL)
        memcpy(w->out + w->length, bytes, length);
    w->length += length;
}

static inline void put_text(struct writer *w, const uint8_t *cell, int value)
{
    const uint8_t *extra = value ? in_value : in_text;
    if (w->out == NULL) {
        for (unsigned i = 1; i <= cell[0]; i++)
            w->length += 1u + extra[cell[i]];
        return;
    }
    for (unsigned i = 1; i <= cell[0]; i++)
        switch (extra[cell[i]] > 0 ? cell[i] : 0) {
        case '&': put(w, "&amp;", 5); break;
        case '<': put(w, "&lt;", 4); break;
        case '>': put(w, "&gt;", 4); break;
        case '"': put(w, "&quot;", 6); break;
        case 9: put(w, "&#9;", 4); break;
        case 10: put(w, "&#10;", 5); break;
        default: w->out[w->length++] = cell[i];
        }
}

static void check_attribute(struct writer *w, unsigned row, const uint8_t *cell)
{
    uint32_t hash = 2166136261u;
    for (unsigned i = 1; i <= cell[0]; i++)
        hash = (hash ^ cell[i]) * 16777619u;
    for (unsigned i = 0; i < w->attributes; i++)
        if (w->attribute_hashes[i] == hash) {
            const uint8_t *other = committed_cell(w->s, w->attribute_rows[i]);
            if (other[0] == cell[0] && memcmp(other + 1, cell + 1, cell[0]) == 0)
                w->expressible = 0;
        }
    w->attribute_hashes[w->attributes] = hash;
    w->attribute_rows[w->attributes++] = (uint16_t)row;
}

static void close_node(struct writer *w, unsigned depth)
{
    unsigned row = w->rows[depth];
    if (w->s[AT_KIND + row] == 3) {
        put(w, "\"", 1);
    } else if (w->s[AT_KIND + row] == 2 && !w->has_content[depth]) {
        put(w, "/>", 2);
    } else if (w->s[AT_KIND + row] == 2) {
        const uint8_t *cell = committed_cell(w->s, row);
        put(w, "</", 2);
        put(w, cell + 1, cell[0]);
        put(w, ">", 1);
    }
}

static void open_node(struct writer *w, unsigned row, unsigned depth)
{
    const uint8_t *cell = committed_cell(w->s, row);
    unsigned kind = w->s[AT_KIND + row], parent = depth - 1;
    int in_element = w->s[AT_KIND + w->rows[parent]] == 2;
    if (kind == 3) {
        if (w->out == NULL)
            check_attribute(w, row, cell);
        put(w, " ", 1);
        put(w, cell + 1, cell[0]);
        put(w, "=\"", 2);
    } else {
        if (in_element && !w->has_content[parent]) {
            w->has_content[parent] = 1;
            put(w, ">", 1);
        }
        if (in_element && kind == 4 && w->last_kind[parent] == 4)
            w->expressible = 0;
        if (kind == 4) {
            put_text(w, cell, !in_element);
        } else {
            w->attributes = 0;
            put(w, "<", 1);
            put(w, cell + 1, cell[0]);
        }
    }
    w->last_kind[parent] = (uint8_t)kind;
    w->rows[depth] = (uint16_t)row;
    w->has_content[depth] = 0;
    w->last_kind[depth] = 0;
}

static void write_rows(struct writer *w)
{
    unsigned count = rows_in(w->s), open = 0;
    w->length = 0;
    w->rows[0] = 0;
    w->has_content[0] = 0;
    w->last_kind[0] = 0;
    w->attributes = 0;
    put(w, declaration, sizeof declaration - 1);
    for (unsigned row = 1; row < count; row++) {
        unsigned depth = depth_of(w->s, row);
        if (w->s[AT_INSERTED + row] != 0 || depth > open + 1)
            continue;
        for (; open >= depth; open--)
            close_node(w, open);
        open_node(w, row, depth);
        open = depth;
    }
    if (w->last_kind[0] == 0)
        w->expressible = 0;
    for (; open > 0; open--)
        close_node(w, open);
}

noodlefen_answer bench_write(const uint8_t *s, size_t length, uint8_t *out, size_t out_len)
{
    unsigned row;
    struct writer w;
    if (!bench_form(s, length, 0, &row))
        return refused(13, 0);
    w.s = s;
    w.out = NULL;
    w.expressible = 1;
    write_rows(&w);
    if (!w.expressible || w.length > MOST_XML)
        return refused(14, 0);
    if (w.length > out_len)
        return refused(13, 0);
    w.out = out;
    write_rows(&w);
    return granted(w.length);
}
