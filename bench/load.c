#include "state.h"

enum { MOST_XML = 65536 };

/* The rows read so far, in the order of the state's arrays; the state is changed only when all is read. */
struct rows {
    unsigned count;
    uint16_t depths[NODES];
    uint8_t kinds[NODES];
    uint8_t cells[NODES][CELL];
};

struct reader {
    const uint8_t *xml;
    size_t length, end, at; /* end: the length, or 65,536 of a longer input */
    struct rows *rows;
    unsigned cause;
    size_t offset;
    /* The attributes of the element that is being read, with a hash of their names. */
    unsigned attributes;
    uint16_t attribute_rows[NODES];
    uint32_t attribute_hashes[NODES];
};

static int refuse(struct reader *r, unsigned cause, size_t offset)
{
    r->cause = cause;
    r->offset = offset;
    return 0;
}

/* Byte at a place before the end, or 0, which nothing allows. */
static inline unsigned here(const struct reader *r)
{
    return r->at < r->end ? r->xml[r->at] : 0;
}

static inline unsigned behind(const struct reader *r)
{
    return r->at + 1 < r->length ? r->xml[r->at + 1] : 0;
}

static inline int skip_blanks(struct reader *r)
{
    size_t from = r->at;
    while (bench_class[here(r)] & BLANK)
        r->at++;
    return r->at > from;
}

static int expect(struct reader *r, const char *bytes)
{
    for (; *bytes != 0; bytes++, r->at++)
        if (here(r) != (unsigned char)*bytes)
            return refuse(r, 4, r->at);
    return 1;
}

/* A new row, or NULL with cause 6 at this place. */
static uint8_t *new_row(struct reader *r, unsigned kind, unsigned depth)
{
    struct rows *rows = r->rows;
    if (rows->count == NODES) {
        refuse(r, 6, r->at);
        return NULL;
    }
    rows->kinds[rows->count] = (uint8_t)kind;
    rows->depths[rows->count] = (uint16_t)depth;
    uint8_t *cell = rows->cells[rows->count++];
    memset(cell, 0, CELL);
    return cell;
}

/* A character of more than one byte, of the class by its first byte, at the place `at`, as the next of a content of so many bytes.
 * Answers its length, or 0 if it is refused: a 33rd byte that is right in the character comes before a later one that is wrong. */
static unsigned long_character(struct reader *r, unsigned class, size_t at, size_t length)
{
    int character = bench_character(class, r->xml + at, r->end - at);
    size_t right = (size_t)(character < 0 ? -character : character);
    if (length + right > 32)
        return (unsigned)refuse(r, 5, at + 32 - length);
    return character < 0 ? (unsigned)refuse(r, 4, at + right) : (unsigned)character;
}

static int read_name(struct reader *r, uint8_t *cell)
{
    const uint8_t *xml = r->xml + r->at;
    size_t left = r->end - r->at, length = 0;
    unsigned class = NAME_FIRST;
    while (length < left && (bench_class[xml[length]] & class)) {
        unsigned character = 1;
        if (xml[length] >= 0x80) {
            character = long_character(r, class, r->at + length, length);
            if (character == 0)
                return 0;
        } else if (length == 32) {
            return refuse(r, 5, r->at + 32);
        }
        length += character;
        class = NAME_LATER;
    }
    cell[0] = (uint8_t)length;
    memcpy(cell + 1, xml, length);
    r->at += length;
    return 1;
}

/* A reference; the place is at its &. Answers the byte it stands for, or 0. */
static unsigned read_reference(struct reader *r)
{
    r->at++;
    switch (here(r)) {
    case 'l':
        return expect(r, "lt;") ? '<' : 0;
    case 'g':
        return expect(r, "gt;") ? '>' : 0;
    case 'q':
        return expect(r, "quot;") ? '"' : 0;
    case 'a':
        r->at++;
        if (here(r) == 'p')
            return expect(r, "pos;") ? '\'' : 0;
        return expect(r, "mp;") ? '&' : 0;
    case '#':
        r->at++;
        if (here(r) == '9')
            return expect(r, "9;") ? 9 : 0;
        return expect(r, "10;") ? 10 : 0;
    }
    return (unsigned)refuse(r, 4, r->at);
}

/* Bytes up to the stop byte: a quote, or < for a text. Tab and line feed, the only ones below a space, are read as spaces in a value. */
static int read_bytes(struct reader *r, uint8_t *cell, unsigned stop)
{
    unsigned length = 0, brackets = 0, least = stop == '<' ? 0 : ' ';
    for (;;) {
        unsigned byte = here(r);
        if (byte == stop)
            break;
        if ((bench_class[byte] & TEXT_BYTE) == 0 || byte == '<' || (stop == '<' && byte == '>' && brackets >= 2))
            return refuse(r, 4, r->at);
        if (byte >= 0x80) {
            unsigned character = long_character(r, TEXT_BYTE, r->at, length);
            if (character == 0)
                return 0;
            memcpy(cell + 1 + length, r->xml + r->at, character);
            length += character;
            r->at += character;
            brackets = 0;
            continue;
        }
        if (length == 32)
            return refuse(r, 5, r->at);
        brackets = byte == ']' ? brackets + 1 : 0;
        if (byte == '&') {
            byte = read_reference(r);
            if (byte == 0)
                return 0;
        } else {
            byte = byte < least ? least : byte;
            r->at++;
        }
        cell[++length] = (uint8_t)byte;
    }
    cell[0] = (uint8_t)length;
    return 1;
}

static int is_repeated(struct reader *r, const uint8_t *cell)
{
    uint32_t hash = 2166136261u;
    for (unsigned i = 1; i <= cell[0]; i++)
        hash = (hash ^ cell[i]) * 16777619u;
    for (unsigned i = 0; i < r->attributes; i++)
        if (r->attribute_hashes[i] == hash && memcmp(r->rows->cells[r->attribute_rows[i]], cell, CELL) == 0)
            return 1;
    r->attribute_hashes[r->attributes] = hash;
    r->attribute_rows[r->attributes++] = (uint16_t)(r->rows->count - 1);
    return 0;
}

static int read_attribute(struct reader *r, unsigned depth)
{
    uint8_t *cell = new_row(r, 3, depth);
    if (cell == NULL || !read_name(r, cell))
        return 0;
    if (is_repeated(r, cell))
        return refuse(r, 4, r->at);
    skip_blanks(r);
    if (!expect(r, "="))
        return 0;
    skip_blanks(r);
    unsigned quote = here(r), first = behind(r);
    if (quote != '"' && quote != '\'')
        return refuse(r, 4, r->at);
    if (first != quote && first != '<' && (bench_class[first] & TEXT_BYTE)) {
        cell = new_row(r, 4, depth + 1);
        if (cell == NULL)
            return 0;
        r->at++;
        if (!read_bytes(r, cell, quote))
            return 0;
    } else {
        r->at++;
        if (here(r) != quote)
            return refuse(r, 4, r->at);
    }
    r->at++;
    return 1;
}

/* A start tag or an empty-element tag. Answers 0 if refused, 1 if the element is open, 2 if it is empty. */
static int read_tag(struct reader *r, unsigned depth)
{
    if ((bench_class[behind(r)] & NAME_FIRST) == 0)
        return refuse(r, 4, r->at + 1);
    uint8_t *cell = new_row(r, 2, depth);
    if (cell == NULL)
        return 0;
    r->at++;
    if (r->at >= r->end)
        return refuse(r, 4, r->at);
    if (!read_name(r, cell))
        return 0;
    r->attributes = 0;
    while (skip_blanks(r) && (bench_class[here(r)] & NAME_FIRST))
        if (!read_attribute(r, depth + 1))
            return 0;
    if (here(r) == '/')
        return expect(r, "/>") ? 2 : 0;
    return expect(r, ">");
}

static int read_end_tag(struct reader *r, const uint8_t *cell)
{
    r->at += 2;
    if (r->at > r->end)
        return refuse(r, 4, r->end);
    for (unsigned i = 1; i <= cell[0]; i++, r->at++)
        if (here(r) != cell[i])
            return refuse(r, 4, r->at);
    skip_blanks(r);
    return expect(r, ">");
}

static int read_document(struct reader *r)
{
    uint16_t open[NODES]; /* rows of the open elements */
    unsigned depth = 0;
    if (here(r) == '<' && behind(r) == '?') {
        if (!expect(r, "<?xml version=\"1.0\"") || !expect(r, here(r) == ' ' ? " encoding=\"UTF-8\"?>" : "?>"))
            return 0;
    }
    skip_blanks(r);
    if (here(r) != '<')
        return refuse(r, 4, r->at);
    do {
        if (here(r) != '<') {
            uint8_t *cell = bench_class[here(r)] & TEXT_BYTE ? new_row(r, 4, depth + 1) : NULL;
            if (cell == NULL)
                return r->cause != 0 ? 0 : refuse(r, 4, r->at);
            if (!read_bytes(r, cell, '<'))
                return 0;
        } else if (depth > 0 && behind(r) == '/') {
            if (!read_end_tag(r, r->rows->cells[open[depth - 1]]))
                return 0;
            depth--;
        } else {
            unsigned row = r->rows->count;
            int read = read_tag(r, depth + 1);
            if (read == 0)
                return 0;
            if (read == 1)
                open[depth++] = (uint16_t)row;
        }
    } while (depth > 0);
    skip_blanks(r);
    return r->at == r->length ? 1 : refuse(r, 4, r->at);
}

noodlefen_answer bench_load(uint8_t *s, size_t length, const uint8_t *xml, size_t xml_len)
{
    unsigned row;
    struct rows rows;
    struct reader r;
    if (!bench_form(s, length, 0, &row))
        return refused(13, 0);
    if (open_set(s) != 0)
        return refused(15, 0);
    r.xml = xml;
    r.length = xml_len;
    r.end = xml_len < MOST_XML ? xml_len : MOST_XML;
    r.at = 0;
    r.rows = &rows;
    r.cause = 0;
    rows.count = 1;
    rows.depths[0] = 0;
    rows.kinds[0] = 1;
    memset(rows.cells[0], 0, CELL);
    if (!read_document(&r))
        return refused(r.cause, r.offset);
    put16(s + AT_ROWS, rows.count);
    for (unsigned i = 0; i < NODES; i++)
        put16(s + AT_SLOT + 2 * i, i);
    for (unsigned i = 0; i < rows.count; i++) {
        put32(s + AT_NUMBER + 4 * i, i);
        put16(s + AT_DEPTH + 2 * i, rows.depths[i]);
    }
    memcpy(s + AT_KIND, rows.kinds, rows.count);
    memset(s + AT_INSERTED, 0, NODES);
    memset(s + AT_DELETED, 0, NODES);
    memset(s + AT_CHANGED, 0, NODES);
    memset(s + AT_COUNT, 0, 4 * NODES);
    put32(s + AT_COMMITS, 0);
    memcpy(s + AT_CELL, rows.cells, CELL * (size_t)rows.count);
    return granted(rows.count);
}
