/* state.h: where everything lies in the state bytes. */
#ifndef BENCH_STATE_H
#define BENCH_STATE_H

#include <string.h>

#include "engine.h"

enum { NODES = 1024, CELL = 33, TRANSACTIONS = 16, COMMITS = 1000000 };

/* Rows are in document order; the first of them are in use. Slots keep their place while rows move. */
enum {
    AT_MARK = 0,                        /* 8 bytes that say that this is a state */
    AT_ROWS = 8,                        /* how many rows are in use */
    AT_OPEN = 10,                       /* bit t-1 for each open transaction t */
    AT_COMMITS = 12,                    /* commits since the last start or load; at the same place as in the library's state */
    AT_NUMBER = 16,                     /* by row: node number */
    AT_SLOT = AT_NUMBER + 4 * NODES,    /* by row: slot; a permutation, those of rows not in use are free */
    AT_DEPTH = AT_SLOT + 2 * NODES,     /* by row: 0 for the document */
    AT_KIND = AT_DEPTH + 2 * NODES,     /* by row */
    AT_INSERTED = AT_KIND + NODES,      /* by row: the open transaction that inserted it, or 0 */
    AT_DELETED = AT_INSERTED + NODES,   /* by row: the open transaction that deleted it or an ancestor, or 0 */
    AT_CHANGED = AT_DELETED + NODES,    /* by row: the open transaction that changed its committed content, or 0 */
    AT_CELL = AT_CHANGED + NODES,       /* by slot: length, content, zeros */
    AT_SAVED = AT_CELL + CELL * NODES,  /* by slot: the committed content of a changed node */
    AT_COUNT = AT_SAVED + CELL * NODES, /* by slot: the commit that inserted the node or last updated it, 0 for none */
    AT_LOCKS = AT_COUNT + 4 * NODES,    /* by transaction and slot: set of modes, empty unless it is open and the slot in use */
    AT_WAITS = AT_LOCKS + 2 * NODES * TRANSACTIONS, /* by transaction: whom it waits for; at the same place as in the library's state */
    AT_END = AT_WAITS + 2 * TRANSACTIONS
};

extern const uint8_t bench_mark[8];

static inline unsigned get16(const uint8_t *bytes)
{
    uint16_t word;
    memcpy(&word, bytes, 2);
    return word;
}

static inline void put16(uint8_t *bytes, unsigned value)
{
    uint16_t word = (uint16_t)value;
    memcpy(bytes, &word, 2);
}

static inline uint32_t get32(const uint8_t *bytes)
{
    uint32_t word;
    memcpy(&word, bytes, 4);
    return word;
}

static inline void put32(uint8_t *bytes, uint32_t word)
{
    memcpy(bytes, &word, 4);
}

static inline unsigned rows_in(const uint8_t *s) { return get16(s + AT_ROWS); }
static inline uint32_t commits_in(const uint8_t *s) { return get32(s + AT_COMMITS); }
static inline unsigned open_set(const uint8_t *s) { return get16(s + AT_OPEN); }
static inline uint32_t number_of(const uint8_t *s, unsigned row) { return get32(s + AT_NUMBER + 4 * row); }
static inline unsigned slot_of(const uint8_t *s, unsigned row) { return get16(s + AT_SLOT + 2 * row); }
static inline unsigned depth_of(const uint8_t *s, unsigned row) { return get16(s + AT_DEPTH + 2 * row); }
static inline uint8_t *cell_at(uint8_t *s, unsigned slot) { return s + AT_CELL + CELL * slot; }
static inline const uint8_t *cell_in(const uint8_t *s, unsigned row) { return s + AT_CELL + CELL * slot_of(s, row); }
static inline uint8_t *saved_at(uint8_t *s, unsigned slot) { return s + AT_SAVED + CELL * slot; }
static inline uint8_t *count_at(uint8_t *s, unsigned slot) { return s + AT_COUNT + 4 * slot; }
static inline uint8_t *locks_of(uint8_t *s, unsigned t) { return s + AT_LOCKS + 2 * NODES * (t - 1); }
static inline unsigned waits_of(const uint8_t *s, unsigned t) { return get16(s + AT_WAITS + 2 * (t - 1)); }
static inline void put_waits(uint8_t *s, unsigned t, unsigned set) { put16(s + AT_WAITS + 2 * (t - 1), set); }

static inline void put_cell(uint8_t *cell, const uint8_t *bytes, size_t length)
{
    cell[0] = (uint8_t)length;
    memcpy(cell + 1, bytes, length);
    memset(cell + 1 + length, 0, CELL - 1 - length);
}

static inline noodlefen_answer granted(uint64_t value) { return value << 16; }
static inline noodlefen_answer waits(unsigned set) { return 1 | (uint64_t)set << 16; }
static inline noodlefen_answer refused(unsigned cause, size_t offset)
{
    return 2 | (uint64_t)cause << 8 | (uint64_t)offset << 16;
}

/* Classes of bytes: what a character may be that begins with the byte. */
enum { NAME_FIRST = 1, NAME_LATER = 2, TEXT_BYTE = 4, BLANK = 8 };
extern const uint8_t bench_class[256];

/* A character of more than one byte whose first byte is of the class: its length, or minus how many bytes there are, of those left, with
 * which one of the class begins. */
int bench_character(unsigned class, const uint8_t *bytes, size_t left);

int bench_name(const uint8_t *bytes, size_t length);
int bench_text(const uint8_t *bytes, size_t length);

/* Whether the bytes are of the form. If so, *row is the row of number n, or count if there is none. */
int bench_form(const uint8_t *s, size_t length, uint32_t n, unsigned *row);

#endif
