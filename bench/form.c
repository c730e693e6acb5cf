#include "state.h"

const uint8_t bench_mark[8] = {'n', 'o', 'o', 'd', 'l', 'e', 'f', 4};

/* 1,024 slots below 1,024 are a permutation if each is met. Bytes instead of bits: no store has to wait for the one before. */
static int slots_are_permutation(const uint8_t *s)
{
    uint8_t met[NODES] = {0};
    unsigned any = 0, all = 0;
    for (unsigned row = 0; row < NODES; row++) {
        unsigned slot = slot_of(s, row);
        any |= slot;
        met[slot & (NODES - 1)] = 1;
    }
    for (unsigned slot = 0; slot < NODES; slot++)
        all += met[slot];
    return any < NODES && all == NODES;
}

/* The place of a number in a table of size 2^bits: where it stands, or the free place where it would. */
static inline unsigned place_in(const uint8_t *s, const uint16_t *table, unsigned bits, uint32_t number)
{
    unsigned place = number * 2654435769u >> (32 - bits);
    while (table[place] != 0 && number_of(s, table[place] - 1u) != number)
        place = (place + 1) & ((1u << bits) - 1);
    return place;
}

/* A table of rows by their numbers, open addressing: row + 1, or 0 where a place is free. It has twice as many places as there are rows
 * or more, and no more are cleared. */
static int numbers_are_distinct(const uint8_t *s, unsigned count, uint32_t n, unsigned *at)
{
    uint16_t table[2 * NODES];
    unsigned bits = 5;
    while (1u << bits < 2 * count)
        bits++;
    memset(table, 0, sizeof *table << bits);
    for (unsigned row = 0; row < count; row++) {
        unsigned place = place_in(s, table, bits, number_of(s, row));
        if (table[place] != 0)
            return 0;
        table[place] = (uint16_t)(row + 1);
    }
    unsigned found = table[place_in(s, table, bits, n)];
    *at = found != 0 ? found - 1 : count;
    return 1;
}

/* Each mark is 0 or a transaction, and a changed node has its committed content. */
static int marks_are_of_form(const uint8_t *s, unsigned count)
{
    const uint8_t *inserted = s + AT_INSERTED, *deleted = s + AT_DELETED, *changed = s + AT_CHANGED;
    uint8_t most = 0, any = 0;
    for (unsigned row = 0; row < count; row++) {
        uint8_t ends = inserted[row] > deleted[row] ? inserted[row] : deleted[row];
        most = most > ends ? most : ends;
        any = any > changed[row] ? any : changed[row];
    }
    if (most > TRANSACTIONS || any > TRANSACTIONS || (inserted[0] | deleted[0] | changed[0]) != 0)
        return 0;
    unsigned wrong = 0;
    if (any != 0)
        for (unsigned row = 1; row < count; row++)
            wrong |= changed[row] != 0 && s[AT_SAVED + CELL * slot_of(s, row)] - 1u > 31;
    return wrong == 0;
}

/* One loop for each column, so that they can be taken many rows at a time. */
static int rows_are_of_form(const uint8_t *s, unsigned count)
{
    const uint8_t *kinds = s + AT_KIND;
    unsigned wrong = number_of(s, 0) | depth_of(s, 0) | (kinds[0] ^ 1u) | cell_in(s, 0)[0];
    uint16_t deep = 0;
    uint8_t strange = 0;
    for (unsigned row = 1; row < count; row++)
        deep |= (uint16_t)((uint16_t)(depth_of(s, row) - 1) > (uint16_t)depth_of(s, row - 1));
    for (unsigned row = 1; row < count; row++)
        strange |= (uint8_t)((uint8_t)(kinds[row] - 2) > 2);
    for (unsigned row = 1; row < count; row++)
        wrong |= s[AT_CELL + CELL * slot_of(s, row)] - 1u > 31;
    return (wrong | deep | strange) == 0;
}

/* Only open transactions wait, and only for open ones. */
static int waits_are_of_form(const uint8_t *s)
{
    unsigned open = open_set(s), strange = 0;
    for (unsigned t = 1; t <= TRANSACTIONS; t++)
        strange |= waits_of(s, t) & ~(open & (0u - (open >> (t - 1) & 1)));
    return strange == 0;
}

int bench_form(const uint8_t *s, size_t length, uint32_t n, unsigned *row)
{
    if (length < AT_END || memcmp(s, bench_mark, 8) != 0)
        return 0;
    unsigned count = rows_in(s);
    if (count - 1 >= NODES)
        return 0;
    return slots_are_permutation(s) && rows_are_of_form(s, count) && marks_are_of_form(s, count) && waits_are_of_form(s)
        && numbers_are_distinct(s, count, n, row);
}
