#include "state.h"

noodlefen_answer bench_start(uint8_t *s, size_t length)
{
    if (length < AT_END)
        return refused(13, 0);
    memset(s, 0, AT_END);
    memcpy(s, bench_mark, 8);
    put16(s + AT_ROWS, 1);
    s[AT_KIND] = 1;
    for (unsigned row = 0; row < NODES; row++)
        put16(s + AT_SLOT + 2 * row, row);
    return granted(0);
}

/* The refusals 13 (state), 1, and 2 or 3; 0 if there is none. */
static unsigned first_causes(const uint8_t *s, size_t length, uint32_t t, unsigned wanted_open)
{
    unsigned row;
    if (!bench_form(s, length, 0, &row))
        return 13;
    if (t - 1 >= TRANSACTIONS)
        return 1;
    if ((open_set(s) >> (t - 1) & 1) != wanted_open)
        return wanted_open ? 3 : 2;
    return 0;
}

noodlefen_answer bench_begin(uint8_t *s, size_t length, uint32_t t)
{
    unsigned cause = first_causes(s, length, t, 0);
    if (cause != 0)
        return refused(cause, 0);
    put16(s + AT_OPEN, open_set(s) | 1u << (t - 1));
    return granted(0);
}

/* Moves a row up to the place of one that was taken out, whose slot stays free: the slots change places. */
static void move_row(uint8_t *s, unsigned from, unsigned to)
{
    unsigned freed = slot_of(s, to);
    put32(s + AT_NUMBER + 4 * to, number_of(s, from));
    put16(s + AT_SLOT + 2 * to, slot_of(s, from));
    put16(s + AT_SLOT + 2 * from, freed);
    put16(s + AT_DEPTH + 2 * to, depth_of(s, from));
    s[AT_KIND + to] = s[AT_KIND + from];
    s[AT_INSERTED + to] = s[AT_INSERTED + from];
    s[AT_DELETED + to] = s[AT_DELETED + from];
    s[AT_CHANGED + to] = s[AT_CHANGED + from];
}

/* Ends t in one pass over the rows: takes out those with the mark t in one column, clears the other marks t and the lock words of t; what
 * it wrote is restored, or bears the count of this commit; then nobody is said to wait for t. Free slots have no locks, on which insert
 * and load rely, so no other words have to be cleared. It stays so: on a row that is taken out there are no locks of others, since t has
 * LW on it or above it, which clashes with every mode, and a lock comes with one on each row above. */
static void end_transaction(uint8_t *s, uint32_t t, unsigned removed_mark, unsigned cleared_mark, int restore)
{
    unsigned count = rows_in(s), kept = 0;
    uint8_t *locks = locks_of(s, t);
    for (unsigned row = 0; row < count; row++) {
        unsigned slot = slot_of(s, row);
        put16(locks + 2 * slot, 0);
        if ((s[AT_INSERTED + row] | s[AT_DELETED + row] | s[AT_CHANGED + row]) != 0) { /* most rows have no mark */
            if (s[removed_mark + row] == t)
                continue;
            if (!restore && (s[AT_INSERTED + row] == t || s[AT_CHANGED + row] == t))
                put32(count_at(s, slot), commits_in(s));
            if (s[cleared_mark + row] == t)
                s[cleared_mark + row] = 0;
            if (s[AT_CHANGED + row] == t) {
                s[AT_CHANGED + row] = 0;
                if (restore)
                    memcpy(cell_at(s, slot), saved_at(s, slot), CELL);
            }
        }
        if (kept != row)
            move_row(s, row, kept);
        kept++;
    }
    put16(s + AT_ROWS, kept);
    put16(s + AT_OPEN, open_set(s) & ~(1u << (t - 1)));
    put_waits(s, t, 0);
    for (unsigned u = 1; u <= TRANSACTIONS; u++)
        put_waits(s, u, waits_of(s, u) & ~(1u << (t - 1)));
}

noodlefen_answer bench_commit(uint8_t *s, size_t length, uint32_t t)
{
    unsigned cause = first_causes(s, length, t, 1);
    if (cause != 0)
        return refused(cause, 0);
    if (commits_in(s) >= COMMITS)
        return refused(18, 0);
    put32(s + AT_COMMITS, commits_in(s) + 1);
    end_transaction(s, t, AT_DELETED, AT_INSERTED, 0);
    return granted(0);
}

noodlefen_answer bench_abort(uint8_t *s, size_t length, uint32_t t)
{
    unsigned cause = first_causes(s, length, t, 1);
    if (cause != 0)
        return refused(cause, 0);
    end_transaction(s, t, AT_INSERTED, AT_DELETED, 1);
    return granted(0);
}

/* A row that an open transaction inserted is not committed. */
noodlefen_answer bench_count_of(const uint8_t *s, size_t length, noodlefen_node n)
{
    unsigned row;
    if (!bench_form(s, length, n, &row))
        return refused(13, 0);
    if (row == rows_in(s) || s[AT_INSERTED + row] != 0)
        return refused(7, 0);
    return granted(get32(s + AT_COUNT + 4 * slot_of(s, row)));
}
