/*
 * panel_test.c: calls the panel library as a panel does, and some ways that no panel should.
 *
 * Every lent buffer has guard bytes on both sides. After each call: guards and input unchanged; if it was granted, the bytes behind the
 * answer unchanged, and the state too if the call only reads it; if not, the buffers unchanged, and the state too, but for the two bytes of
 * its transaction's set if it waits. Last line 'N passed, 0 failed'.
 */
#include <stdio.h>
#include <stdlib.h>
#include <string.h>

#include "noodlefen.h"

enum name { START, LOAD, WRITE, COUNT, BEGIN, COMMIT, ABORT, T, C, R, U, D, I, TT, RR, UU, NAMES };

struct call {
    enum name what;
    uint32_t t, k, kind;
    noodlefen_node n, m;
    const char *a, *b;          /* U, I: content; UU: names; load: the document */
    size_t a_length, b_length;  /* 0: the length of the text */
    size_t room, cells_room;    /* lent for the answer */
};

enum { GUARD = 64 };
enum { MOST_CAUSE = 18, NO_CALL_GIVES = 16 };

/* Where things are in the state, by docs/STATE.md: the number of nodes and the commits so far; the outline by places, with slots and
 * numbers; the cells by slots, with counts; the remembered sets by transaction. */
enum { HELD = 10, COMMITS = 12, OUTLINE = 16, ENTRY = 8, NUMBER = 4, CELLS = 8208, CELL_LENGTH = 74, CELL_COUNT = 70, SETS = 116752,
       SET_BYTES = 2 };

/* Lent bytes with guards, and what they were before the call. */
struct lent {
    uint8_t *memory, *before;
    size_t length, all;
    uint8_t *bytes;
};

static unsigned long passed, failed;
static unsigned long causes_seen[256], granted_seen, waits_seen;

static uint64_t random_state = 1;

static unsigned below(unsigned bound)
{
    random_state = random_state * 6364136223846793005u + 1442695040888963407u;
    return (unsigned)(random_state >> 33) % bound;
}

static void check(int right, const char *what, int line)
{
    if (right) {
        passed++;
        return;
    }
    failed++;
    printf("FAILED: %s (call at line %d)\n", what, line);
}

/* Lends this many bytes, at an odd address if shift is odd. */
static struct lent lend(size_t length, size_t shift, const void *content)
{
    struct lent lent;
    lent.length = length;
    lent.all = shift + length + 2 * GUARD;
    lent.memory = malloc(lent.all);
    lent.before = malloc(lent.all);
    if (lent.memory == NULL || lent.before == NULL)
        abort();
    for (size_t i = 0; i < lent.all; i++)
        lent.memory[i] = (uint8_t)(0xC3 ^ i);
    lent.bytes = lent.memory + GUARD + shift;
    if (content != NULL && length > 0)
        memcpy(lent.bytes, content, length);
    memcpy(lent.before, lent.memory, lent.all);
    return lent;
}

/* Whether all bytes but these are as they were. */
static int kept_but_part(const struct lent *lent, size_t offset, size_t length)
{
    size_t from = (size_t)(lent->bytes - lent->memory) + offset, to = from + length;
    return offset + length <= lent->length && memcmp(lent->memory, lent->before, from) == 0
        && memcmp(lent->memory + to, lent->before + to, lent->all - to) == 0;
}

/* Whether all bytes but those from the first to the answer's end are as they were. */
static int kept_but(const struct lent *lent, size_t answered)
{
    return kept_but_part(lent, 0, answered);
}

/* The set that is remembered of t. */
static unsigned set_of(const struct lent *s, uint32_t t)
{
    const uint8_t *set = s->bytes + SETS + SET_BYTES * (t - 1);
    return set[0] | (unsigned)set[1] << 8;
}

/* A granted call may change the state, if it does not only read it; one that waits, the set of its transaction, which it answers. */
static int state_kept(const struct lent *s, const struct call *c, noodlefen_answer answer)
{
    if (!noodlefen_waits(answer))
        return kept_but(s, noodlefen_granted(answer) && c->what != WRITE && c->what != COUNT ? s->length : 0);
    return c->t >= 1 && c->t <= NOODLEFEN_TRANSACTIONS && set_of(s, c->t) == noodlefen_value(answer)
        && kept_but_part(s, SETS + SET_BYTES * (c->t - 1), SET_BYTES);
}

static void give_back(struct lent *lent)
{
    free(lent->memory);
    free(lent->before);
}

static noodlefen_answer call_library(const struct call *c, const struct lent *s, const struct lent *a, const struct lent *b,
                                     const struct lent *out, const struct lent *cells)
{
    uint8_t *state = s->bytes;
    size_t length = s->length;
    switch (c->what) {
    case START: return noodlefen_start(state, length);
    case LOAD: return noodlefen_load(state, length, a->bytes, a->length);
    case WRITE: return noodlefen_write(state, length, out->bytes, out->length);
    case COUNT: return noodlefen_count_of(state, length, c->n);
    case BEGIN: return noodlefen_begin(state, length, c->t);
    case COMMIT: return noodlefen_commit(state, length, c->t);
    case ABORT: return noodlefen_abort(state, length, c->t);
    case T: return noodlefen_test(state, length, c->t, c->n);
    case C: return noodlefen_child(state, length, c->t, c->n, c->k);
    case R: return noodlefen_read(state, length, c->t, c->n, out->bytes, out->length);
    case U: return noodlefen_update(state, length, c->t, c->n, a->bytes, a->length);
    case D: return noodlefen_delete(state, length, c->t, c->n);
    case I: return noodlefen_insert(state, length, c->t, c->m, c->kind, a->bytes, a->length, c->n, c->k);
    case TT: return noodlefen_test_tree(state, length, c->t, c->n, out->bytes, out->length);
    case RR: return noodlefen_read_tree(state, length, c->t, c->n, out->bytes, out->length, cells->bytes, cells->length);
    case UU: return noodlefen_rename_tree(state, length, c->t, c->n, a->bytes, a->length, b->bytes, b->length);
    case NAMES: break;
    }
    abort();
}

/* The bytes of the two buffers that a granted call answers in. */
static size_t answered_bytes(const struct call *c, noodlefen_answer answer)
{
    size_t value = (size_t)noodlefen_value(answer);
    if (!noodlefen_granted(answer))
        return 0;
    return c->what == R || c->what == WRITE ? value : c->what == TT || c->what == RR ? NOODLEFEN_NUMBER_BYTES * value : 0;
}

static size_t answered_cells(const struct call *c, noodlefen_answer answer)
{
    return noodlefen_granted(answer) && c->what == RR ? NOODLEFEN_CELL_BYTES * (size_t)noodlefen_value(answer) : 0;
}

/* Makes a call on the state and checks what holds for every call. text takes the first buffer's bytes, if it is not NULL. */
static noodlefen_answer make(struct lent *state, const struct call *c, int line, char *text)
{
    struct lent a = lend(c->a_length > 0 ? c->a_length : c->a != NULL ? strlen(c->a) : 0, 1, c->a);
    struct lent b = lend(c->b_length > 0 ? c->b_length : c->b != NULL ? strlen(c->b) : 0, 0, c->b);
    struct lent out = lend(c->room, 1, NULL), cells = lend(c->cells_room, 0, NULL);
    memcpy(state->before, state->memory, state->all);
    noodlefen_answer answer = call_library(c, state, &a, &b, &out, &cells);
    int known = noodlefen_granted(answer) || (noodlefen_waits(answer) && noodlefen_cause(answer) == 0)
        || (noodlefen_refused(answer) && noodlefen_cause(answer) >= 1 && noodlefen_cause(answer) <= MOST_CAUSE
            && noodlefen_cause(answer) != NO_CALL_GIVES);
    check(known, "an answer that no call gives", line);
    check(state_kept(state, c, answer), "state bytes or their guards", line);
    check(kept_but(&a, 0) && kept_but(&b, 0), "input bytes", line);
    check(kept_but(&out, answered_bytes(c, answer)), "bytes around the answer", line);
    check(kept_but(&cells, answered_cells(c, answer)), "bytes around the cells", line);
    if (text != NULL && noodlefen_granted(answer)) {
        memcpy(text, out.bytes, answered_bytes(c, answer));
        text[answered_bytes(c, answer)] = 0;
    }
    granted_seen += noodlefen_granted(answer) ? 1 : 0;
    waits_seen += noodlefen_waits(answer) ? 1 : 0;
    causes_seen[noodlefen_cause(answer)]++;
    give_back(&a);
    give_back(&b);
    give_back(&out);
    give_back(&cells);
    return answer;
}

static struct lent state;

static noodlefen_answer granted(uint64_t value) { return value << 16; }
static noodlefen_answer waits(uint64_t set) { return NOODLEFEN_WAITS | set << 16; }
static noodlefen_answer refused(uint64_t cause, uint64_t offset) { return NOODLEFEN_REFUSED | cause << 8 | offset << 16; }

#define CALL(...) make(&state, &(struct call){__VA_ARGS__}, __LINE__, NULL)
#define EXPECT(answer, ...) check(CALL(__VA_ARGS__) == (answer), "another answer", __LINE__)

static const char tree_e[] = "<lift rope=\"2\"><speed>6</speed><ramp/></lift>";

static void begin_with(const char *xml)
{
    EXPECT(granted(0), .what = START);
    noodlefen_answer answer = CALL(.what = LOAD, .a = xml);
    check(noodlefen_granted(answer), "load", __LINE__);
    EXPECT(granted(0), .what = BEGIN, .t = 1);
    EXPECT(granted(0), .what = BEGIN, .t = 2);
}

static void test_transactions(void)
{
    begin_with(tree_e);
    EXPECT(refused(1, 0), .what = BEGIN, .t = 0);
    EXPECT(refused(1, 0), .what = BEGIN, .t = 17);
    EXPECT(refused(1, 0), .what = COMMIT, .t = 0xFFFFFFFFu);
    EXPECT(refused(2, 0), .what = BEGIN, .t = 1);
    EXPECT(refused(3, 0), .what = ABORT, .t = 16);
    EXPECT(refused(3, 0), .what = T, .t = 3, .n = 99);
    EXPECT(refused(15, 0), .what = LOAD, .a = tree_e);
    EXPECT(granted(0), .what = COMMIT, .t = 1);
    EXPECT(granted(0), .what = ABORT, .t = 2);
    EXPECT(refused(3, 0), .what = COMMIT, .t = 1);
}

static void test_steps(void)
{
    char text[65537];
    begin_with(tree_e);
    EXPECT(granted(1 + (2ull << 32)), .what = T, .t = 1, .n = 4);
    EXPECT(granted(0 + (1ull << 32)), .what = T, .t = 1, .n = 0);
    EXPECT(granted(2 + (3ull << 32)), .what = C, .t = 1, .n = 1, .k = 1);
    EXPECT(granted(0), .what = C, .t = 1, .n = 1, .k = 4);
    EXPECT(granted(0), .what = C, .t = 1, .n = 1, .k = 0xFFFFFFFFu);
    EXPECT(granted(5), .what = R, .t = 1, .n = 4, .room = 5);
    EXPECT(refused(13, 0), .what = R, .t = 1, .n = 4, .room = 4);
    EXPECT(refused(13, 0), .what = TT, .t = 1, .n = 1, .room = 23);
    EXPECT(granted(6), .what = TT, .t = 1, .n = 1, .room = 24);
    EXPECT(refused(13, 0), .what = RR, .t = 1, .n = 1, .room = 24, .cells_room = 197);
    EXPECT(refused(13, 0), .what = RR, .t = 1, .n = 1, .room = 23, .cells_room = 198);
    EXPECT(granted(6), .what = RR, .t = 1, .n = 1, .room = 24, .cells_room = 198);
    EXPECT(waits(1), .what = U, .t = 2, .n = 5, .a = "7");
    EXPECT(refused(7, 0), .what = R, .t = 1, .n = 7, .room = 32);
    EXPECT(refused(8, 0), .what = D, .t = 1, .n = 0);
    EXPECT(refused(8, 0), .what = I, .t = 1, .m = 9, .kind = 5, .a = "x", .n = 1, .k = 1);
    EXPECT(refused(9, 0), .what = U, .t = 1, .n = 4, .a = "9");
    EXPECT(refused(9, 0), .what = U, .t = 1, .n = 5);
    EXPECT(refused(9, 0), .what = UU, .t = 1, .n = 1, .a = "a", .b = "b c");
    EXPECT(refused(9, 0), .what = U, .t = 1, .n = 5, .a = "\xC3");
    EXPECT(refused(9, 0), .what = I, .t = 1, .m = 9, .kind = 2, .a = "\xCC\x88", .n = 1, .k = 2);
    EXPECT(granted(0), .what = UU, .t = 1, .n = 1, .a = "\xC3\xA4", .b = "\xE3\x81\x82");
    EXPECT(refused(10, 0), .what = I, .t = 1, .m = 6, .kind = 2, .a = "x", .n = 1, .k = 2);
    EXPECT(refused(11, 0), .what = I, .t = 1, .m = 9, .kind = 2, .a = "x", .n = 1, .k = 5);
    EXPECT(granted(0), .what = I, .t = 1, .m = 9, .kind = 2, .a = "x", .n = 1, .k = 4);
    EXPECT(granted(0), .what = U, .t = 1, .n = 5, .a = "7");
    EXPECT(granted(1), .what = UU, .t = 1, .n = 0, .a = "speed", .b = "pace");
    EXPECT(granted(0), .what = D, .t = 1, .n = 2);
    EXPECT(refused(7, 0), .what = T, .t = 1, .n = 3);
    EXPECT(granted(0), .what = COMMIT, .t = 1);
    EXPECT(refused(13, 0), .what = WRITE, .room = 76);
    EXPECT(granted(77), .what = WRITE, .room = 77);
    noodlefen_answer answer = make(&state, &(struct call){.what = WRITE, .room = 65536}, __LINE__, text);
    check(answer == granted(77) && strcmp(text, "<?xml version=\"1.0\" encoding=\"UTF-8\"?>\n"
          "<lift><pace>7</pace><ramp/><x/></lift>") == 0, "the written settings", __LINE__);
}

#define EXPECT_SETS(first, second, third) \
    check(set_of(&state, 1) == (first) && set_of(&state, 2) == (second) && set_of(&state, 3) == (third), "the remembered sets", __LINE__)

/* Waits are remembered and rings refused, where t1 has changed 5, t2 3 and t3 6. */
static void test_rings(void)
{
    begin_with(tree_e);
    EXPECT(granted(0), .what = BEGIN, .t = 3);
    EXPECT(granted(0), .what = U, .t = 1, .n = 5, .a = "7");
    EXPECT(granted(0), .what = U, .t = 2, .n = 3, .a = "3");
    EXPECT(granted(0), .what = U, .t = 3, .n = 6, .a = "x");
    EXPECT_SETS(0, 0, 0);
    EXPECT(waits(2), .what = R, .t = 1, .n = 3, .room = 32);
    EXPECT_SETS(2, 0, 0);
    EXPECT(refused(17, 0), .what = R, .t = 2, .n = 5, .room = 32);
    EXPECT(refused(17, 0), .what = RR, .t = 2, .n = 4, .room = 0, .cells_room = 0);
    EXPECT(refused(17, 0), .what = UU, .t = 2, .n = 1, .a = "a", .b = "b");
    EXPECT(refused(17, 0), .what = D, .t = 2, .n = 1);
    EXPECT_SETS(2, 0, 0);
    EXPECT(waits(4), .what = U, .t = 1, .n = 6, .a = "y");
    EXPECT_SETS(4, 0, 0);
    EXPECT(waits(1), .what = R, .t = 2, .n = 5, .room = 32);
    EXPECT(refused(17, 0), .what = R, .t = 3, .n = 3, .room = 32);
    EXPECT(refused(7, 0), .what = T, .t = 1, .n = 99);
    EXPECT_SETS(4, 1, 0);
    EXPECT(granted(1ull << 32), .what = T, .t = 1, .n = 0);
    EXPECT_SETS(0, 1, 0);
    EXPECT(waits(2), .what = R, .t = 3, .n = 3, .room = 32);
    EXPECT(refused(17, 0), .what = U, .t = 1, .n = 6, .a = "y");
    EXPECT_SETS(0, 1, 2);
    EXPECT(granted(0), .what = COMMIT, .t = 1);
    EXPECT_SETS(0, 0, 2);
    EXPECT(granted(0), .what = BEGIN, .t = 1);
    EXPECT(waits(2), .what = D, .t = 1, .n = 2);
    EXPECT_SETS(2, 0, 2);
    EXPECT(granted(0), .what = ABORT, .t = 2);
    EXPECT_SETS(0, 0, 0);
    EXPECT(granted(0), .what = D, .t = 1, .n = 2);
    EXPECT(waits(1), .what = R, .t = 3, .n = 3, .room = 32);
    EXPECT(refused(15, 0), .what = LOAD, .a = tree_e);
    EXPECT_SETS(0, 0, 1);
    EXPECT(granted(0), .what = START);
    EXPECT_SETS(0, 0, 0);
}

static uint32_t number_at(const uint8_t *bytes) { return noodlefen_list_number(bytes, 0); }

static void put_number(uint8_t *bytes, uint32_t number)
{
    for (int i = 0; i < 4; i++)
        bytes[i] = (uint8_t)(number >> 8 * i & 0xFF);
}

/* The count bytes of the node of this number, which has to be held. */
static uint8_t *count_bytes(noodlefen_node n)
{
    unsigned held = state.bytes[HELD] | (unsigned)state.bytes[HELD + 1] << 8;
    for (unsigned place = 0; place < held && place < NOODLEFEN_NODES; place++) {
        const uint8_t *entry = state.bytes + OUTLINE + ENTRY * place;
        unsigned slot = entry[0] | (unsigned)entry[1] << 8;
        if (number_at(entry + NUMBER) == n && slot < NOODLEFEN_NODES)
            return state.bytes + CELLS + CELL_LENGTH * slot + CELL_COUNT;
    }
    check(0, "a node is not in the outline", __LINE__);
    return state.bytes + CELLS + CELL_COUNT;
}

/* The counts of nodes 0 to 6, as the call tells them and as they are in the state; so many commits. */
static void expect_counts(uint32_t commits, const uint32_t *counts, int line)
{
    check(number_at(state.bytes + COMMITS) == commits, "the number of commits", line);
    for (noodlefen_node n = 0; n <= 6; n++) {
        noodlefen_answer answer = make(&state, &(struct call){.what = COUNT, .n = n}, line, NULL);
        check(answer == granted(counts[n]) && noodlefen_count(answer) == counts[n], "a count", line);
        check(number_at(count_bytes(n)) == counts[n], "a count in the state", line);
    }
}

#define EXPECT_COUNTS(commits, ...) expect_counts(commits, (const uint32_t[]){__VA_ARGS__}, __LINE__)

/* Which commit inserted a node or last updated it. */
static void test_counts(void)
{
    begin_with(tree_e);
    EXPECT_COUNTS(0, 0, 0, 0, 0, 0, 0, 0);
    EXPECT(refused(7, 0), .what = COUNT, .n = 7);
    EXPECT(refused(7, 0), .what = COUNT, .n = 65536 + 5);
    EXPECT(refused(7, 0), .what = COUNT, .n = 0xFFFFFFFF);
    EXPECT(granted(0), .what = U, .t = 1, .n = 5, .a = "6");
    EXPECT(granted(0), .what = I, .t = 1, .m = 0xFFFFFFFF, .kind = 2, .a = "door", .n = 1, .k = 4);
    EXPECT(granted(0), .what = U, .t = 2, .n = 3, .a = "3");
    EXPECT_COUNTS(0, 0, 0, 0, 0, 0, 0, 0);
    EXPECT(refused(7, 0), .what = COUNT, .n = 0xFFFFFFFF);
    check(number_at(count_bytes(0xFFFFFFFF)) == 0, "the count of a node that is not committed", __LINE__);
    EXPECT(granted(0), .what = COMMIT, .t = 2);
    EXPECT_COUNTS(1, 0, 0, 0, 1, 0, 0, 0);
    EXPECT(granted(0), .what = COMMIT, .t = 1);
    EXPECT_COUNTS(2, 0, 0, 0, 1, 0, 2, 0);
    EXPECT(granted(2), .what = COUNT, .n = 0xFFFFFFFF);
    EXPECT(granted(0), .what = BEGIN, .t = 1);
    EXPECT(granted(1), .what = UU, .t = 1, .n = 0, .a = "ramp", .b = "ramp");
    EXPECT(granted(0), .what = D, .t = 1, .n = 4);
    EXPECT(granted(0), .what = U, .t = 1, .n = 2, .a = "cord");
    EXPECT_COUNTS(2, 0, 0, 0, 1, 0, 2, 0);
    EXPECT(granted(0), .what = ABORT, .t = 1);
    EXPECT_COUNTS(2, 0, 0, 0, 1, 0, 2, 0);
    EXPECT(granted(0), .what = BEGIN, .t = 16);
    EXPECT(granted(0), .what = COMMIT, .t = 16);
    EXPECT(granted(0), .what = BEGIN, .t = 16);
    EXPECT(granted(1), .what = UU, .t = 16, .n = 0, .a = "ramp", .b = "ramp");
    EXPECT(granted(0), .what = D, .t = 16, .n = 0xFFFFFFFF);
    EXPECT(granted(2), .what = COUNT, .n = 0xFFFFFFFF);
    EXPECT(granted(0), .what = COMMIT, .t = 16);
    EXPECT_COUNTS(4, 0, 0, 0, 1, 0, 2, 4);
    EXPECT(refused(7, 0), .what = COUNT, .n = 0xFFFFFFFF);
    EXPECT(refused(4, 2), .what = LOAD, .a = "<a");
    EXPECT_COUNTS(4, 0, 0, 0, 1, 0, 2, 4);
    EXPECT(granted(7), .what = LOAD, .a = tree_e);
    EXPECT_COUNTS(0, 0, 0, 0, 0, 0, 0, 0);
    EXPECT(granted(0), .what = BEGIN, .t = 1);
    EXPECT(granted(0), .what = U, .t = 1, .n = 6, .a = "x");
    EXPECT(granted(0), .what = COMMIT, .t = 1);
    EXPECT_COUNTS(1, 0, 0, 0, 0, 0, 0, 1);
    EXPECT(granted(0), .what = START);
    check(number_at(state.bytes + COMMITS) == 0, "the number of commits", __LINE__);
    EXPECT(granted(0), .what = COUNT, .n = 0);
    EXPECT(refused(7, 0), .what = COUNT, .n = 6);
}

/* So many commits are granted and no more, by a number of them in the state. */
static void test_last_commits(void)
{
    static const uint32_t beyond[] = {1000000, 1000001, 16777216, 0x80000000u, 0xFFFFFFFFu};
    begin_with(tree_e);
    EXPECT(granted(0), .what = U, .t = 1, .n = 5, .a = "7");
    EXPECT(granted(0), .what = U, .t = 2, .n = 3, .a = "3");
    put_number(state.bytes + COMMITS, NOODLEFEN_COMMITS - 1);
    EXPECT(granted(0), .what = COMMIT, .t = 1);
    EXPECT_COUNTS(1000000, 0, 0, 0, 0, 0, 1000000, 0);
    EXPECT(granted(0), .what = BEGIN, .t = 1);
    for (size_t i = 0; i < sizeof beyond / sizeof *beyond; i++) {
        put_number(state.bytes + COMMITS, beyond[i]);
        EXPECT(refused(1, 0), .what = COMMIT, .t = 0);
        EXPECT(refused(1, 0), .what = COMMIT, .t = 17);
        EXPECT(refused(3, 0), .what = COMMIT, .t = 3);
        EXPECT(refused(18, 0), .what = COMMIT, .t = 1);
        EXPECT(refused(18, 0), .what = COMMIT, .t = 2);
        EXPECT(refused(3, 0), .what = ABORT, .t = 3);
        EXPECT_COUNTS(beyond[i], 0, 0, 0, 0, 0, 1000000, 0);
    }
    EXPECT(granted(1), .what = R, .t = 2, .n = 3, .room = 1);
    EXPECT(waits(2), .what = R, .t = 1, .n = 3, .room = 1);
    EXPECT(granted(0), .what = ABORT, .t = 2);
    EXPECT(refused(15, 0), .what = LOAD, .a = tree_e);
    EXPECT(granted(0), .what = ABORT, .t = 1);
    EXPECT(granted(0), .what = BEGIN, .t = 2);
    EXPECT(refused(18, 0), .what = COMMIT, .t = 2);
    EXPECT(granted(0), .what = ABORT, .t = 2);
    EXPECT(granted(7), .what = LOAD, .a = tree_e);
    EXPECT(granted(0), .what = BEGIN, .t = 2);
    EXPECT(granted(0), .what = U, .t = 2, .n = 3, .a = "3");
    EXPECT(granted(0), .what = COMMIT, .t = 2);
    EXPECT_COUNTS(1, 0, 0, 0, 1, 0, 0, 0);
    put_number(state.bytes + COMMITS, 0xFFFFFFFFu);
    EXPECT(granted(0), .what = START);
    EXPECT(granted(0), .what = BEGIN, .t = 1);
    EXPECT(granted(0), .what = COMMIT, .t = 1);
}

/* Numbers past 65,535, in the arguments, in answers and in lists. */
static void test_numbers(void)
{
    static const char listed[] = "\x06\0\0\0\0\0\x01\0\x06\0\x01\0\xFF\xFF\xFF\xFF";
    char text[32];
    begin_with(tree_e);
    EXPECT(refused(7, 0), .what = T, .t = 1, .n = 65536 + 6);
    EXPECT(granted(0), .what = I, .t = 1, .m = 65536, .kind = 2, .a = "a", .n = 6, .k = 1);
    EXPECT(granted(0), .what = I, .t = 1, .m = 65536 + 6, .kind = 2, .a = "b", .n = 65536, .k = 1);
    EXPECT(granted(0), .what = I, .t = 1, .m = 0xFFFFFFFF, .kind = 4, .a = "c", .n = 65536 + 6, .k = 1);
    EXPECT(refused(10, 0), .what = I, .t = 1, .m = 0xFFFFFFFF, .kind = 2, .a = "d", .n = 6, .k = 1);
    EXPECT(granted(6 + (2ull << 32)), .what = T, .t = 1, .n = 65536);
    EXPECT(granted(65536 + 6 + (4ull << 32)), .what = T, .t = 1, .n = 0xFFFFFFFF);
    EXPECT(granted(0xFFFFFFFF + (4ull << 32)), .what = C, .t = 1, .n = 65536 + 6, .k = 1);
    EXPECT(refused(7, 0), .what = T, .t = 1, .n = 0xFFFF);
    EXPECT(refused(13, 0), .what = TT, .t = 1, .n = 6, .room = 15);
    noodlefen_answer answer = make(&state, &(struct call){.what = TT, .t = 1, .n = 6, .room = 16}, __LINE__, text);
    check(answer == granted(4) && memcmp(text, listed, 16) == 0, "the listed numbers", __LINE__);
    EXPECT(granted(0), .what = D, .t = 1, .n = 65536 + 6);
    EXPECT(refused(7, 0), .what = R, .t = 1, .n = 0xFFFFFFFF, .room = 32);
    EXPECT(granted(0), .what = COMMIT, .t = 1);
    EXPECT(granted(2), .what = TT, .t = 2, .n = 6, .room = 8);
}

static void test_documents(void)
{
    static char big[70000];
    EXPECT(granted(0), .what = START);
    EXPECT(refused(14, 0), .what = WRITE, .room = 65536);
    EXPECT(refused(4, 0), .what = LOAD);
    EXPECT(refused(4, 5), .what = LOAD, .a = "<a></b>");
    EXPECT(refused(4, 4), .what = LOAD, .a = "<a>\xC3</a>");
    EXPECT(refused(4, 2), .what = LOAD, .a = "<\xED\xA0\x80/>");
    EXPECT(granted(3), .what = LOAD, .a = "<\xC3\xA4>\xF0\x90\x8C\xB0</\xC3\xA4>");
    EXPECT(refused(5, 35), .what = LOAD, .a = "<a>123456789012345678901234567890123</a>");
    strcpy(big, "<a>");
    for (int i = 0; i < 1022; i++)
        strcat(big, "<b/>");
    strcat(big, "<b/></a>");
    EXPECT(refused(6, 4091), .what = LOAD, .a = big);
    strcpy(big + 4091, "</a>");
    EXPECT(granted(1024), .what = LOAD, .a = big);
    EXPECT(granted(0), .what = BEGIN, .t = 1);
    EXPECT(refused(13, 0), .what = TT, .t = 1, .n = 0, .room = 4095);
    EXPECT(granted(1024), .what = TT, .t = 1, .n = 0, .room = 4096);
    EXPECT(refused(12, 0), .what = I, .t = 1, .m = 4000000000u, .kind = 2, .a = "c", .n = 1, .k = 1);
    EXPECT(granted(0), .what = D, .t = 1, .n = 1023);
    EXPECT(refused(12, 0), .what = I, .t = 1, .m = 4000000000u, .kind = 2, .a = "c", .n = 1, .k = 1);
    EXPECT(granted(0), .what = COMMIT, .t = 1);
    memset(big, ' ', sizeof big);
    memcpy(big, "<a/>", 4);
    EXPECT(granted(2), .what = LOAD, .a = big, .a_length = 65536);
    EXPECT(refused(4, 65536), .what = LOAD, .a = big, .a_length = 65537);
}

static const char *const contents[] = {"a", "b", "speed", "lift", "x y", "\n", "9", "<&>", "\x7F", "\xC3\xA4", "\xC3", "\xED\xA0\x80",
                                       "12345678901234567890123456789012", "n2345678901234567890123456789012",
                                       "123456789012345678901234567890123"};

/* Small ones, and ones that agree with them in the low 16 bits. */
static noodlefen_node random_number(unsigned bound)
{
    static const noodlefen_node beyond[] = {65536, 0x80000000u, 0xFFFF0000u};
    noodlefen_node number = below(bound);
    return below(6) == 0 ? number + beyond[below(3)] : number;
}

static struct call random_call(void)
{
    static const char *const documents[] = {tree_e, "<a/>", "<a b='c'>d<e/>f</a>", "<a", "<a b='' b=''/>", "",
                                            "<\xC3\xA4>\xE3\x81\x82</\xC3\xA4>", "<a>\xC3</a>"};
    enum { DOCUMENTS = sizeof documents / sizeof *documents, CONTENTS = sizeof contents / sizeof *contents };
    struct call c = {.what = below(30) == 0 ? (enum name)below(BEGIN) : below(10) == 0 ? COUNT : (enum name)(BEGIN + below(NAMES - BEGIN))};
    c.t = below(20) == 0 ? below(40) : 1 + below(3);
    c.n = random_number(12);
    c.m = random_number(14);
    c.k = below(20) == 0 ? 0xFFFFFFFFu : below(5);
    c.kind = below(6);
    c.a = c.what == LOAD ? documents[below(DOCUMENTS)] : contents[below(CONTENTS)];
    c.b = contents[below(CONTENTS)];
    c.room = below(4) == 0 ? below(40) : 4200;
    c.cells_room = below(4) == 0 ? below(200) : 34000;
    return c;
}

static void test_random_calls(void)
{
    begin_with(tree_e);
    for (int i = 0; i < (state.length > NOODLEFEN_STATE_BYTES ? 200 : 3000); i++) {
        struct call c = random_call();
        make(&state, &c, __LINE__, NULL);
    }
}

/* Every call, with arguments that would be granted on tree E. */
static struct call plain_call(enum name what)
{
    static const noodlefen_node nodes[NAMES] = {[U] = 5, [R] = 5, [D] = 6, [I] = 1, [UU] = 1};
    struct call c = {.what = what, .t = what == BEGIN ? 3 : 1, .n = nodes[what], .m = 9, .kind = 2, .k = 2,
                     .a = what == LOAD ? tree_e : "a", .b = "b", .room = 4200, .cells_room = 34000};
    return c;
}

static void test_short_states(void)
{
    static const size_t lengths[] = {0, 1, 2, 3, 7, 8, 9, 11, 12, 13, 15, 16, 17, 63, 255, 1000, 4096, 65535, 65536,
                                     NOODLEFEN_STATE_BYTES / 2, 112656, 112688, SETS, NOODLEFEN_STATE_BYTES - 16,
                                     NOODLEFEN_STATE_BYTES - 2, NOODLEFEN_STATE_BYTES - 1};
    begin_with(tree_e);
    for (size_t i = 0; i < sizeof lengths / sizeof lengths[0]; i++)
        for (int what = 0; what < NAMES; what++) {
            struct lent shorter = lend(lengths[i], i, state.bytes);
            struct call c = plain_call((enum name)what);
            check(make(&shorter, &c, __LINE__, NULL) == refused(13, 0), "a state too short is not refused", __LINE__);
            give_back(&shorter);
        }
}

/* The form asks that no two nodes have the same number, all four bytes of it; docs/STATE.md says where they are. */
static void test_repeated_numbers(void)
{
    enum { PLACE = 4 };
    static const uint8_t same[] = {6, 0, 0, 0};
    uint8_t *number = state.bytes + OUTLINE + ENTRY * PLACE + NUMBER;
    begin_with(tree_e);
    for (int byte = 0; byte < 4; byte++) {
        memcpy(number, same, sizeof same);
        number[byte] ^= 0x81;
        EXPECT(granted(1 + (2ull << 32)), .what = T, .t = 1, .n = noodlefen_list_number(number, 0));
    }
    memcpy(number, same, sizeof same);
    for (int what = LOAD; what < NAMES; what++) {
        struct call c = plain_call((enum name)what);
        check(make(&state, &c, __LINE__, NULL) == refused(13, 0), "a repeated number is not refused", __LINE__);
    }
}

/* Every number of commits and every count is of the form, and what stands there is told. */
static void test_counts_of_form(void)
{
    static const uint32_t numbers[] = {1, 255, 256, 65535, 65536, 999999, 1000000, 1000001, 0x12345678, 0x7FFFFFFF, 0x80000000u,
                                       0xFFFFFFFFu};
    begin_with(tree_e);
    for (size_t i = 0; i < sizeof numbers / sizeof *numbers; i++) {
        put_number(state.bytes + COMMITS, numbers[i]);
        for (noodlefen_node n = 0; n <= 6; n++) {
            put_number(count_bytes(n), numbers[i]);
            EXPECT(granted(numbers[i]), .what = COUNT, .n = n);
            put_number(count_bytes(n), n);
        }
        EXPECT_COUNTS(numbers[i], 0, 1, 2, 3, 4, 5, 6);
    }
    /* Whoever inserted, deleted or updated a node: only what is committed is told. */
    put_number(state.bytes + COMMITS, 999990);
    EXPECT(granted(0), .what = U, .t = 1, .n = 5, .a = "7");
    EXPECT(granted(0), .what = D, .t = 2, .n = 6);
    EXPECT(granted(0), .what = I, .t = 1, .m = 9, .kind = 4, .a = "x", .n = 4, .k = 1);
    put_number(count_bytes(9), 77);
    EXPECT(refused(7, 0), .what = COUNT, .n = 9);
    EXPECT_COUNTS(999990, 0, 1, 2, 3, 4, 5, 6);
    EXPECT(granted(0), .what = COMMIT, .t = 1);
    EXPECT(granted(999991), .what = COUNT, .n = 9);
    EXPECT_COUNTS(999991, 0, 1, 2, 3, 4, 999991, 6);
}

static void put_set(uint32_t t, unsigned set)
{
    state.bytes[SETS + SET_BYTES * (t - 1)] = (uint8_t)(set & 0xFF);
    state.bytes[SETS + SET_BYTES * (t - 1) + 1] = (uint8_t)(set >> 8);
}

/* The form asks that only open transactions have a set, and only open ones are in it. */
static void test_sets_of_form(void)
{
    static const noodlefen_answer well = NOODLEFEN_GRANTED | (noodlefen_answer)84 << 16;
    begin_with(tree_e);
    for (uint32_t t = 1; t <= NOODLEFEN_TRANSACTIONS; t++)
        for (uint32_t u = 1; u <= NOODLEFEN_TRANSACTIONS; u++) {
            int fits = t <= 2 && u <= 2; /* those that are open */
            struct call c = plain_call(fits ? WRITE : (enum name)(LOAD + (t + u) % (NAMES - LOAD)));
            c.room = 65536;
            put_set(t, 1u << (u - 1));
            check(make(&state, &c, __LINE__, NULL) == (fits ? well : refused(13, 0)), "the form of a set", __LINE__);
            put_set(t, t <= 2 ? 3u | 1u << (u - 1) : 0);
            EXPECT(fits || t > 2 ? well : refused(13, 0), .what = WRITE, .room = 65536);
            put_set(t, 0);
        }
}

/* Sets that no call leaves and the form does not look for: rings without the caller, and a transaction in its own set. */
static void test_rings_in_bytes(void)
{
    begin_with(tree_e);
    EXPECT(granted(0), .what = BEGIN, .t = 3);
    EXPECT(granted(0), .what = U, .t = 1, .n = 5, .a = "7");
    EXPECT(granted(0), .what = U, .t = 3, .n = 6, .a = "x");
    put_set(1, 2);
    put_set(2, 1);
    EXPECT(waits(1), .what = R, .t = 3, .n = 5, .room = 32);
    EXPECT(refused(17, 0), .what = R, .t = 2, .n = 6, .room = 32);
    EXPECT(refused(17, 0), .what = R, .t = 2, .n = 5, .room = 32);
    EXPECT_SETS(2, 1, 1);
    for (uint32_t t = 1; t <= 3; t++)
        put_set(t, 1u << (t - 1));
    EXPECT(waits(1), .what = R, .t = 2, .n = 5, .room = 32);
    EXPECT(waits(4), .what = R, .t = 1, .n = 6, .room = 32);
    EXPECT_SETS(4, 1, 4);
}

/* States that no call left: each call answers 13 or goes on, and keeps to the lent bytes. */
static void test_damaged_states(void)
{
    unsigned long turned_down = 0, tries = 0;
    struct lent damaged = lend(NOODLEFEN_STATE_BYTES, 0, NULL);
    for (int round = 0; round < 160; round++) {
        begin_with(tree_e);
        for (int i = 0; i < 10; i++) {
            struct call c = random_call();
            make(&state, &c, __LINE__, NULL);
        }
        for (int what = LOAD; what < NAMES; what++) {
            memcpy(damaged.bytes, state.bytes, state.length);
            if (round % 8 == 0) {
                for (size_t i = 0; i < damaged.length; i++)
                    damaged.bytes[i] = (uint8_t)(round == 0 ? 0 : round == 8 ? 0xFF : below(256));
            } else {
                for (unsigned i = 0, flips = 1 + below(3); i < flips; i++) {
                    unsigned within[] = {32, 512, 16384, NOODLEFEN_STATE_BYTES};
                    unsigned place = below(5) == 0 ? SETS + below(NOODLEFEN_STATE_BYTES - SETS)
                        : below(8) == 0 ? COMMITS + below(4) : below(within[below(4)]);
                    damaged.bytes[place] = (uint8_t)(below(2) ? below(256) : damaged.bytes[place] ^ 1u << below(8));
                }
            }
            for (int i = 0; i < 3; i++) {
                struct call c = i == 0 ? plain_call((enum name)what) : random_call();
                if (c.what == START)
                    continue;
                tries++;
                turned_down += make(&damaged, &c, __LINE__, NULL) == refused(13, 0);
            }
        }
    }
    give_back(&damaged);
    printf("damaged states: %lu calls, %lu refused for 13\n", tries, turned_down);
}

static void test_all(size_t length, size_t shift)
{
    state = lend(length, shift, NULL);
    test_transactions();
    test_steps();
    test_rings();
    test_counts();
    test_last_commits();
    test_numbers();
    test_documents();
    test_random_calls();
    give_back(&state);
}

int main(void)
{
    test_all(NOODLEFEN_STATE_BYTES, 0);
    test_all(NOODLEFEN_STATE_BYTES, 1);
    test_all(1048576, 0);
    state = lend(NOODLEFEN_STATE_BYTES, 3, NULL);
    test_short_states();
    test_repeated_numbers();
    test_counts_of_form();
    test_sets_of_form();
    test_rings_in_bytes();
    test_damaged_states();
    give_back(&state);
    check(granted_seen > 0 && waits_seen > 0, "granted or waiting calls are missing", __LINE__);
    for (int cause = 1; cause <= MOST_CAUSE; cause++)
        check(causes_seen[cause] > 0 || cause == NO_CALL_GIVES, "a cause was never given", __LINE__);
    printf("%lu passed, %lu failed\n", passed, failed);
    return failed != 0;
}
