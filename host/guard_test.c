/*
 * guard_test.c: every call with state and buffers of exact length at a guard page, one byte too short, and NULL with any length.
 * A byte outside what was lent that is touched ends the program. Last line 'N passed, 0 failed'.
 */
#include <stdio.h>
#include <stdlib.h>
#include <string.h>

#include "fence.h"
#include "noodlefen.h"

enum call_name {
#define CALL(name, parameters, arguments) CALL_##name,
#include "calls.def"
    CALLS
};

static const char *const names[CALLS] = {
#define CALL(name, parameters, arguments) #name,
#include "calls.def"
};

static const char tree_e[] = "<lift rope=\"2\"><speed>6</speed><ramp/></lift>";

#define GRANTED(value) ((noodlefen_answer)(value) << 16)
#define WAITS(set) ((noodlefen_answer)(set) << 16 | NOODLEFEN_WAITS)
#define REFUSED(cause) ((noodlefen_answer)(cause) << 8 | NOODLEFEN_REFUSED)
static const noodlefen_answer too_short = REFUSED(13);

/* A call on tree E, for each name: its inputs, or how much it answers; the answers if all is exact, and if a buffer has length 0. */
struct call {
    uint32_t t, k, kind;
    noodlefen_node n, m;
    const char *input[2];
    size_t room[2];
    noodlefen_answer exact, none;
};

static const struct call calls[CALLS] = {
    [CALL_start] = {.exact = GRANTED(0)},
    [CALL_load] = {.input = {tree_e}, .exact = GRANTED(7), .none = REFUSED(4)},
    [CALL_write] = {.room = {84}, .exact = GRANTED(84), .none = REFUSED(13)},
    [CALL_count_of] = {.n = 5, .exact = GRANTED(0)},
    [CALL_begin] = {.t = 2, .exact = GRANTED(0)},
    [CALL_commit] = {.t = 1, .exact = GRANTED(0)},
    [CALL_abort] = {.t = 1, .exact = GRANTED(0)},
    [CALL_test] = {.t = 1, .n = 4, .exact = GRANTED(1 + (2ull << 32))},
    [CALL_child] = {.t = 1, .n = 1, .k = 2, .exact = GRANTED(4 + (2ull << 32))},
    [CALL_read] = {.t = 1, .n = 4, .room = {5}, .exact = GRANTED(5), .none = REFUSED(13)},
    [CALL_update] = {.t = 1, .n = 5, .input = {"7"}, .exact = GRANTED(0), .none = REFUSED(9)},
    [CALL_delete] = {.t = 1, .n = 4, .exact = GRANTED(0)},
    [CALL_insert] = {.t = 1, .m = 4294967295u, .kind = 2, .n = 1, .k = 4, .input = {"lamp"}, .exact = GRANTED(0), .none = REFUSED(9)},
    [CALL_test_tree] = {.t = 1, .n = 1, .room = {6 * NOODLEFEN_NUMBER_BYTES}, .exact = GRANTED(6), .none = REFUSED(13)},
    [CALL_read_tree] = {.t = 1, .n = 1, .room = {6 * NOODLEFEN_NUMBER_BYTES, 6 * NOODLEFEN_CELL_BYTES}, .exact = GRANTED(6),
                        .none = REFUSED(13)},
    [CALL_rename_tree] = {.t = 1, .n = 1, .input = {"speed", "pace"}, .exact = GRANTED(1), .none = REFUSED(9)},
};

struct slice {
    uint8_t *bytes;
    size_t length;
};

enum { STATE_SLICE, FIRST, SECOND, SLICES };

/* Makes the call, or its form that takes NULL, on these slices. */
static noodlefen_answer make(enum call_name what, int nullable, const struct slice *slices)
{
    const struct call *c = &calls[what];
    const struct slice state = slices[STATE_SLICE], xml = slices[FIRST], out = xml, bytes = xml, numbers = xml, from = xml;
    const struct slice cells = slices[SECOND], to = cells;
    const uint32_t t = c->t, k = c->k, kind = c->kind;
    const noodlefen_node n = c->n, m = c->m;
    switch (what) {
#define STATE
#define PASSED_STATE state.bytes, state.length
#define GIVEN(slice) slice.bytes, slice.length
#define LENT(slice) slice.bytes, slice.length
#define CALL(name, parameters, arguments) \
    case CALL_##name: return noodlefen_##name arguments;
#define BUFFER_CALL(name, parameters, arguments) \
    case CALL_##name: return nullable ? noodlefen_##name##_nullable arguments : noodlefen_##name arguments;
#include "calls.def"
    case CALLS: break;
    }
    abort();
}

static unsigned long passed, failed;

static void check(int right, enum call_name what, const char *condition)
{
    if (right) {
        passed++;
        return;
    }
    failed++;
    printf("FAILED: %s, %s\n", names[what], condition);
}

static struct fence fences[SLICES];

/* At the guard page behind, or at the one before. */
static struct slice within(int slice, size_t length, int at_end)
{
    struct slice within = {at_end ? fence_end(&fences[slice], length) : fence_begin(&fences[slice], length), length};
    return within;
}

static void set_all(enum access access)
{
    for (int i = 0; i < SLICES; i++)
        set_access(fences[i].bytes, fences[i].size, access);
}

static int has_buffer(enum call_name what, int i)
{
    return calls[what].input[i] != NULL || calls[what].room[i] > 0;
}

/* Tree E loaded and transaction 1 begun, or for load nothing begun; the buffers of the call in their exact lengths. */
static void prepare(enum call_name what, struct slice *slices, int at_end)
{
    set_all(READ_AND_WRITE);
    slices[STATE_SLICE] = within(STATE_SLICE, NOODLEFEN_STATE_BYTES, at_end);
    uint8_t *state = slices[STATE_SLICE].bytes;
    noodlefen_start(state, NOODLEFEN_STATE_BYTES);
    noodlefen_load(state, NOODLEFEN_STATE_BYTES, (const uint8_t *)tree_e, sizeof tree_e - 1);
    if (what != CALL_load)
        noodlefen_begin(state, NOODLEFEN_STATE_BYTES, 1);
    for (int i = 0; i < 2; i++) {
        const char *input = calls[what].input[i];
        slices[FIRST + i] = within(FIRST + i, input != NULL ? strlen(input) : calls[what].room[i], at_end);
        if (input != NULL)
            memcpy(slices[FIRST + i].bytes, input, strlen(input));
    }
}

static void test_exact(enum call_name what, int at_end)
{
    struct slice slices[SLICES];
    prepare(what, slices, at_end);
    if (calls[what].input[0] != NULL) {
        set_access(fences[FIRST].bytes, fences[FIRST].size, READ_ONLY);
        set_access(fences[SECOND].bytes, fences[SECOND].size, READ_ONLY);
    }
    check(make(what, 0, slices) == calls[what].exact, what, "exact lengths");
    if (!has_buffer(what, 0))
        return;
    prepare(what, slices, at_end);
    check(make(what, 1, slices) == calls[what].exact, what, "exact lengths, nullable");
}

/* Buffers of no byte, and output one byte too short. Nothing may be written. */
static void test_short_buffers(enum call_name what, int at_end)
{
    for (int i = 0; i < 2 && has_buffer(what, i); i++) {
        struct slice slices[SLICES];
        prepare(what, slices, at_end);
        set_all(READ_ONLY);
        slices[FIRST + i] = within(FIRST + i, 0, at_end);
        check(make(what, 0, slices) == calls[what].none, what, "length 0");
        slices[FIRST + i] = within(FIRST + i, calls[what].room[i] - (calls[what].room[i] > 0), at_end);
        if (calls[what].input[0] == NULL)
            check(make(what, 0, slices) == too_short, what, "a byte too short");
    }
}

static void test_short_states(enum call_name what, int at_end)
{
    static const size_t lengths[] = {0, 1, 7, 8, 9, 10, 11, 12, 15, 16, 17, 24, 4096, 8208, 8278, 8282, 83984, 83986, 112688,
                                     116752, 116754, NOODLEFEN_STATE_BYTES - 2, NOODLEFEN_STATE_BYTES - 1};
    for (size_t i = 0; i < sizeof lengths / sizeof *lengths; i++) {
        struct slice slices[SLICES];
        prepare(what, slices, at_end);
        uint8_t *whole = slices[STATE_SLICE].bytes;
        slices[STATE_SLICE] = within(STATE_SLICE, lengths[i], at_end);
        memmove(slices[STATE_SLICE].bytes, whole, lengths[i]);
        set_all(READ_ONLY);
        check(make(what, 0, slices) == too_short, what, "a state too short");
    }
}

/* The slices of this set NULL, with a length: the call is as with length 0, and nobody touches anything for them. */
static void test_null(enum call_name what, unsigned set, size_t length)
{
    struct slice slices[SLICES];
    prepare(what, slices, 1);
    set_all(READ_ONLY);
    for (int i = 0; i < SLICES; i++)
        if (set >> i & 1) {
            slices[i].bytes = NULL;
            slices[i].length = length;
        }
    uint8_t *nothing = noodlefen_nothing();
    set_access(nothing, 1, NO_ACCESS); /* until the next line but one no variable outside the stack is used */
    noodlefen_answer answer = make(what, 1, slices);
    set_access(nothing, 1, READ_AND_WRITE);
    check(answer == (set >> STATE_SLICE & 1 ? too_short : calls[what].none), what, "NULL");
}

static void test_nulls(enum call_name what)
{
    static const size_t lengths[] = {0, 1, 2, 5, 24, 32, 33, 84, 198, 4096, 65536, NOODLEFEN_STATE_BYTES, 1048576,
                                     SIZE_MAX / 2, SIZE_MAX};
    for (unsigned set = 1; set < 1u << (has_buffer(what, 1) ? 3 : 2); set++)
        for (size_t i = 0; i < sizeof lengths / sizeof *lengths; i++)
            test_null(what, set, lengths[i]);
}

/* A step that waits writes to no buffer, and one that is refused for 17 writes nothing at all. */
static void test_ring(int at_end)
{
    struct slice slices[SLICES];
    prepare(CALL_read, slices, at_end);
    const struct slice state = slices[STATE_SLICE], out = slices[FIRST];
    noodlefen_begin(state.bytes, state.length, 2);
    noodlefen_update(state.bytes, state.length, 1, 5, (const uint8_t *)"7", 1);
    noodlefen_update(state.bytes, state.length, 2, 3, (const uint8_t *)"3", 1);
    set_access(fences[FIRST].bytes, fences[FIRST].size, READ_ONLY);
    check(noodlefen_read(state.bytes, state.length, 1, 3, out.bytes, out.length) == WAITS(2), CALL_read, "a wait");
    set_all(READ_ONLY);
    check(noodlefen_read(state.bytes, state.length, 2, 5, out.bytes, out.length) == REFUSED(17), CALL_read, "a ring");
}

/* A call that only reads the state, where nobody may write to it: the committed settings, while transaction 1 has changed them. */
static void test_only_reading(int at_end)
{
    struct slice slices[SLICES];
    prepare(CALL_write, slices, at_end);
    const struct slice state = slices[STATE_SLICE], out = slices[FIRST];
    noodlefen_update(state.bytes, state.length, 1, 3, (const uint8_t *)"2", 1);
    noodlefen_commit(state.bytes, state.length, 1);
    noodlefen_begin(state.bytes, state.length, 1);
    noodlefen_update(state.bytes, state.length, 1, 5, (const uint8_t *)"7", 1);
    noodlefen_delete(state.bytes, state.length, 1, 6);
    noodlefen_insert(state.bytes, state.length, 1, 9, 4, (const uint8_t *)"x", 1, 4, 1);
    set_access(fences[STATE_SLICE].bytes, fences[STATE_SLICE].size, READ_ONLY);
    check(noodlefen_write(state.bytes, state.length, out.bytes, out.length) == GRANTED(84), CALL_write, "a state to be read");
    check(noodlefen_write(state.bytes, state.length, out.bytes, out.length - 1) == too_short, CALL_write, "a state to be read, 13");
    for (noodlefen_node n = 0; n <= 6; n++)
        check(noodlefen_count_of(state.bytes, state.length, n) == GRANTED(n == 3 ? 1 : 0), CALL_count_of, "a state to be read");
    check(noodlefen_count_of(state.bytes, state.length, 9) == REFUSED(7), CALL_count_of, "a state to be read, 7");
    check(noodlefen_count_of(state.bytes, state.length, 4294967295u) == REFUSED(7), CALL_count_of, "a state to be read, 7");
}

/* A commit that is refused for 18 writes nothing. Bytes 12 to 15 of the state have the number of commits. */
static void test_last_commit(int at_end)
{
    struct slice slices[SLICES];
    prepare(CALL_commit, slices, at_end);
    const struct slice state = slices[STATE_SLICE];
    noodlefen_update(state.bytes, state.length, 1, 5, (const uint8_t *)"7", 1);
    memcpy(state.bytes + 12, "\x40\x42\x0F\0", 4); /* 1,000,000 */
    set_all(READ_ONLY);
    check(noodlefen_commit(state.bytes, state.length, 1) == REFUSED(18), CALL_commit, "no more commits");
    check(noodlefen_commit(state.bytes, state.length, 2) == REFUSED(3), CALL_commit, "not open, no more commits");
    set_all(READ_AND_WRITE);
    check(noodlefen_abort(state.bytes, state.length, 1) == GRANTED(0), CALL_abort, "no more commits");
}

/* The helpers that look into bytes: up to the last one and no further. */
static void test_helpers(void)
{
    struct slice bytes = within(FIRST, NOODLEFEN_CELL_BYTES, 1);
    set_all(READ_AND_WRITE);
    memset(bytes.bytes, '\n', bytes.length);
    bytes.bytes[0] = NOODLEFEN_CONTENT_BYTES;
    check(noodlefen_position_of(bytes.bytes, bytes.length, SIZE_MAX).line == NOODLEFEN_CELL_BYTES, CALL_load, "the place of the end");
    check(noodlefen_position_of(fence_end(&fences[FIRST], 0), 0, 1).line == 1, CALL_load, "a place in no text");
    check(noodlefen_cell_length(bytes.bytes, 0) == NOODLEFEN_CONTENT_BYTES
          && noodlefen_cell_content(bytes.bytes, 0) + NOODLEFEN_CONTENT_BYTES == bytes.bytes + bytes.length, CALL_read_tree, "the cell");
    memset(fence_end(&fences[FIRST], NOODLEFEN_NUMBER_BYTES), 0xFF, NOODLEFEN_NUMBER_BYTES);
    check(noodlefen_list_number(fence_end(&fences[FIRST], 3 * NOODLEFEN_NUMBER_BYTES), 2) == (noodlefen_node)-1, CALL_test_tree,
          "the last number");
}

int main(void)
{
    fences[STATE_SLICE] = fence_new(NOODLEFEN_STATE_BYTES);
    fences[FIRST] = fence_new(4096);
    fences[SECOND] = fence_new(4096);
    for (int what = 0; what < CALLS; what++) {
        for (int at_end = 0; at_end < 2; at_end++) {
            test_exact((enum call_name)what, at_end);
            test_short_buffers((enum call_name)what, at_end);
            test_short_states((enum call_name)what, at_end);
        }
        if (has_buffer((enum call_name)what, 0))
            test_nulls((enum call_name)what);
    }
    for (int at_end = 0; at_end < 2; at_end++) {
        test_ring(at_end);
        test_only_reading(at_end);
        test_last_commit(at_end);
    }
    test_helpers();
    printf("%lu passed, %lu failed\n", passed, failed);
    return failed != 0;
}
