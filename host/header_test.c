/*
 * header_test.c: noodlefen.h as a panel uses it, compiled as C99 and as C++ with all warnings; no conversion needs a cast.
 * Last line 'N passed, 0 failed'.
 */
#include "noodlefen.h"
#include "noodlefen.h" /* twice does no harm */

#include <stdio.h>
#include <string.h>

#ifdef __cplusplus
extern "C" {
#endif

/* The types are those of calls.def: a second declaration with other types would not compile. */
#define CALL(name, parameters, arguments) noodlefen_answer noodlefen_##name parameters;
#include "calls.def"

#define CALL(name, parameters, arguments)
#define BUFFER_CALL(name, parameters, arguments) static inline noodlefen_answer noodlefen_##name##_nullable parameters;
#include "calls.def"

#ifdef __cplusplus
}
#endif

#if NOODLEFEN_VERSION != 1000 * NOODLEFEN_VERSION_MAJOR + NOODLEFEN_VERSION_MINOR || NOODLEFEN_VERSION < 4000
#error "the version"
#endif

static unsigned long passed, failed;

static void check(int right, const char *what)
{
    if (right)
        passed++;
    else
        failed++;
    if (!right)
        printf("FAILED: %s\n", what);
}

#define CHECK(condition) check(condition, #condition)

static uint8_t state[NOODLEFEN_STATE_BYTES];

static noodlefen_answer granted(uint64_t value) { return value << 16; }
static noodlefen_answer waits(uint64_t set) { return NOODLEFEN_WAITS | set << 16; }
static noodlefen_answer refused(unsigned cause, uint64_t offset)
{
    return NOODLEFEN_REFUSED | (noodlefen_answer)cause << 8 | offset << 16;
}

static void test_answers(void)
{
    noodlefen_answer child = granted(0xFFFFFFFE + (3ull << 32));
    CHECK(noodlefen_granted(child) && !noodlefen_waits(child) && !noodlefen_refused(child));
    CHECK(noodlefen_number(child) == 0xFFFFFFFE && noodlefen_kind(child) == NOODLEFEN_ATTRIBUTE && noodlefen_cause(child) == 0);
    CHECK(noodlefen_count(granted(1000000)) == 1000000 && noodlefen_count(granted(0xFFFFFFFF + (1ull << 32))) == 0xFFFFFFFF);
    noodlefen_answer refusal = refused(NOODLEFEN_LOADED_NODES, 65535);
    CHECK(noodlefen_refused(refusal) && noodlefen_cause(refusal) == 6 && noodlefen_value(refusal) == 65535);
}

/* Four bytes each, the low one first. */
static void test_lists(void)
{
    static const uint8_t numbers[] = {1, 0, 0, 0, 0x78, 0x56, 0x34, 0x12, 0xFF, 0xFF, 0xFF, 0xFF, 0, 0, 1, 0};
    CHECK(NOODLEFEN_NUMBER_BYTES == 4 && sizeof(noodlefen_node) == 4);
    CHECK(noodlefen_list_number(numbers, 0) == 1 && noodlefen_list_number(numbers, 1) == 0x12345678);
    CHECK(noodlefen_list_number(numbers, 2) == 0xFFFFFFFF && noodlefen_list_number(numbers, 3) == 65536);
}

static void test_blocked_by(void)
{
    noodlefen_answer answer = waits(0x8005);
    for (uint32_t t = 0; t <= 80; t++)
        CHECK(noodlefen_blocked_by(answer, t) == (t == 1 || t == 3 || t == 16));
    CHECK(!noodlefen_blocked_by(answer, 0xFFFFFFFFu));
    CHECK(!noodlefen_blocked_by(waits(~(uint64_t)0 >> 16), 17));
    CHECK(!noodlefen_blocked_by(granted(0x8005), 1) && !noodlefen_blocked_by(refused(4, 1), 1));
}

/* Every cause has a text of its own, and no other number has one. */
static void test_cause_texts(void)
{
    const char *unknown = noodlefen_cause_text(16);
    for (unsigned cause = 0; cause <= NOODLEFEN_NO_MORE_COMMITS; cause++) {
        if (cause == 16) /* no call gives it */
            continue;
        CHECK(strlen(noodlefen_cause_text(cause)) > 0 && strcmp(noodlefen_cause_text(cause), unknown) != 0);
        for (unsigned other = 0; other < cause; other++)
            CHECK(strcmp(noodlefen_cause_text(cause), noodlefen_cause_text(other)) != 0);
    }
    CHECK(NOODLEFEN_NO_MORE_COMMITS == 18 && strcmp(noodlefen_cause_text(19), unknown) == 0);
    CHECK(strcmp(noodlefen_cause_text(255), unknown) == 0 && strcmp(noodlefen_cause_text(0xFFFFFFFFu), unknown) == 0);
}

static void check_position(const char *text, uint64_t offset, size_t line, size_t column)
{
    noodlefen_position position = noodlefen_position_of((const uint8_t *)text, strlen(text), offset);
    CHECK(position.line == line && position.column == column);
}

static void test_positions(void)
{
    check_position("", 0, 1, 1);
    check_position("", 9, 1, 1);
    check_position("ab\n\ncd", 0, 1, 1);
    check_position("ab\n\ncd", 2, 1, 3);
    check_position("ab\n\ncd", 3, 2, 1);
    check_position("ab\n\ncd", 4, 3, 1);
    check_position("ab\n\ncd", 5, 3, 2);
    check_position("ab\n\ncd", 6, 3, 3);
    check_position("ab\n\ncd", ~(uint64_t)0, 3, 3);
    check_position("a\n", 2, 2, 1);
    check_position("\xC3\xA4x", 2, 1, 3);
    noodlefen_position none = noodlefen_position_of(NULL, 0, 5);
    CHECK(none.line == 1 && none.column == 1);
}

/* As a panel works with numbers: what one call answers is given to the next. */
static void test_calls(void)
{
    static const char xml[] = "<lift rope=\"2\"><speed>6</speed><ramp/></lift>";
    uint8_t numbers[NOODLEFEN_NODES * NOODLEFEN_NUMBER_BYTES], cells[NOODLEFEN_NODES * NOODLEFEN_CELL_BYTES];
    CHECK(noodlefen_granted(noodlefen_start(state, sizeof state)));
    CHECK(memcmp(state, NOODLEFEN_FORMAT, strlen(NOODLEFEN_FORMAT)) == 0);
    CHECK(noodlefen_value(noodlefen_load(state, sizeof state, (const uint8_t *)xml, strlen(xml))) == 7);
    CHECK(noodlefen_granted(noodlefen_begin(state, sizeof state, 1)));
    noodlefen_node lift = noodlefen_number(noodlefen_child(state, sizeof state, 1, 0, 1));
    noodlefen_node speed = noodlefen_number(noodlefen_child(state, sizeof state, 1, lift, 2));
    CHECK(lift == 1 && speed == 4);
    CHECK(noodlefen_number(noodlefen_test(state, sizeof state, 1, speed)) == lift);
    noodlefen_answer tree = noodlefen_read_tree(state, sizeof state, 1, speed, numbers, sizeof numbers, cells, sizeof cells);
    CHECK(noodlefen_value(tree) == 2);
    noodlefen_node text = noodlefen_list_number(numbers, 1);
    CHECK(noodlefen_list_number(numbers, 0) == speed && text == 5);
    CHECK(noodlefen_cell_length(cells, 0) == 5 && memcmp(noodlefen_cell_content(cells, 0), "speed", 5) == 0);
    CHECK(noodlefen_cell_length(cells, 1) == 1 && noodlefen_cell_content(cells, 1)[0] == '6');
    noodlefen_node fresh = 4294967295u;
    CHECK(noodlefen_granted(noodlefen_insert(state, sizeof state, 1, fresh, NOODLEFEN_ELEMENT, (const uint8_t *)"door", 4, lift, 4)));
    CHECK(noodlefen_number(noodlefen_child(state, sizeof state, 1, lift, 4)) == fresh);
    CHECK(noodlefen_value(noodlefen_test_tree(state, sizeof state, 1, fresh, numbers, sizeof numbers)) == 1);
    CHECK(noodlefen_list_number(numbers, 0) == fresh);
    CHECK(noodlefen_granted(noodlefen_delete(state, sizeof state, 1, text)));
    CHECK(noodlefen_granted(noodlefen_commit(state, sizeof state, 1)));
}

/* As a panel tells a wait from a ring: both have read, and want to update. */
static void test_ring(void)
{
    static const char xml[] = "<speed>6</speed>";
    uint8_t content[NOODLEFEN_CONTENT_BYTES];
    noodlefen_node text = 2;
    CHECK(noodlefen_granted(noodlefen_start(state, sizeof state)));
    CHECK(noodlefen_granted(noodlefen_load(state, sizeof state, (const uint8_t *)xml, strlen(xml))));
    for (uint32_t t = 1; t <= 2; t++) {
        CHECK(noodlefen_granted(noodlefen_begin(state, sizeof state, t)));
        CHECK(noodlefen_granted(noodlefen_read(state, sizeof state, t, text, content, sizeof content)));
    }
    noodlefen_answer first = noodlefen_update(state, sizeof state, 1, text, (const uint8_t *)"7", 1);
    noodlefen_answer second = noodlefen_update(state, sizeof state, 2, text, (const uint8_t *)"8", 1);
    CHECK(noodlefen_waits(first) && noodlefen_blocked_by(first, 2) && noodlefen_cause(first) == NOODLEFEN_NO_CAUSE);
    CHECK(noodlefen_refused(second) && noodlefen_cause(second) == NOODLEFEN_DEADLOCK && noodlefen_value(second) == 0);
    CHECK(!noodlefen_waits(second) && !noodlefen_blocked_by(second, 1));
    CHECK(noodlefen_granted(noodlefen_abort(state, sizeof state, 2)));
    CHECK(noodlefen_granted(noodlefen_update(state, sizeof state, 1, text, (const uint8_t *)"7", 1)));
}

/* As a panel asks which commit set something: the same text confirmed, another one not committed yet. */
static void test_counts(void)
{
    static const char xml[] = "<lift><speed>6</speed></lift>";
    const uint8_t *shown = state; /* a program that only shows the settings */
    noodlefen_node speed = 2, text = 3, fresh = 4294967295u;
    CHECK(NOODLEFEN_COMMITS == 1000000);
    CHECK(noodlefen_granted(noodlefen_start(state, sizeof state)));
    CHECK(noodlefen_granted(noodlefen_load(state, sizeof state, (const uint8_t *)xml, strlen(xml))));
    CHECK(noodlefen_granted(noodlefen_begin(state, sizeof state, 1)));
    CHECK(noodlefen_granted(noodlefen_update(state, sizeof state, 1, text, (const uint8_t *)"6", 1)));
    CHECK(noodlefen_count(noodlefen_count_of(shown, sizeof state, text)) == 0);
    CHECK(noodlefen_granted(noodlefen_commit(state, sizeof state, 1)));
    CHECK(noodlefen_granted(noodlefen_begin(state, sizeof state, 1)));
    CHECK(noodlefen_granted(noodlefen_update(state, sizeof state, 1, text, (const uint8_t *)"7", 1)));
    CHECK(noodlefen_granted(noodlefen_insert(state, sizeof state, 1, fresh, NOODLEFEN_TEXT, (const uint8_t *)"m/s", 3, speed, 2)));
    noodlefen_answer told = noodlefen_count_of(shown, sizeof state, text);
    CHECK(noodlefen_granted(told) && noodlefen_count(told) == 1 && noodlefen_value(told) == 1);
    CHECK(noodlefen_count_of(shown, sizeof state, fresh) == refused(NOODLEFEN_NO_NODE, 0));
    CHECK(noodlefen_granted(noodlefen_commit(state, sizeof state, 1)));
    CHECK(noodlefen_count(noodlefen_count_of(shown, sizeof state, text)) == 2);
    CHECK(noodlefen_count(noodlefen_count_of(shown, sizeof state, fresh)) == 2);
    CHECK(noodlefen_count(noodlefen_count_of(shown, sizeof state, speed)) == 0);
    CHECK(noodlefen_count_of(shown, sizeof state - 1, text) == refused(NOODLEFEN_TOO_SHORT, 0));
}

/* A state of an older form, which was shorter, or of one to come is refused. */
static void test_format(void)
{
    size_t last = strlen(NOODLEFEN_FORMAT) - 1;
    CHECK(strcmp(NOODLEFEN_FORMAT, "NFSTATE4") == 0);
    CHECK(noodlefen_granted(noodlefen_start(state, sizeof state)));
    CHECK(noodlefen_begin(state, 112688, 1) == refused(NOODLEFEN_TOO_SHORT, 0));
    for (uint8_t digit = '1'; digit <= '5'; digit++) {
        state[last] = digit;
        CHECK(noodlefen_begin(state, sizeof state, 1) == (digit == '4' ? granted(0) : refused(NOODLEFEN_TOO_SHORT, 0)));
    }
}

int main(void)
{
    test_answers();
    test_lists();
    test_blocked_by();
    test_cause_texts();
    test_positions();
    test_calls();
    test_ring();
    test_counts();
    test_format();
    printf("%lu passed, %lu failed\n", passed, failed);
    return failed != 0;
}
