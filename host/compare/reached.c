#include "reached.h"

#include <string.h>

#include "place.h"

enum { MOST_CAUSE = 18, OUTCOMES = 2 + MOST_CAUSE }; /* granted, waits, causes from 1 on */
enum { DECLARATION = 39 }; /* bytes of what write puts before the root */
enum { LEAST_CALLS = 20000 }; /* fewer need not reach anything: they are few episodes */

static unsigned long outcomes[CALLS][OUTCOMES];

/* What is counted besides. */
enum {
    WIDE_GRANTED, WIDE_WAITS, WIDE_REFUSED,
    LITERAL, VALUE_TAB, VALUE_LINE_FEED, TEXT_TAB, TEXT_LINE_FEED,
    VALUE_WRONG, TEXT_WRONG, ENDS, VALUE_LONG, TEXT_LONG, VALUE_NODE, TEXT_NODE,
    WRITTEN_TAB, WRITTEN_LINE_FEED, WRITTEN_TEXT_TAB, WRITTEN_TEXT_LINE_FEED,
    CONTENT_TAB, CONTENT_LINE_FEED,
    FINISH_TWO, FINISH_THREE, FINISH_MORE, COUNTED
};

static struct counted counted[COUNTED] = {
    [WIDE_GRANTED] = {"steps on numbers past 65,535: granted", 20000, 0},
    [WIDE_WAITS] = {"steps on numbers past 65,535: waits", 20000, 0},
    [WIDE_REFUSED] = {"steps on numbers past 65,535: refused", 20000, 0},
    [LITERAL] = {"loaded values: literal tabs and line feeds", 100000, 0},
    [VALUE_TAB] = {"loaded values: &#9;", 100000, 0},
    [VALUE_LINE_FEED] = {"loaded values: &#10;", 100000, 0},
    [TEXT_TAB] = {"loaded texts: &#9;", 100000, 0},
    [TEXT_LINE_FEED] = {"loaded texts: &#10;", 100000, 0},
    [VALUE_WRONG] = {"cause 4 behind &# in a value", 100000, 0},
    [TEXT_WRONG] = {"cause 4 behind &# in a text", 100000, 0},
    [ENDS] = {"cause 4 behind &# at the end of the input", 100000, 0},
    [VALUE_LONG] = {"cause 5 at &# in a value", 100000, 0},
    [TEXT_LONG] = {"cause 5 at &# in a text", 100000, 0},
    [VALUE_NODE] = {"cause 6 at a value that begins with a tab, a line feed or &#", 100000, 0},
    [TEXT_NODE] = {"cause 6 at such a text", 100000, 0},
    [WRITTEN_TAB] = {"written values: &#9;", 100000, 0},
    [WRITTEN_LINE_FEED] = {"written values: &#10;", 100000, 0},
    [WRITTEN_TEXT_TAB] = {"written texts: tabs", 100000, 0},
    [WRITTEN_TEXT_LINE_FEED] = {"written texts: line feeds", 100000, 0},
    [CONTENT_TAB] = {"granted U and I: tabs", 100000, 0},
    [CONTENT_LINE_FEED] = {"granted U and I: line feeds", 100000, 0},
    [FINISH_TWO] = {"finished in some order: two that have changed something", 20000, 0},
    [FINISH_THREE] = {"finished in some order: three", 20000, 0},
    [FINISH_MORE] = {"finished in some order: more", 100000, 0},
};

static void count_if(int met, int what)
{
    counted[what].times += met ? 1u : 0u;
}

/* Whether these bytes stand at the place. */
static int stands(const uint8_t *xml, size_t length, size_t at, const char *bytes)
{
    return at <= length && length - at >= strlen(bytes) && memcmp(xml + at, bytes, strlen(bytes)) == 0;
}

static int tab_or_line_feed(const uint8_t *xml, size_t length, size_t at)
{
    return stands(xml, length, at, "\t") || stands(xml, length, at, "\n");
}

static void count_loaded(const uint8_t *xml, size_t length)
{
    struct place place = {0, 0};
    for (size_t i = 0; i < length; i++) {
        int value = place.quote != 0;
        count_if(value && tab_or_line_feed(xml, length, i), LITERAL);
        count_if(stands(xml, length, i, "&#9;"), value ? VALUE_TAB : TEXT_TAB);
        count_if(stands(xml, length, i, "&#10;"), value ? VALUE_LINE_FEED : TEXT_LINE_FEED);
        place = place_behind(place, xml[i]);
    }
}

static void count_written(const uint8_t *xml, size_t length)
{
    struct place place = {0, 0};
    for (size_t i = DECLARATION; i < length; i++) {
        count_if(place.quote != 0 && stands(xml, length, i, "&#9;"), WRITTEN_TAB);
        count_if(place.quote != 0 && stands(xml, length, i, "&#10;"), WRITTEN_LINE_FEED);
        count_if(!place.in_tag && xml[i] == '\t', WRITTEN_TEXT_TAB);
        count_if(!place.in_tag && xml[i] == '\n', WRITTEN_TEXT_LINE_FEED);
        place = place_behind(place, xml[i]);
    }
}

/* Whether the bytes before the offset end in the beginning of a character reference, two to four bytes. */
static int in_reference(const uint8_t *xml, size_t offset)
{
    for (size_t back = 2; back <= 4 && back <= offset; back++)
        if (stands(xml, offset, offset - back, "&#"))
            return memchr(xml + offset - back, ';', back) == NULL;
    return 0;
}

static void count_refused(const uint8_t *xml, size_t length, unsigned cause, size_t offset)
{
    struct place place = {0, 0};
    for (size_t i = 0; i < offset; i++)
        place = place_behind(place, xml[i]);
    int value = place.quote != 0, reference = stands(xml, length, offset, "&#");
    if (cause == NOODLEFEN_GRAMMAR && in_reference(xml, offset))
        count_if(1, offset == length ? ENDS : value ? VALUE_WRONG : TEXT_WRONG);
    if (cause == NOODLEFEN_LOADED_CONTENT)
        count_if(reference, value ? VALUE_LONG : TEXT_LONG);
    if (cause == NOODLEFEN_LOADED_NODES && !place.in_tag)
        count_if(reference || tab_or_line_feed(xml, length, offset), TEXT_NODE);
    if (cause == NOODLEFEN_LOADED_NODES && place.in_tag && (xml[offset] == '"' || xml[offset] == '\''))
        count_if(stands(xml, length, offset + 1, "&#") || tab_or_line_feed(xml, length, offset + 1), VALUE_NODE);
}

void reached_count(const struct call *call, noodlefen_answer answer, const struct lent *lent)
{
    int granted = noodlefen_granted(answer);
    unsigned cause = noodlefen_cause(answer);
    outcomes[call->what][granted ? 0 : noodlefen_waits(answer) ? 1 : cause <= MOST_CAUSE ? 1 + cause : 0]++;
    if (call->what >= CALL_T && call->n > 65535)
        count_if(1, granted ? WIDE_GRANTED : noodlefen_waits(answer) ? WIDE_WAITS : WIDE_REFUSED);
    if (call->what == CALL_LOAD && granted)
        count_loaded(call->xml, call->xml_length);
    if (call->what == CALL_LOAD && cause >= NOODLEFEN_GRAMMAR && cause <= NOODLEFEN_LOADED_NODES)
        count_refused(call->xml, call->xml_length, cause, (size_t)noodlefen_value(answer));
    if (call->what == CALL_WRITE && granted)
        count_written(lent->bytes, (size_t)noodlefen_value(answer));
    if ((call->what == CALL_U || call->what == CALL_I) && granted) {
        count_if(memchr(call->a, '\t', call->a_length) != NULL, CONTENT_TAB);
        count_if(memchr(call->a, '\n', call->a_length) != NULL, CONTENT_LINE_FEED);
    }
    if (call->what == CALL_FINISH && call->changing > 1)
        count_if(1, call->changing == 2 ? FINISH_TWO : call->changing == 3 ? FINISH_THREE : FINISH_MORE);
    reached_characters(call, answer, lent);
}

/* Which outcomes each call can have, as bits: granted, waits, causes from 1 on. */
static unsigned possible(enum call_name what)
{
    enum { G = 1, W = 2 };
#define CAUSE(n) (4u << ((n) - 1))
    const unsigned step = G | W | CAUSE(1) | CAUSE(3) | CAUSE(7) | CAUSE(17);
    switch (what) {
    case CALL_START: return G;
    case CALL_LOAD: return G | CAUSE(4) | CAUSE(5) | CAUSE(6) | CAUSE(15);
    case CALL_WRITE: return G | CAUSE(13) | CAUSE(14);
    case CALL_COUNT: return G | CAUSE(7);
    case CALL_COMMITS: return G;
    case CALL_FINISH: return G | CAUSE(14) | CAUSE(18);
    case CALL_BEGIN: return G | CAUSE(1) | CAUSE(2);
    case CALL_COMMIT: return G | CAUSE(1) | CAUSE(3) | CAUSE(18);
    case CALL_ABORT: return G | CAUSE(1) | CAUSE(3);
    case CALL_T:
    case CALL_C: return step;
    case CALL_R: return step | CAUSE(8) | CAUSE(13);
    case CALL_U: return step | CAUSE(8) | CAUSE(9);
    case CALL_D: return step | CAUSE(8);
    case CALL_I: return step | CAUSE(8) | CAUSE(9) | CAUSE(10) | CAUSE(11) | CAUSE(12);
    case CALL_TT:
    case CALL_RR: return step | CAUSE(13);
    case CALL_UU: return step | CAUSE(9);
    case CALLS: break;
    }
#undef CAUSE
    return 0;
}

static void print_counted(const struct counted *of, int count)
{
    for (int what = 0; what < count; what++)
        printf("%9lu  %s\n", of[what].times, of[what].what);
}

/* Whether there is a call that can have the outcome; no call gives 16. */
static int some_call_has(int outcome)
{
    unsigned all = 0;
    for (int what = 0; what < CALLS; what++)
        all |= possible((enum call_name)what);
    return (int)(all >> outcome & 1);
}

void reached_print(void)
{
    printf("%-7s%9s%8s", "", "granted", "waits");
    for (int cause = 1; cause <= MOST_CAUSE; cause++)
        if (some_call_has(1 + cause))
            printf("%7d", cause);
    printf("\n");
    for (int what = 0; what < CALLS; what++) {
        printf("%-7s", call_word((enum call_name)what));
        for (int outcome = 0; outcome < OUTCOMES; outcome++) {
            int can = possible((enum call_name)what) >> outcome & 1;
            int width = outcome == 0 ? 9 : outcome == 1 ? 8 : 7;
            if (can || outcomes[what][outcome] > 0)
                printf("%*lu", width, outcomes[what][outcome]);
            else if (some_call_has(outcome))
                printf("%*s", width, ".");
        }
        printf("\n");
    }
    print_counted(counted, COUNTED);
    print_counted(counted_rings, rings_counted);
    print_counted(counted_counts, counts_counted);
    print_counted(counted_characters, characters_counted);
}

static unsigned long missing_of(const struct counted *of, int count, unsigned long calls)
{
    unsigned long missing = 0;
    for (int what = 0; what < count && calls >= LEAST_CALLS; what++)
        if (of[what].times < calls / of[what].enough) {
            printf("FAILED: reached %lu times and not %lu: %s\n", of[what].times, calls / of[what].enough, of[what].what);
            missing++;
        }
    return missing;
}

unsigned long reached_missing(unsigned long calls)
{
    return missing_of(counted, COUNTED, calls) + missing_of(counted_rings, rings_counted, calls)
        + missing_of(counted_counts, counts_counted, calls) + missing_of(counted_characters, characters_counted, calls);
}
