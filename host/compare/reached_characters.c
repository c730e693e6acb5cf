/* reached_characters.c: what the random calls have come to with characters of more than one byte. */
#include <string.h>

#include "place.h"
#include "reached.h"

/* Counters that follow each other are for two, three and four bytes, or for a name, a value and a text. */
enum {
    NAME_2, NAME_3, NAME_4, VALUE_2, VALUE_3, VALUE_4, TEXT_2, TEXT_3, TEXT_4, DELETE_BYTE,
    FIRST_NAME, FIRST_VALUE, FIRST_TEXT, INSIDE_NAME, INSIDE_VALUE, INSIDE_TEXT, NAME_START,
    CUT_LESS, CUT_REFERENCE, CUT_QUOTE, CUT_BLANK, CUT_EQUALS, CUT_GREATER, CUT_FIRST, CUT_END,
    OVERLONG, SURROGATE, TOO_GREAT, NO_CHARACTER, ALONE, MARK, END_TAG,
    LONG_NAME, LONG_VALUE, LONG_TEXT, LONG_INSIDE_NAME, LONG_INSIDE_VALUE, LONG_INSIDE_TEXT,
    WRONG_33RD_NAME, WRONG_33RD_VALUE, WRONG_33RD_TEXT,
    NODE_ELEMENT, NODE_ATTRIBUTE, NODE_VALUE, NODE_TEXT, NODE_WRONG,
    STEP_NAME_2, STEP_NAME_3, STEP_NAME_4, STEP_TEXT_2, STEP_TEXT_3, STEP_TEXT_4, STEP_U, STEP_32, STEP_DELETE_BYTE,
    STEP_OVERLONG, STEP_SURROGATE, STEP_TOO_GREAT, STEP_ALONE, STEP_CUT, STEP_CUT_AT_END, STEP_NAME_START, RENAMED, NOT_RENAMED,
    WRITTEN, COUNTED
};

#define MUST(what) {what, 100000, 0}
struct counted counted_characters[] = {
    [NAME_2] = MUST("loaded names: characters of two bytes"),
    [NAME_3] = MUST("loaded names: characters of three bytes"),
    [NAME_4] = MUST("loaded names: characters of four bytes"),
    [VALUE_2] = MUST("loaded values: characters of two bytes"),
    [VALUE_3] = MUST("loaded values: characters of three bytes"),
    [VALUE_4] = MUST("loaded values: characters of four bytes"),
    [TEXT_2] = MUST("loaded texts: characters of two bytes"),
    [TEXT_3] = MUST("loaded texts: characters of three bytes"),
    [TEXT_4] = MUST("loaded texts: characters of four bytes"),
    [DELETE_BYTE] = MUST("loaded texts and values: byte 0x7F"),
    [FIRST_NAME] = MUST("cause 4 at a byte from 0x80 on that begins no character, in a name"),
    [FIRST_VALUE] = MUST("cause 4 at such a byte in a value"),
    [FIRST_TEXT] = MUST("cause 4 at such a byte in a text"),
    [INSIDE_NAME] = MUST("cause 4 inside a character of a name"),
    [INSIDE_VALUE] = MUST("cause 4 inside a character of a value"),
    [INSIDE_TEXT] = MUST("cause 4 inside a character of a text"),
    [NAME_START] = MUST("cause 4 in a name's first character, one that may stand later"),
    [CUT_LESS] = MUST("cause 4, a character cut by <"),
    [CUT_REFERENCE] = MUST("cause 4, a character cut by &"),
    [CUT_QUOTE] = MUST("cause 4, a character cut by a quote"),
    [CUT_BLANK] = MUST("cause 4, a character cut by a blank"),
    [CUT_EQUALS] = MUST("cause 4, a character cut by ="),
    [CUT_GREATER] = MUST("cause 4, a character cut by >"),
    [CUT_FIRST] = MUST("cause 4, a character cut by another one"),
    [CUT_END] = MUST("cause 4, a character cut by the end of the input"),
    [OVERLONG] = MUST("cause 4, an overlong form"),
    [SURROGATE] = MUST("cause 4, a surrogate"),
    [TOO_GREAT] = MUST("cause 4, above the last character"),
    [NO_CHARACTER] = MUST("cause 4, U+FFFE or U+FFFF"),
    [ALONE] = MUST("cause 4, 0x80 to 0xBF behind no character"),
    [MARK] = MUST("cause 4, a byte order mark"),
    [END_TAG] = MUST("cause 4, from 0x80 on in an end tag"),
    [LONG_NAME] = MUST("cause 5 at the first byte of a character of a name"),
    [LONG_VALUE] = MUST("cause 5 at the first byte of a character of a value"),
    [LONG_TEXT] = MUST("cause 5 at the first byte of a character of a text"),
    [LONG_INSIDE_NAME] = MUST("cause 5 inside a character of a name"),
    [LONG_INSIDE_VALUE] = MUST("cause 5 inside a character of a value"),
    [LONG_INSIDE_TEXT] = MUST("cause 5 inside a character of a text"),
    [WRONG_33RD_NAME] = MUST("cause 4 inside a character, at the 33rd byte of a name"),
    [WRONG_33RD_VALUE] = MUST("cause 4 inside a character, at the 33rd byte of a value"),
    [WRONG_33RD_TEXT] = MUST("cause 4 inside a character, at the 33rd byte of a text"),
    [NODE_ELEMENT] = MUST("cause 6 at an element whose name begins with a longer character"),
    [NODE_ATTRIBUTE] = MUST("cause 6 at such an attribute"),
    [NODE_VALUE] = MUST("cause 6 at a value that begins with a longer character"),
    [NODE_TEXT] = MUST("cause 6 at such a text"),
    [NODE_WRONG] = MUST("cause 6 by the first byte of a character that is cut"),
    [STEP_NAME_2] = MUST("granted I: names with characters of two bytes"),
    [STEP_NAME_3] = MUST("granted I: names with characters of three bytes"),
    [STEP_NAME_4] = MUST("granted I: names with characters of four bytes"),
    [STEP_TEXT_2] = MUST("granted I: texts with characters of two bytes"),
    [STEP_TEXT_3] = MUST("granted I: texts with characters of three bytes"),
    [STEP_TEXT_4] = MUST("granted I: texts with characters of four bytes"),
    [STEP_U] = MUST("granted U: longer characters"),
    [STEP_32] = MUST("granted U and I: 32 bytes that end with a longer character"),
    [STEP_DELETE_BYTE] = MUST("granted U and I: byte 0x7F"),
    [STEP_OVERLONG] = MUST("cause 9 of U, I and UU: an overlong form"),
    [STEP_SURROGATE] = MUST("cause 9 of U, I and UU: a surrogate"),
    [STEP_TOO_GREAT] = MUST("cause 9 of U, I and UU: above the last character"),
    [STEP_ALONE] = MUST("cause 9 of U, I and UU: 0x80 to 0xBF behind no character"),
    [STEP_CUT] = MUST("cause 9 of U, I and UU: a character cut by another one"),
    [STEP_CUT_AT_END] = MUST("cause 9 of U, I and UU: a character cut by the end"),
    [STEP_NAME_START] = MUST("cause 9 of U, I and UU: a character that no name begins with as the first"),
    [RENAMED] = MUST("granted UU of a name with longer characters: some renamed"),
    [NOT_RENAMED] = MUST("granted UU of a name with longer characters: none renamed"),
    [WRITTEN] = MUST("written: characters of more than one byte"),
};
const int characters_counted = COUNTED;

static void count_if(int met, int what)
{
    counted_characters[what].times += met ? 1u : 0u;
}

/* How many bytes a character has by its first byte; 0 if it begins none of more than one. */
static size_t length_by(int first)
{
    return first >= 0xC2 && first <= 0xDF ? 2 : first >= 0xE0 && first <= 0xEF ? 3 : first >= 0xF0 && first <= 0xF4 ? 4 : 0;
}

static int goes_on(int byte)
{
    return (byte & 0xC0) == 0x80;
}

/* How many bytes before the place belong to a character that is not whole there. */
static size_t begun_before(const uint8_t *bytes, size_t at)
{
    for (size_t back = 1; back <= 3 && back <= at; back++)
        if (!goes_on(bytes[at - back]))
            return length_by(bytes[at - back]) > back ? back : 0;
    return 0;
}

/* Whether a character that may stand in a name, but not begin it, is at the place: U+00B7, U+0300 to U+036F, U+203F, U+2040. */
static int later_in_names(const uint8_t *bytes, size_t length)
{
    if (length >= 2 && ((bytes[0] == 0xC2 && bytes[1] == 0xB7) || bytes[0] == 0xCC || (bytes[0] == 0xCD && bytes[1] < 0xB0)))
        return 1;
    return length >= 3 && bytes[0] == 0xE2 && ((bytes[1] == 0x80 && bytes[2] == 0xBF) || (bytes[1] == 0x81 && bytes[2] == 0x80));
}

static int overlong(const uint8_t *bytes, size_t length)
{
    return length >= 2
        && ((bytes[0] == 0xE0 && bytes[1] >= 0x80 && bytes[1] < 0xA0) || (bytes[0] == 0xF0 && bytes[1] >= 0x80 && bytes[1] < 0x90)
            || ((bytes[0] & 0xFE) == 0xC0 && goes_on(bytes[1])));
}

static int surrogate(const uint8_t *bytes, size_t length)
{
    return length >= 2 && bytes[0] == 0xED && bytes[1] >= 0xA0 && bytes[1] <= 0xBF;
}

static int too_great(const uint8_t *bytes, size_t length)
{
    return length >= 2 && goes_on(bytes[1]) && ((bytes[0] == 0xF4 && bytes[1] >= 0x90) || (bytes[0] >= 0xF5 && bytes[0] <= 0xF7));
}

static void count_loaded(const uint8_t *xml, size_t length)
{
    struct place place = {0, 0};
    for (size_t i = 0; i < length; i++) {
        size_t bytes = length_by(xml[i]);
        if (bytes > 0)
            count_if(1, (place.quote != 0 ? VALUE_2 : place.in_tag ? NAME_2 : TEXT_2) + (int)bytes - 2);
        count_if(xml[i] == 0x7F, DELETE_BYTE);
        place = place_behind(place, xml[i]);
    }
}

/* Whether a name begins here, in a tag. */
static int begins_name(const uint8_t *xml, size_t at)
{
    return at > 0 && strchr("< \t\n", xml[at - 1]) != NULL;
}

/* Cause 4 at the offset, where so many bytes before belong to a character; kind is 0 in a name, 1 in a value, 2 in a text. */
static void count_wrong(const uint8_t *xml, size_t length, size_t offset, size_t begun, int kind)
{
    const uint8_t *from = xml + offset - begun;
    size_t left = length - offset + begun;
    int byte = offset < length ? xml[offset] : -1;
    count_if(begun > 0 && byte < 0, CUT_END);
    if (byte < 0)
        return;
    if (begun > 0 || byte >= 0x80)
        count_if(1, (begun > 0 ? INSIDE_NAME : FIRST_NAME) + kind);
    count_if(kind == 0 && begins_name(xml, offset - begun) && later_in_names(from, left), NAME_START);
    count_if(overlong(from, left), OVERLONG);
    count_if(surrogate(from, left), SURROGATE);
    count_if(too_great(from, left), TOO_GREAT);
    count_if(begun == 2 && from[0] == 0xEF && from[1] == 0xBF && byte >= 0xBE && byte <= 0xBF, NO_CHARACTER);
    count_if(begun == 0 && goes_on(byte), ALONE);
    count_if(offset == 0 && left >= 3 && memcmp(from, "\xEF\xBB\xBF", 3) == 0, MARK);
    if (begun > 0) {
        count_if(byte == '<', CUT_LESS);
        count_if(byte == '&', CUT_REFERENCE);
        count_if(byte == '"' || byte == '\'', CUT_QUOTE);
        count_if(byte == ' ' || byte == '\t' || byte == '\n', CUT_BLANK);
        count_if(byte == '=', CUT_EQUALS);
        count_if(byte == '>', CUT_GREATER);
        count_if(length_by(byte) > 0, CUT_FIRST);
    }
}

/* Cause 6 at the offset, whose node begins with the byte at first; cut if that is of a character that does not go on. */
static void count_node(const uint8_t *xml, size_t length, size_t first, int what)
{
    if (first >= length || length_by(xml[first]) == 0)
        return;
    count_if(1, what);
    count_if(first + 1 >= length || !goes_on(xml[first + 1]), NODE_WRONG);
}

static void count_refused(const uint8_t *xml, size_t length, unsigned cause, size_t offset)
{
    struct place place = {0, 0};
    size_t tag = 0, content = 0; /* where the last tag begins, and the last name, value or text without references */
    for (size_t i = 0; i < offset; i++) {
        if (xml[i] == '<')
            tag = i;
        if (strchr(place.quote != 0 ? "\";'" : place.in_tag ? "< \t\n\"'>" : "<;", xml[i]) != NULL)
            content = i + 1;
        place = place_behind(place, xml[i]);
    }
    size_t begun = begun_before(xml, offset);
    int kind = place.quote != 0 ? 1 : place.in_tag ? 0 : 2;
    int byte = offset < length ? xml[offset] : 0;
    if (cause == NOODLEFEN_GRAMMAR) {
        count_wrong(xml, length, offset, begun, kind);
        count_if(kind == 0 && byte >= 0x80 && xml[tag] == '<' && tag + 1 < offset && xml[tag + 1] == '/', END_TAG);
        count_if(begun > 0 && offset == content + 32, WRONG_33RD_NAME + kind);
    } else if (cause == NOODLEFEN_LOADED_CONTENT) {
        if (begun > 0 || length_by(byte) > 0)
            count_if(1, (begun > 0 ? LONG_INSIDE_NAME : LONG_NAME) + kind);
    } else if (kind == 2) {
        count_node(xml, length, byte == '<' ? offset + 1 : offset, byte == '<' ? NODE_ELEMENT : NODE_TEXT);
    } else {
        int quote = byte == '"' || byte == '\'';
        count_node(xml, length, quote ? offset + 1 : offset, quote ? NODE_VALUE : NODE_ATTRIBUTE);
    }
}

static int longer(const uint8_t *bytes, size_t length)
{
    for (size_t i = 0; i < length; i++)
        if (bytes[i] >= 0x80)
            return 1;
    return 0;
}

/* A content that was granted; only I says its kind. */
static void count_content(const uint8_t *bytes, size_t length, uint32_t kind)
{
    for (size_t i = 0; i < length; i++) {
        size_t count = length_by(bytes[i]);
        if (count > 0)
            count_if(1, kind == 0 ? STEP_U : (kind == NOODLEFEN_TEXT ? STEP_TEXT_2 : STEP_NAME_2) + (int)count - 2);
        count_if(count > 0 && i + count == 32, STEP_32);
        count_if(bytes[i] == 0x7F, STEP_DELETE_BYTE);
    }
}

static void count_unfit(const uint8_t *bytes, size_t length)
{
    count_if(length <= 32 && later_in_names(bytes, length), STEP_NAME_START);
    for (size_t i = 0; i < length && length <= 32; i++) {
        size_t begun = begun_before(bytes, i);
        count_if(overlong(bytes + i, length - i), STEP_OVERLONG);
        count_if(surrogate(bytes + i, length - i), STEP_SURROGATE);
        count_if(too_great(bytes + i, length - i), STEP_TOO_GREAT);
        count_if(begun == 0 && goes_on(bytes[i]), STEP_ALONE);
        count_if(begun > 0 && !goes_on(bytes[i]), STEP_CUT);
        count_if(i + 1 == length && begun_before(bytes, length) > 0, STEP_CUT_AT_END);
    }
}

static void count_step(const struct call *call, noodlefen_answer answer)
{
    if (noodlefen_cause(answer) == NOODLEFEN_CONTENT) {
        count_unfit(call->a, call->a_length);
        if (call->what == CALL_UU)
            count_unfit(call->b, call->b_length);
    }
    if (!noodlefen_granted(answer))
        return;
    if (call->what == CALL_U || call->what == CALL_I)
        count_content(call->a, call->a_length, call->kind);
    if (call->what == CALL_UU && longer(call->a, call->a_length))
        count_if(1, noodlefen_value(answer) > 0 ? RENAMED : NOT_RENAMED);
}

void reached_characters(const struct call *call, noodlefen_answer answer, const struct lent *lent)
{
    unsigned cause = noodlefen_cause(answer);
    if (call->what == CALL_LOAD && noodlefen_granted(answer))
        count_loaded(call->xml, call->xml_length);
    if (call->what == CALL_LOAD && cause >= NOODLEFEN_GRAMMAR && cause <= NOODLEFEN_LOADED_NODES)
        count_refused(call->xml, call->xml_length, cause, (size_t)noodlefen_value(answer));
    if (call->what == CALL_WRITE && noodlefen_granted(answer))
        count_if(longer(lent->bytes, (size_t)noodlefen_value(answer)), WRITTEN);
    if (call->what == CALL_U || call->what == CALL_I || call->what == CALL_UU)
        count_step(call, answer);
}
