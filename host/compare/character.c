#include "character.h"

struct range {
    uint32_t first, last;
};

/* Ranges of XML 1.0, Fifth Edition, from two bytes on: the first NAME_STARTS may begin a name, all may stand in it. */
enum { NAME_STARTS = 12, NAMES = 15, CHARS = 3, LAST = 0x10FFFF };
static const struct range name_ranges[NAMES] = {
    {0xC0, 0xD6}, {0xD8, 0xF6}, {0xF8, 0x2FF}, {0x370, 0x37D}, {0x37F, 0x1FFF}, {0x200C, 0x200D}, {0x2070, 0x218F}, {0x2C00, 0x2FEF},
    {0x3001, 0xD7FF}, {0xF900, 0xFDCF}, {0xFDF0, 0xFFFD}, {0x10000, 0xEFFFF}, {0xB7, 0xB7}, {0x300, 0x36F}, {0x203F, 0x2040}};
static const struct range text_ranges[CHARS] = {{0x80, 0xD7FF}, {0xE000, 0xFFFD}, {0x10000, LAST}};

static uint32_t random_in(struct random *r, struct range range)
{
    switch (below(r, 4)) {
    case 0: return range.first;
    case 1: return range.last;
    default: return range.first + below(r, range.last - range.first + 1);
    }
}

/* The character in so many bytes, which may be more than it needs. */
static size_t encode(uint32_t code, size_t length, uint8_t *out)
{
    static const uint8_t first[] = {0, 0, 0xC0, 0xE0, 0xF0};
    for (size_t i = length; i-- > 1; code >>= 6)
        out[i] = (uint8_t)(0x80 | (code & 0x3F));
    out[0] = (uint8_t)(first[length] | code);
    return length;
}

static size_t length_of(uint32_t code)
{
    return code < 0x80 ? 1 : code < 0x800 ? 2 : code < 0x10000 ? 3 : 4;
}

/* A range that is allowed at the place. Those of few characters come as often as the others. */
static struct range random_range(struct random *r, enum character_place place)
{
    if (place == IN_TEXT && once_in(r, 2))
        return text_ranges[below(r, CHARS)];
    return name_ranges[below(r, place == NAME_FIRST ? NAME_STARTS : NAMES)];
}

size_t random_character(struct random *r, enum character_place place, uint8_t *out)
{
    uint32_t code = random_in(r, random_range(r, place));
    return encode(code, length_of(code), out);
}

/* Right beside a range, which may be in another one. */
static size_t random_beside(struct random *r, enum character_place place, uint8_t *out)
{
    struct range range = random_range(r, place);
    uint32_t code = once_in(r, 2) ? range.first - 1 : range.last + 1;
    if (place == NAME_FIRST && once_in(r, 2))
        code = random_in(r, name_ranges[NAME_STARTS + below(r, NAMES - NAME_STARTS)]);
    return encode(code, length_of(code), out);
}

static size_t random_overlong(struct random *r, uint8_t *out)
{
    static const uint32_t ends[] = {0x7F, 0x7FF, 0xFFFF};
    size_t length = 2 + below(r, 3);
    uint32_t end = ends[below(r, (unsigned)length - 1)];
    return encode(once_in(r, 3) ? end : below(r, end + 1), length, out);
}

/* The first bytes of a character, and at times a byte behind that does not go on with it. */
static size_t random_cut(struct random *r, enum character_place place, uint8_t *out)
{
    static const char behind[] = "<&\"'> =/\t\na";
    size_t left = 1 + below(r, (unsigned)random_character(r, place, out) - 1);
    switch (below(r, 3)) {
    case 0: return left;
    case 1: out[left] = (uint8_t)behind[below(r, sizeof behind - 1)]; return left + 1;
    default: return left + random_character(r, place, out + left);
    }
}

size_t random_wrong_character(struct random *r, enum character_place place, enum wrong_character wrong, uint8_t *out)
{
    static const struct range surrogates = {0xD800, 0xDFFF}, beyond = {LAST + 1, 0x1FFFFF};
    switch (wrong) {
    case BESIDE: return random_beside(r, place, out);
    case OVERLONG: return random_overlong(r, out);
    case SURROGATE: return encode(random_in(r, surrogates), 3, out);
    case TOO_GREAT: return encode(random_in(r, beyond), 4, out);
    case CUT: return random_cut(r, place, out);
    case ALONE:
    case WRONG_CHARACTERS: break;
    }
    /* A byte that begins nothing: one from behind the first of a character, or one that UTF-8 has not. */
    out[0] = (uint8_t)(once_in(r, 2) ? 0x80 + below(r, 0x40) : once_in(r, 2) ? 0xC0 + below(r, 2) : 0xF5 + below(r, 11));
    return 1;
}
