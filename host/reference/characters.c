#include "characters.h"

struct range {
    uint32_t first, last;
};

/* Production 4, NameStartChar, without the colon. */
static const struct range name_start[] = {
    {'A', 'Z'}, {'_', '_'}, {'a', 'z'}, {0xC0, 0xD6}, {0xD8, 0xF6}, {0xF8, 0x2FF}, {0x370, 0x37D}, {0x37F, 0x1FFF},
    {0x200C, 0x200D}, {0x2070, 0x218F}, {0x2C00, 0x2FEF}, {0x3001, 0xD7FF}, {0xF900, 0xFDCF}, {0xFDF0, 0xFFFD},
    {0x10000, 0xEFFFF}, {0, 0}};

/* Production 4a, NameChar: these besides. */
static const struct range name_besides[] = {
    {'-', '-'}, {'.', '.'}, {'0', '9'}, {0xB7, 0xB7}, {0x300, 0x36F}, {0x203F, 0x2040}, {0, 0}};

/* Production 2, Char, without 13. */
static const struct range any[] = {{0x9, 0x9}, {0xA, 0xA}, {0x20, 0xD7FF}, {0xE000, 0xFFFD}, {0x10000, 0x10FFFF}, {0, 0}};

/* Whether the two have a character in common. The list ends with a range of 0 alone. */
static int meets(const struct range *ranges, struct range codes)
{
    for (; ranges->last != 0; ranges++)
        if (ranges->first <= codes.last && codes.first <= ranges->last)
            return 1;
    return 0;
}

static int class_meets(enum character_class class, struct range codes)
{
    switch (class) {
    case NAME_START: return meets(name_start, codes);
    case NAME: return meets(name_start, codes) || meets(name_besides, codes);
    case ANY: return meets(any, codes);
    }
    return 0;
}

/* The forms of UTF-8: so many bytes, the first with these upper bits, for these characters; more bytes than needed are not allowed. */
static const struct form {
    size_t length;
    uint8_t mask, upper;
    struct range codes;
} forms[4] = {
    {1, 0x80, 0x00, {0, 0x7F}}, {2, 0xE0, 0xC0, {0x80, 0x7FF}}, {3, 0xF0, 0xE0, {0x800, 0xFFFF}}, {4, 0xF8, 0xF0, {0x10000, 0x10FFFF}}};

static const struct form *form_of(uint8_t byte)
{
    for (int i = 0; i < 4; i++)
        if ((byte & forms[i].mask) == forms[i].upper)
            return &forms[i];
    return NULL;
}

/* Each byte behind the first has six bits: those still to come are all 0 in the first character that begins so, all 1 in the last. */
int character_begins(enum character_class class, const uint8_t *bytes, size_t count)
{
    const struct form *form = form_of(bytes[0]);
    if (form == NULL || count > form->length)
        return 0;
    uint32_t first = bytes[0] & (uint32_t)~form->mask & 0xFF, last = first;
    for (size_t i = 1; i < form->length; i++) {
        if (i < count && (bytes[i] & 0xC0) != 0x80)
            return 0;
        first = first << 6 | (i < count ? bytes[i] & 0x3Fu : 0);
        last = last << 6 | (i < count ? bytes[i] & 0x3Fu : 0x3F);
    }
    struct range codes = {first > form->codes.first ? first : form->codes.first, last < form->codes.last ? last : form->codes.last};
    return codes.first <= codes.last && class_meets(class, codes);
}

int character_whole(const uint8_t *bytes, size_t count)
{
    const struct form *form = form_of(bytes[0]);
    return form != NULL && count == form->length;
}

size_t character_length(enum character_class class, const uint8_t *bytes, size_t count)
{
    for (size_t length = 1; length <= count && character_begins(class, bytes, length); length++)
        if (character_whole(bytes, length))
            return length;
    return 0;
}

int first_byte(enum character_class class, int byte)
{
    uint8_t first = (uint8_t)byte;
    return byte >= 0 && character_begins(class, &first, 1);
}
