/*
 * characters.c: every code of UTF-8 as a name's first character, as a later one, in a text and in a value, beside both parsers.
 *
 * libxml2 follows the Fifth Edition of XML 1.0, as load does; it must read what load grants and refuse what load refuses. Expat has the
 * names of the Fourth Edition, all of which are names of the Fifth: it must not read a name that load refuses. What the subset leaves out
 * is listed here.
 */
#include "characters.h"

#include <stdio.h>
#include <string.h>

#include "flat.h"

enum place { NAME_FIRST, NAME_LATER, IN_TEXT, IN_VALUE, PLACES };

static const struct {
    const char *before, *behind;
} around[PLACES] = {{"<", "/>"}, {"<a", "/>"}, {"<a>", "</a>"}, {"<a b=\"", "\"/>"}};

struct checked {
    const struct engine *engine;
    void *e;
    struct checked_characters *counts;
};

/* What XML 1.0 reads and the subset does not: a colon in a name, byte 13 wherever it may stand. */
static int left_out(enum place place, const char *bytes, size_t length)
{
    return length == 1 && (bytes[0] == '\r' || (bytes[0] == ':' && (place == NAME_FIRST || place == NAME_LATER)));
}

static void fail(struct checked *c, const char *what, const char *xml, size_t length)
{
    c->counts->failed++;
    printf("FAILED: %s:", what);
    for (size_t i = 0; i < length; i++)
        printf(" %02X", (unsigned char)xml[i]);
    printf("\n");
}

static void check_place(struct checked *c, enum place place, const char *bytes, size_t length)
{
    char xml[32];
    struct flat flat = {NULL, 0, 0};
    size_t before = strlen(around[place].before), behind = strlen(around[place].behind), total = before + length + behind;
    memcpy(xml, around[place].before, before);
    memcpy(xml + before, bytes, length);
    memcpy(xml + before + length, around[place].behind, behind);
    noodlefen_answer answer = c->engine->load(c->e, (const uint8_t *)xml, total);
    int ours = noodlefen_granted(answer), libxml2 = flat_by_libxml2(&flat, xml, total), expat = reads_by_expat(xml, total);
    flat_free(&flat);
    int name = place == NAME_FIRST || place == NAME_LATER;
    if (left_out(place, bytes, length) ? ours : ours != libxml2)
        fail(c, ours ? "load grants it, libxml2 does not read it" : "load refuses it, libxml2 reads it", xml, total);
    else if (!left_out(place, bytes, length) && (name ? expat && !ours : expat != ours))
        fail(c, ours ? "load grants it, expat does not read it" : "load refuses it, expat reads it", xml, total);
    else
        c->counts->passed++;
    c->counts->granted += ours ? 1u : 0u;
    c->counts->of_fifth_edition += ours && !expat ? 1u : 0u;
}

static void check(struct checked *c, const char *bytes, size_t length)
{
    for (int place = 0; place < PLACES && c->counts->failed < 10; place++)
        check_place(c, (enum place)place, bytes, length);
}

/* The code in so many bytes, needed or not. */
static void check_code(struct checked *c, uint32_t code, size_t length)
{
    static const unsigned first[] = {0, 0, 0xC0, 0xE0, 0xF0, 0xF8, 0xFC};
    char bytes[6];
    for (size_t i = length; i-- > 1; code >>= 6)
        bytes[i] = (char)(0x80 | (code & 0x3F));
    bytes[0] = (char)(first[length] | code);
    check(c, bytes, length);
}

static size_t length_of(uint32_t code)
{
    return code < 0x80 ? 1 : code < 0x800 ? 2 : code < 0x10000 ? 3 : 4;
}

/* Every byte alone, and behind the first bytes of characters: what is cut, and what does not go on. */
static void check_broken(struct checked *c)
{
    static const char *const begun[] = {"", "\xC2", "\xC3", "\xDF", "\xE0", "\xE0\xA0", "\xE3", "\xE3\x81", "\xED", "\xED\x9F", "\xEF\xBF",
                                        "\xF0", "\xF0\x90", "\xF0\x90\x8C", "\xF4", "\xF4\x8F", "\xF4\x8F\xBF", "\xC3\xA4", "\xE3\x81\x82"};
    for (size_t i = 0; i < sizeof begun / sizeof *begun; i++) {
        char bytes[4];
        size_t length = strlen(begun[i]);
        memcpy(bytes, begun[i], length);
        for (int byte = 0x80; byte < 0x100; byte++) {
            bytes[length] = (char)byte;
            check(c, bytes, length + 1);
        }
        if (length > 0)
            check(c, bytes, length);
    }
}

void check_characters(const struct engine *engine, struct checked_characters *counts)
{
    struct checked c = {engine, engine->make(), counts};
    engine->start(c.e);
    for (uint32_t code = 0; code <= 0x10FFFF; code++) /* the surrogates too, in three bytes */
        check_code(&c, code, length_of(code));
    for (size_t length = 2; length <= 4; length++) /* in more bytes than needed */
        for (uint32_t code = 0; length_of(code) < length; code++)
            if (code < 0x1000 || code % 61 == 0 || length_of(code + 1) == length)
                check_code(&c, code, length);
    for (uint32_t code = 0x110000; code <= 0x1FFFFF; code += code < 0x110100 ? 1 : 251)
        check_code(&c, code, 4);
    check_code(&c, 0x1FFFFF, 4);
    for (uint32_t code = 0; code < 0x4000000; code += 1 + code / 3) {
        check_code(&c, code, 5);
        check_code(&c, code, 6);
    }
    check_broken(&c);
    engine->drop(c.e);
}
