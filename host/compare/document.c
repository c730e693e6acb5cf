#include "document.h"

#include <string.h>

#include "character.h"

/* U+00E4 is another name than a with the mark U+0308 behind it, which looks the same. */
static const char *const names[] = {"a", "b", "c", "\xC3\xA4", "ab", "lift", "T\xC3\xBCr", "d", "ramp", "_x", "A.b-9", "xml",
                                    "a\xCC\x88", "\xE3\x81\x82", "\xF0\x90\x8C\xB0"};
enum { NAMES = sizeof names / sizeof names[0] };

/* Characters up to the length or past it, of which some are no longer than a byte; at times one is wrong. Answers how many bytes. */
static size_t random_characters(struct random *r, uint8_t *out, size_t wanted, int name)
{
    size_t length = 0, wrong = once_in(r, 3) ? below(r, (unsigned)wanted + 1) : wanted;
    while (length < wanted) {
        enum character_place place = !name ? IN_TEXT : length == 0 ? NAME_FIRST : NAME_LATER;
        if (length >= wrong) {
            length += random_wrong_character(r, place, (enum wrong_character)below(r, WRONG_CHARACTERS), out + length);
            wrong = wanted;
        } else if (once_in(r, 3)) {
            out[length++] = (uint8_t)('a' + below(r, 26));
        } else {
            length += random_character(r, place, out + length);
        }
    }
    return length;
}

size_t random_name(struct random *r, uint8_t *out)
{
    static const char first[] = "abcXYZ_", later[] = "abcXYZ_019-.";
    if (!once_in(r, 8)) {
        /* The first names come more often, so that names meet. */
        const char *name = names[once_in(r, 3) ? below(r, NAMES) : below(r, 4)];
        memcpy(out, name, strlen(name));
        return strlen(name);
    }
    size_t length = once_in(r, 2) ? 30 + below(r, 5) : 1 + below(r, 10);
    if (once_in(r, 2))
        return random_characters(r, out, once_in(r, 3) ? 29 + below(r, 4) : 1 + below(r, 10), 1);
    for (size_t i = 0; i < length; i++)
        out[i] = (uint8_t)(i == 0 ? first[below(r, sizeof first - 1)] : later[below(r, sizeof later - 1)]);
    if (once_in(r, 4))
        memset(out, 'n', length); /* so that long names meet too */
    if (once_in(r, 6) && length > 0)
        out[below(r, (unsigned)length)] = (uint8_t)below(r, 256);
    return once_in(r, 20) ? 0 : length;
}

size_t random_text(struct random *r, uint8_t *out)
{
    static const char special[] = "<>&\"'\t\n\t\n ]]>ab";
    size_t length = once_in(r, 4) ? 30 + below(r, 5) : below(r, 6);
    if (once_in(r, 4))
        return random_characters(r, out, once_in(r, 3) ? 29 + below(r, 4) : 1 + below(r, 10), 0);
    for (size_t i = 0; i < length; i++)
        out[i] = (uint8_t)(once_in(r, 3) ? special[below(r, sizeof special - 1)] : (char)(0x20 + below(r, 0x60)));
    if (once_in(r, 12))
        memset(out, special[below(r, sizeof special - 1)], length); /* the longest and the shortest when written */
    if (once_in(r, 20) && length > 0)
        out[below(r, (unsigned)length)] = (uint8_t)below(r, 256);
    return length;
}

struct writer {
    struct random *r;
    uint8_t *out;
    size_t length, nodes, most_nodes;
    int long_contents, wrong_references, wrong_characters; /* at times */
};

static void put(struct writer *w, const char *bytes)
{
    memcpy(w->out + w->length, bytes, strlen(bytes));
    w->length += strlen(bytes);
}

static void put_byte(struct writer *w, int byte)
{
    w->out[w->length++] = (uint8_t)byte;
}

static void put_blanks(struct writer *w, int at_least)
{
    static const char blanks[] = " \t\n";
    for (int i = 0; i < at_least || once_in(w->r, 12); i++)
        put_byte(w, i == 0 && at_least && !once_in(w->r, 8) ? ' ' : blanks[below(w->r, 3)]);
}

static size_t content_length(struct writer *w)
{
    if (once_in(w->r, w->long_contents ? 4 : 10))
        return w->long_contents ? 31 + below(w->r, 3) : 31 + below(w->r, 2);
    return 1 + below(w->r, 5);
}

/* A character of more than one byte, no longer than this unless contents may be too long. Answers its length. */
static size_t put_character(struct writer *w, enum character_place place, size_t most)
{
    uint8_t *out = w->out + w->length;
    size_t length;
    if (w->wrong_characters && once_in(w->r, 20)) {
        length = random_wrong_character(w->r, place, (enum wrong_character)below(w->r, WRONG_CHARACTERS), out);
    } else {
        length = random_character(w->r, place, out);
        if (length > most && !w->long_contents) {
            out[0] = 'n';
            length = 1;
        }
    }
    w->length += length;
    return length;
}

static void put_reference(struct writer *w)
{
    static const char *const right[] = {"&amp;", "&lt;", "&gt;", "&quot;", "&apos;", "&#9;", "&#10;", "&#9;", "&#10;"};
    static const char *const wrong[] = {"&#1;", "&#x9;", "&#09;", "&#11;", "&#13;", "&#90;", "&#99;", "&#100;", "&#;", "&#9", "&#10",
                                        "&#9 ;", "&#", "&# 9;", "&##9;", "&", "&amp", "&x;"};
    if (w->wrong_references && once_in(w->r, 8))
        put(w, wrong[below(w->r, sizeof wrong / sizeof wrong[0])]);
    else
        put(w, right[below(w->r, sizeof right / sizeof right[0])]);
}

/* Bytes up to the 33rd of a content that has some, the last few of one character, which may be wrong, or of a reference. */
static void put_to_limit(struct writer *w, enum character_place place, size_t has)
{
    for (size_t length = 29 + below(w->r, 4); has < length; has++)
        put_byte(w, 'n');
    if (place == IN_TEXT && once_in(w->r, 6)) {
        put_reference(w);
        return;
    }
    uint8_t *out = w->out + w->length;
    w->length += once_in(w->r, 2) ? random_character(w->r, place, out)
        : random_wrong_character(w->r, place, (enum wrong_character)below(w->r, WRONG_CHARACTERS), out);
}

/* A name that no attribute of one element has twice: serial tells them apart. */
static void put_name(struct writer *w, int serial)
{
    size_t from = w->length;
    if (once_in(w->r, 12))
        put_character(w, NAME_FIRST, 4);
    else
        put(w, names[below(w->r, 7)]);
    if (serial > 0)
        put_byte(w, '0' + serial % 10);
    if (w->long_contents && once_in(w->r, 12)) {
        put_to_limit(w, NAME_LATER, w->length - from);
    } else if (once_in(w->r, 12)) {
        unsigned longer = below(w->r, 3); /* none, some or all of the characters have more than one byte */
        for (size_t length = content_length(w), has = w->length - from; has < length; has = w->length - from)
            if (longer == 2 || (longer == 1 && once_in(w->r, 4)))
                put_character(w, NAME_LATER, length - has);
            else
                put_byte(w, 'n');
    }
}

/* A value in the quote, or with quote 0 a text. */
static void put_content(struct writer *w, int quote)
{
    size_t length = content_length(w);
    int before = 0, before_that = 0;
    unsigned longer = once_in(w->r, 3) ? 2 : 20;
    if (w->long_contents && once_in(w->r, 3)) {
        put_to_limit(w, IN_TEXT, 0);
        length = 0;
    }
    for (size_t i = 0; i < length; i++) {
        if (once_in(w->r, longer)) {
            i += put_character(w, IN_TEXT, length - i) - 1;
            before = before_that = 0;
            continue;
        }
        int byte = once_in(w->r, 8) ? "\t\n ]]>'\""[below(w->r, 8)] : (int)(0x20 + below(w->r, 0x60));
        if (once_in(w->r, i < 32 ? 10 : 2) || byte == '<' || byte == '&' || byte == quote
            || (byte == '>' && before == ']' && before_that == ']')) {
            put_reference(w);
            byte = 0;
        } else {
            put_byte(w, byte);
        }
        before_that = before;
        before = byte;
    }
    w->nodes++;
}

static void put_element(struct writer *w, unsigned depth)
{
    size_t name = w->length + 1;
    w->nodes++;
    put(w, "<");
    put_name(w, 0);
    size_t name_length = w->length - name;
    for (int serial = 1; serial < 8 && w->nodes + 3 < w->most_nodes && once_in(w->r, 3); serial++) {
        int quote = once_in(w->r, 2) ? '\'' : '"';
        put_blanks(w, 1);
        put_name(w, serial);
        w->nodes++;
        put_blanks(w, 0);
        put(w, "=");
        put_blanks(w, 0);
        put_byte(w, quote);
        if (!once_in(w->r, 4))
            put_content(w, quote);
        put_byte(w, quote);
    }
    put_blanks(w, 0);
    unsigned children = depth == 0 ? (unsigned)w->most_nodes : below(w->r, 6);
    if (children == 0 && !once_in(w->r, 3)) {
        put(w, "/>");
        return;
    }
    put(w, ">");
    for (unsigned i = 0, text_before = 0; i < children && w->nodes + 1 < w->most_nodes; i++) {
        unsigned text = !text_before && once_in(w->r, 3);
        if (text)
            put_content(w, 0);
        else
            put_element(w, depth + 1);
        text_before = text;
        if (depth == 0 && once_in(w->r, 40))
            break;
    }
    put(w, "</");
    memmove(w->out + w->length, w->out + name, name_length);
    w->length += name_length;
    put_blanks(w, 0);
    put(w, ">");
}

static void put_declaration(struct writer *w)
{
    if (once_in(w->r, 3))
        put(w, "<?xml version=\"1.0\"?>");
    else if (once_in(w->r, 3))
        put(w, "<?xml version=\"1.0\" encoding=\"UTF-8\"?>");
}

size_t random_document(struct random *r, uint8_t *out, size_t nodes, int rough)
{
    unsigned kind = rough ? below(r, 3) : 3;
    struct writer w = {r, out, 0, 1, nodes, kind == 0, kind == 1, kind == 2};
    if (w.wrong_characters && once_in(r, 8))
        put(&w, "\xEF\xBB\xBF"); /* a byte order mark */
    put_declaration(&w);
    put_blanks(&w, 0);
    put_element(&w, 0);
    put_blanks(&w, 0);
    return w.length;
}

static size_t insert_bytes(uint8_t *out, size_t length, size_t place, const char *bytes, size_t count)
{
    memmove(out + place + count, out + place, length - place);
    memcpy(out + place, bytes, count);
    return length + count;
}

/* A place in or right behind the next character of more than one byte, or the place itself. */
static size_t place_in_character(struct random *r, const uint8_t *out, size_t length, size_t place)
{
    size_t at = place;
    while (at < length && out[at] < 0x80)
        at++;
    at += below(r, 4);
    return at < length ? at : place;
}

/* A place in or right behind the next reference, often a character reference, or the place itself. */
static size_t place_in_reference(struct random *r, const uint8_t *out, size_t length, size_t place)
{
    const uint8_t *found = memchr(out + place, once_in(r, 3) ? '&' : '#', length - place);
    size_t inside = found != NULL ? (size_t)(found - out) + below(r, 5) : place;
    return inside < length ? inside : place;
}

/* A piece of XML or of what looks like it. */
static size_t insert_piece(struct random *r, uint8_t *out, size_t length, size_t place)
{
    static const char *const pieces[] = {"<!--x-->", "<![CDATA[x]]>", "&#9;", "<?pi?>", "\r\n", "]]>", "&x;", "<!DOCTYPE a>", "&amp;",
                                         "<a/>", "</a>", " a=\"\"", " b='c'", "\xC3\xA9", "\xEF\xBB\xBF", "<?xml version=\"1.0\"?>", "x",
                                         "&#10;", "&#x9;", "&#09;", "&#1;", "&#13;", "&#90;", "&#100;", "&#"};
    const char *piece = pieces[below(r, sizeof pieces / sizeof pieces[0])];
    return insert_bytes(out, length, place, piece, strlen(piece));
}

size_t random_damage(struct random *r, uint8_t *out, size_t length)
{
    static const char special[] = "<>&\"'/=?!;] \t\n\rab0:#019x";
    for (unsigned times = 1 + below(r, 2); times > 0 && length > 0; times--) {
        size_t place = below(r, (unsigned)length);
        if (once_in(r, 2))
            place = once_in(r, 2) ? place_in_reference(r, out, length, place) : place_in_character(r, out, length, place);
        switch (below(r, 7)) {
        case 0:
            out[place] = (uint8_t)(once_in(r, 3) ? below(r, 256) : (unsigned char)special[below(r, sizeof special - 1)]);
            break;
        case 1:
            memmove(out + place, out + place + 1, length - place - 1);
            length--;
            break;
        case 2:
            length = insert_bytes(out, length, place, &special[below(r, sizeof special - 1)], 1);
            break;
        case 3:
            length = insert_piece(r, out, length, place);
            break;
        case 4:
            length = once_in(r, 2) ? place_in_reference(r, out, length, place) : place;
            break;
        case 6: {
            uint8_t piece[CHARACTER_ROOM];
            enum character_place where = (enum character_place)below(r, 3);
            size_t count = once_in(r, 2) ? random_character(r, where, piece)
                : random_wrong_character(r, where, (enum wrong_character)below(r, WRONG_CHARACTERS), piece);
            length = insert_bytes(out, length, place, (const char *)piece, count);
            break;
        }
        case 5: {
            /* A piece of the document again, at another place. */
            char piece[64];
            size_t count = below(r, sizeof piece);
            if (place + count <= length) {
                memcpy(piece, out + place, count);
                length = insert_bytes(out, length, below(r, (unsigned)length), piece, count);
            }
            break;
        }
        }
    }
    return length;
}

/* Blanks in the first tag that ends in > or />, so that the document becomes so long. */
static size_t lengthen(struct random *r, uint8_t *out, size_t length, size_t wanted)
{
    size_t place = once_in(r, 2) ? length : 2;
    if (wanted <= length)
        return length;
    memmove(out + place + (wanted - length), out + place, length - place);
    memset(out + place, ' ', wanted - length);
    return wanted;
}

size_t random_limit_document(struct random *r, uint8_t *out)
{
    static const char *const pieces[] = {"<b/>", "<b c=''/>", "<b>x</b>", "<b c='d'/>", "<b></b>", "<b>&#9;</b>", "<b c='&#10;'/>",
                                         "<b c='\t'/>", "<\xC3\xA4/>", "<b \xE3\x81\x82=''/>", "<b>\xC2\x80</b>", "<b c='\xEE\x80\x80'/>",
                                         "<b \xC3\xA4='' \xC3\xB6=''/>", "<\xC3", "<b \xCD", "\xF4\x90", "<b c='\xF0"};
    static const size_t piece_nodes[] = {1, 2, 2, 3, 1, 2, 3, 3, 1, 2, 2, 3, 3, 1, 2, 1, 3};
    static const char *const ends[] = {"</a>", "t</a>", "&#10;</a>", "\xC3\xA4</a>"};
    enum { PIECES = 13, ENDS = 4, CUT_PIECES = 4 }; /* a cut piece refuses all, unless the 1,025th node comes before */
    struct writer w = {r, out, 0, 2, 0, 0, 0, 0};
    unsigned shape = below(r, PIECES + 1);
    size_t wanted = 1020 + below(r, 8);
    put(&w, "<a>");
    if (shape == PIECES) {
        /* One inside the other. */
        for (w.nodes = 2; w.nodes < wanted; w.nodes++)
            put(&w, "<a>");
        for (size_t i = 0; i + 1 < wanted; i++)
            put(&w, "</a>");
    } else {
        for (; w.nodes + 3 < wanted; w.nodes += piece_nodes[shape])
            put(&w, pieces[shape]);
        while (w.nodes < wanted) {
            unsigned piece = once_in(r, 12) ? PIECES + below(r, CUT_PIECES) : below(r, PIECES);
            put(&w, pieces[piece]);
            w.nodes += piece_nodes[piece];
        }
        put(&w, ends[below(r, ENDS)]);
    }
    if (once_in(r, 3))
        w.length = lengthen(r, out, w.length, 65530 + below(r, 12));
    if (once_in(r, 3)) {
        /* Cut off near the end. */
        size_t cut = below(r, 12);
        w.length -= cut < w.length ? cut : 0;
    }
    if (once_in(r, 3))
        w.length = random_damage(r, out, w.length);
    return w.length;
}
