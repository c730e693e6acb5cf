/*
 * explain.c: why noodlefen_load refused an input, in words.
 *
 * The bytes before the offset of a refusal can begin a document, so one pass over them, which checks nothing, tells where in the
 * document the offset stands; the byte there and a few behind it tell what was meant.
 */
#include "explain.h"

#include <string.h>

#include "noodlefen.h"

enum place {
    BEFORE_ROOT,
    DECLARATION,
    BEHIND_LESS,          /* right behind a < */
    ELEMENT_NAME,
    IN_TAG,               /* behind a blank: an attribute, / or > */
    ATTRIBUTE_NAME,
    BEHIND_ATTRIBUTE_NAME,
    BEFORE_VALUE,
    VALUE,
    BEHIND_VALUE,
    BEHIND_SLASH,         /* of an empty-element tag */
    END_TAG,
    CONTENT,              /* between tags */
    BEHIND_ROOT
};

/* The input, the place before its byte at the offset, and what was seen on the way. */
struct scan {
    const uint8_t *xml;
    size_t len, offset;
    enum place place;
    int quote;            /* of the value */
    size_t depth;         /* elements that are open */
    size_t tag;           /* where the name of the last tag begins */
    size_t name;          /* where the last attribute's name begins */
    size_t reference;     /* where an entity's name or the # begins, 0 outside of a reference */
};

static int blank(int byte)
{
    return byte == 9 || byte == 10 || byte == 0x20;
}

static int letter(int byte)
{
    return (byte >= 'A' && byte <= 'Z') || (byte >= 'a' && byte <= 'z') || byte == '_';
}

static int name_byte(int byte)
{
    return letter(byte) || (byte >= '0' && byte <= '9') || byte == '-' || byte == '.';
}

/* The place behind a byte in a start tag, outside of values. */
static enum place next_in_tag(enum place place, int byte)
{
    int before_value = place == ATTRIBUTE_NAME || place == BEHIND_ATTRIBUTE_NAME || place == BEFORE_VALUE;
    if (byte == '=')
        return BEFORE_VALUE;
    if (blank(byte))
        return !before_value ? IN_TAG : place == ATTRIBUTE_NAME ? BEHIND_ATTRIBUTE_NAME : place;
    if (byte == '/')
        return BEHIND_SLASH;
    if (byte == '>')
        return CONTENT;
    if (byte == '"' || byte == '\'')
        return VALUE;
    return place == IN_TAG ? ATTRIBUTE_NAME : place;
}

/* The place behind a byte that the grammar allows here. */
static enum place next(const struct scan *scan, int byte)
{
    switch (scan->place) {
    case BEFORE_ROOT:
    case CONTENT:
        return byte == '<' ? BEHIND_LESS : scan->place;
    case DECLARATION:
        return byte == '>' ? BEFORE_ROOT : DECLARATION;
    case BEHIND_LESS:
        return byte == '?' ? DECLARATION : byte == '/' ? END_TAG : ELEMENT_NAME;
    case VALUE:
        return byte == scan->quote ? BEHIND_VALUE : VALUE;
    case BEHIND_SLASH:
    case END_TAG:
        return byte != '>' ? scan->place : scan->depth == 1 ? BEHIND_ROOT : CONTENT;
    case BEHIND_ROOT:
        return BEHIND_ROOT;
    default:
        return next_in_tag(scan->place, byte);
    }
}

/* Passes over the byte at i. */
static void advance(struct scan *scan, size_t i)
{
    int byte = scan->xml[i];
    enum place from = scan->place, to = next(scan, byte);
    if (to == BEHIND_LESS)
        scan->tag = i + 1;
    if (to == ELEMENT_NAME && from == BEHIND_LESS)
        scan->depth++;
    if ((from == BEHIND_SLASH || from == END_TAG) && to != from)
        scan->depth--;
    if (to == ATTRIBUTE_NAME && from == IN_TAG)
        scan->name = i;
    if (to == VALUE && from != VALUE)
        scan->quote = byte;
    if (byte == '&')
        scan->reference = i + 1;
    else if (byte == ';')
        scan->reference = 0;
    scan->place = to;
}

static struct scan scan_to(const uint8_t *xml, size_t len, size_t offset)
{
    struct scan scan = {xml, len, offset, BEFORE_ROOT, 0, 0, 0, 0, 0};
    for (size_t i = 0; i < offset; i++)
        advance(&scan, i);
    return scan;
}

/* Whether these bytes stand at the place. */
static int stands(const struct scan *scan, size_t at, const char *bytes)
{
    size_t length = strlen(bytes);
    return at <= scan->len && scan->len - at >= length && memcmp(scan->xml + at, bytes, length) == 0;
}

/* How many bytes right before the offset begin a character that is not whole there. */
static size_t begun_character(const struct scan *scan)
{
    for (size_t back = 1; back <= 3 && back <= scan->offset; back++) {
        int byte = scan->xml[scan->offset - back];
        if ((byte & 0xC0) != 0x80)
            return back < (byte < 0xC0 ? 1u : byte < 0xE0 ? 2u : byte < 0xF0 ? 3u : 4u) ? back : 0;
    }
    return 0;
}

static const char *explain_end(const struct scan *scan)
{
    if (scan->len == 0)
        return "the input is empty";
    if (begun_character(scan) > 0)
        return "the input ends too soon, in a character";
    if (scan->reference != 0)
        return "the input ends too soon, in a reference";
    switch (scan->place) {
    case BEFORE_ROOT:
        return "the input ends too soon, before the root element";
    case DECLARATION:
        return "the input ends too soon, in the declaration";
    case VALUE:
        return "the input ends too soon, in an attribute's value";
    case CONTENT:
        return "the input ends too soon: an element has no end tag";
    default:
        return "the input ends too soon, in a tag";
    }
}

/* Bytes that stand nowhere, or NULL. */
static const char *explain_byte(const struct scan *scan, int byte)
{
    if (scan->offset == 0 && (stands(scan, 0, "\xEF\xBB\xBF") || stands(scan, 0, "\xFE\xFF") || stands(scan, 0, "\xFF\xFE")))
        return "byte order mark";
    if (byte == 13)
        return "carriage return (byte 13): lines end with a line feed alone";
    if (byte < 0x20 && !blank(byte))
        return "control byte: below 0x20 only tab and line feed are read";
    return NULL;
}

/* Bytes that are no character of XML in UTF-8, or NULL. So many bytes before this one begin a character. */
static const char *explain_utf8(const struct scan *scan, size_t begun, int byte)
{
    int first = scan->xml[scan->offset - begun];
    if (begun > 0 && (byte & 0xC0) != 0x80)
        return "broken UTF-8: the character before this byte is cut off";
    if (begun == 0 && ((byte >= 0x80 && byte < 0xC0) || byte > 0xF4))
        return "broken UTF-8: byte that begins no character";
    if ((begun == 0 && (byte & 0xFE) == 0xC0) || (begun == 1 && ((first == 0xE0 && byte < 0xA0) || (first == 0xF0 && byte < 0x90))))
        return "broken UTF-8: character in more bytes than it needs";
    if (begun == 1 && first == 0xED && byte >= 0xA0)
        return "broken UTF-8: surrogate";
    if (begun == 1 && first == 0xF4 && byte >= 0x90)
        return "broken UTF-8: above U+10FFFF";
    if (begun == 2 && first == 0xEF && scan->xml[scan->offset - 1] == 0xBF && byte >= 0xBE)
        return "U+FFFE or U+FFFF, which are no characters of XML";
    return NULL;
}

static const char *explain_character(const struct scan *scan, size_t begun)
{
    size_t name = scan->place == ELEMENT_NAME ? scan->tag : scan->name;
    return scan->offset - begun == name ? "character that a name cannot begin with" : "character that a name cannot have";
}

static const char *explain_character_reference(const struct scan *scan, int byte)
{
    size_t length = scan->offset - scan->reference;
    int ends = (length == 2 && stands(scan, scan->reference, "#9")) || (length == 3 && stands(scan, scan->reference, "#10"));
    if (ends && !name_byte(byte))
        return "character reference without ; behind its number";
    return "unknown character reference: only &#9; and &#10; are read";
}

static const char *explain_reference(const struct scan *scan, int byte)
{
    static const char *const names[] = {"amp", "lt", "gt", "quot", "apos"};
    size_t length = scan->offset - scan->reference;
    if (length > 0 && stands(scan, scan->reference, "#"))
        return explain_character_reference(scan, byte);
    if (length == 0 && !name_byte(byte))
        return "& that begins no entity: write &amp;";
    for (size_t i = 0; i < sizeof names / sizeof *names; i++)
        if (!name_byte(byte) && length == strlen(names[i]) && stands(scan, scan->reference, names[i]))
            return "entity without ; behind its name";
    return "unknown entity: only &amp; &lt; &gt; &quot; &apos; are read";
}

/* Behind `<?` at the start. */
static const char *explain_declaration(const struct scan *scan)
{
    int named_xml = scan->len >= 5;
    for (size_t i = 2; named_xml && i < 5; i++)
        named_xml = (scan->xml[i] | 0x20) == "<?xml"[i];
    if (!named_xml || (scan->len > 5 && name_byte(scan->xml[5])))
        return "processing instruction";
    return "declaration that is neither <?xml version=\"1.0\"?> nor <?xml version=\"1.0\" encoding=\"UTF-8\"?>, exactly";
}

/* Markup that is not read; `at` is the place behind its <. NULL if it is none of these. */
static const char *explain_markup(const struct scan *scan, size_t at)
{
    if (stands(scan, at, "!--"))
        return "comment";
    if (stands(scan, at, "!DOCTYPE"))
        return "DOCTYPE";
    if (stands(scan, at, "![CDATA["))
        return "CDATA section";
    if (stands(scan, at, "!"))
        return "<! that begins nothing known";
    if (stands(scan, at, "?xml") && at + 4 < scan->len && !name_byte(scan->xml[at + 4]))
        return "declaration that does not stand at the very start";
    if (stands(scan, at, "?"))
        return "processing instruction";
    if (stands(scan, at, "/"))
        return "end tag of no open element";
    return NULL;
}

static const char *explain_less(const struct scan *scan)
{
    const char *markup = explain_markup(scan, scan->offset);
    return markup != NULL ? markup : "< without a name behind it: in texts and values write &lt;";
}

static const char *explain_behind_root(const struct scan *scan, int byte)
{
    const char *markup = explain_markup(scan, scan->offset + 1);
    if (byte != '<')
        return "text behind the root element";
    return markup != NULL ? markup : "second root element";
}

/* Whether an attribute before it in the tag has the name that ends at the offset. */
static int repeated(const struct scan *scan)
{
    size_t length = scan->offset - scan->name;
    struct scan earlier = {scan->xml, scan->len, scan->name, ELEMENT_NAME, 0, 1, 0, 0, 0};
    for (size_t i = scan->tag; i < scan->name; i++) {
        enum place from = earlier.place;
        advance(&earlier, i);
        if (from == ATTRIBUTE_NAME && earlier.place != ATTRIBUTE_NAME && i - earlier.name == length
            && memcmp(scan->xml + earlier.name, scan->xml + scan->name, length) == 0)
            return 1;
    }
    return 0;
}

static const char *explain_attribute_name(const struct scan *scan, int byte)
{
    if (repeated(scan))
        return "repeated attribute";
    if (byte == ':')
        return "colon in a name: namespaces are not read";
    if (byte == '>' || byte == '/')
        return "attribute without a value";
    if (byte > 0x7F)
        return explain_character(scan, 0);
    return "character that cannot follow an attribute's name";
}

static const char *explain_element_name(const struct scan *scan, int byte)
{
    if (byte == ':')
        return "colon in a name: namespaces are not read";
    if (byte > 0x7F)
        return explain_character(scan, 0);
    return "character that cannot follow an element's name";
}

static const char *explain_end_tag(const struct scan *scan)
{
    int named = scan->offset > 0 && blank(scan->xml[scan->offset - 1]);
    return named ? "end tag with more than a name" : "end tag that does not match the open element";
}

static const char *explain_grammar(const struct scan *scan)
{
    if (scan->offset == scan->len)
        return explain_end(scan);
    if (scan->offset >= NOODLEFEN_XML_BYTES)
        return "too long: at most 65,536 bytes are read";
    int byte = scan->xml[scan->offset];
    size_t begun = begun_character(scan);
    const char *nowhere = explain_byte(scan, byte);
    if (nowhere == NULL && begun > 0 && scan->place == END_TAG)
        return explain_end_tag(scan); /* it has to have the bytes of its start tag */
    if (nowhere == NULL)
        nowhere = explain_utf8(scan, begun, byte);
    if (nowhere != NULL)
        return nowhere;
    if (begun > 0)
        return explain_character(scan, begun);
    if (scan->reference != 0)
        return explain_reference(scan, byte);
    switch (scan->place) {
    case BEFORE_ROOT: return "text before the root element";
    case DECLARATION: return explain_declaration(scan);
    case BEHIND_LESS: return byte > 0x7F ? "character that a name cannot begin with" : explain_less(scan);
    case ELEMENT_NAME: return explain_element_name(scan, byte);
    case IN_TAG: return "character that cannot begin an attribute's name";
    case ATTRIBUTE_NAME: return explain_attribute_name(scan, byte);
    case BEHIND_ATTRIBUTE_NAME: return "attribute without a value";
    case BEFORE_VALUE: return "attribute's value without quotes";
    case VALUE: return "< in an attribute's value: write &lt;";
    case BEHIND_VALUE:
        return letter(byte) || byte > 0x7F ? "blank missing before an attribute" : "character that cannot follow an attribute's value";
    case BEHIND_SLASH: return "/ without > behind it";
    case END_TAG: return explain_end_tag(scan);
    case CONTENT: return "]]> in text: write ]]&gt;";
    default: return explain_behind_root(scan, byte);
    }
}

static const char *explain_length(const struct scan *scan)
{
    switch (scan->place) {
    case ELEMENT_NAME: return "33rd byte of an element's name: at most 32 are held";
    case ATTRIBUTE_NAME: return "33rd byte of an attribute's name: at most 32 are held";
    case VALUE: return "33rd byte of an attribute's value: at most 32 are held";
    default: return "33rd byte of a text: at most 32 are held, and blanks between tags are text";
    }
}

const char *explain_refusal(const uint8_t *xml, size_t len, unsigned cause, uint64_t offset)
{
    if (cause < NOODLEFEN_GRAMMAR || cause > NOODLEFEN_LOADED_NODES || offset > len)
        return noodlefen_cause_text(cause);
    if (cause == NOODLEFEN_LOADED_NODES)
        return "1,025th node: at most 1,024 are held, the document itself included";
    struct scan scan = scan_to(xml, len, (size_t)offset);
    return cause == NOODLEFEN_LOADED_CONTENT ? explain_length(&scan) : explain_grammar(&scan);
}
