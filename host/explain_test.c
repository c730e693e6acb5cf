/*
 * explain_test.c: the words for every reason to refuse an input, at the offset that noodlefen_load gives.
 * Last line 'N passed, 0 failed'.
 */
#include <stdio.h>
#include <stdlib.h>
#include <string.h>

#include "explain.h"
#include "noodlefen.h"

static uint8_t state[NOODLEFEN_STATE_BYTES];
static unsigned long passed, failed;

/* Loads a copy of exactly this length, so that reading behind it is found, and explains the refusal; NULL if the load was granted. */
static const char *refusal_of(const char *input, size_t length, noodlefen_answer *answer)
{
    uint8_t *xml = malloc(length > 0 ? length : 1);
    const char *reason = NULL;
    if (xml == NULL)
        abort();
    memcpy(xml, input, length);
    *answer = noodlefen_load(state, sizeof state, xml, length);
    if (!noodlefen_granted(*answer))
        reason = explain_refusal(xml, length, noodlefen_cause(*answer), noodlefen_value(*answer));
    free(xml);
    return reason;
}

static void expect(const char *input, size_t length, unsigned cause, uint64_t offset, const char *reason)
{
    noodlefen_answer answer;
    const char *given = refusal_of(input, length, &answer);
    if (given != NULL && noodlefen_cause(answer) == cause && noodlefen_value(answer) == offset && strcmp(given, reason) == 0) {
        passed++;
        return;
    }
    failed++;
    printf("FAILED: %.60s: cause %u at %lu, %s; expected cause %u at %lu, %s\n", input, noodlefen_cause(answer),
           (unsigned long)noodlefen_value(answer), given != NULL ? given : "granted", cause, (unsigned long)offset, reason);
}

#define COLON "colon in a name: namespaces are not read"
#define CHARACTER "unknown character reference: only &#9; and &#10; are read"
#define ALONE "broken UTF-8: byte that begins no character"
#define CONTROL "control byte: below 0x20 only tab and line feed are read"
#define CUT "broken UTF-8: the character before this byte is cut off"
#define DECLARED "declaration that is neither <?xml version=\"1.0\"?> nor <?xml version=\"1.0\" encoding=\"UTF-8\"?>, exactly"
#define LESS "< without a name behind it: in texts and values write &lt;"
#define LONG_FORM "broken UTF-8: character in more bytes than it needs"
#define MATCH "end tag that does not match the open element"
#define NO_VALUE "attribute without a value"
#define NOT_FIRST "character that a name cannot begin with"
#define NOT_IN_NAME "character that a name cannot have"
#define RETURN "carriage return (byte 13): lines end with a line feed alone"
#define UNKNOWN "unknown entity: only &amp; &lt; &gt; &quot; &apos; are read"

/* Refused for cause 4 at the offset. */
static const struct {
    const char *input;
    uint64_t offset;
    const char *reason;
} grammar[] = {
    {"", 0, "the input is empty"},
    {" \n", 2, "the input ends too soon, before the root element"},
    {"<?xml ver", 9, "the input ends too soon, in the declaration"},
    {"<", 1, "the input ends too soon, in a tag"},
    {"<a", 2, "the input ends too soon, in a tag"},
    {"<a b=\"\" b", 9, "the input ends too soon, in a tag"},
    {"<a></", 5, "the input ends too soon, in a tag"},
    {"<a b='c", 7, "the input ends too soon, in an attribute's value"},
    {"<a>&am", 6, "the input ends too soon, in a reference"},
    {"<a>&", 4, "the input ends too soon, in a reference"},
    {"<a>&#", 5, "the input ends too soon, in a reference"},
    {"<a b='&#10", 10, "the input ends too soon, in a reference"},
    {"<a b='&#10;", 11, "the input ends too soon, in an attribute's value"},
    {"<a>", 3, "the input ends too soon: an element has no end tag"},
    {"<a><b></b>", 10, "the input ends too soon: an element has no end tag"},

    {"\xEF\xBB\xBF<a/>", 0, "byte order mark"},
    {"\xFF\xFE<a/>", 0, "byte order mark"},
    {"\xFE\xFF<a/>", 0, "byte order mark"},
    {"<a>\r\n</a>", 3, RETURN},
    {"<a\r\n/>", 2, RETURN},
    {"<a/>\r\n", 4, RETURN},
    {"<?xml version=\"1.0\"?>\r\n<a/>", 21, RETURN},
    {"<a>\x01</a>", 3, CONTROL},
    {"<a b='\x1F'/>", 6, CONTROL},

    {"<a>T\xFCr</a>", 4, ALONE},
    {"<a>\xE4\x80\x80\x80</a>", 6, ALONE},
    {"<T\xFCr/>", 2, ALONE},
    {"<\x80/>", 1, ALONE},
    {"<a></a\x80>", 6, ALONE},
    {"<a>l\xE4ngs</a>", 5, CUT},
    {"<a b='\xC3'/>", 7, CUT},
    {"<l\xE4ngs/>", 3, CUT},
    {"<a \xE3\x81='b'/>", 5, CUT},
    {"<a>\xF0\x90\x8C<b/></a>", 6, CUT},
    {"<a>\xC3&amp;</a>", 4, CUT},
    {"<a>\xC3", 4, "the input ends too soon, in a character"},
    {"<a b='\xE3\x81", 8, "the input ends too soon, in a character"},
    {"<\xC3", 2, "the input ends too soon, in a character"},
    {"<a>\xC0\xAF</a>", 3, LONG_FORM},
    {"<a>\xE0\x80\xAF</a>", 4, LONG_FORM},
    {"<\xF0\x8F\xBF\xBF/>", 2, LONG_FORM},
    {"<a>\xED\xA0\x80</a>", 4, "broken UTF-8: surrogate"},
    {"<a>\xF4\x90\x80\x80</a>", 4, "broken UTF-8: above U+10FFFF"},
    {"<a>\xEF\xBF\xBE</a>", 5, "U+FFFE or U+FFFF, which are no characters of XML"},
    {"<\xC2\xB7/>", 1, NOT_FIRST},
    {"<\xCD\x80/>", 2, NOT_FIRST},
    {"<\xE2\x80\xBF/>", 3, NOT_FIRST},
    {"<a \xC3\x97='b'/>", 4, NOT_FIRST},
    {"<a \xCC\x88='b'/>", 3, "character that cannot begin an attribute's name"},
    {"<a\xC3\x97/>", 3, NOT_IN_NAME},
    {"<a\xEE\x80\x80/>", 2, NOT_IN_NAME},
    {"<a b\xC2\xA0='c'/>", 5, NOT_IN_NAME},
    {"<a b\xF4\x80\x80\x80='c'/>", 4, NOT_IN_NAME},
    {"<a \xC3\xA4='' \xC3\xA4=''/>", 11, "repeated attribute"},
    {"<a \xC3\xA4=''\xC3\xA4=''/>", 8, "blank missing before an attribute"},
    {"<\xC3\xA4></\xC3\xB6>", 7, MATCH},
    {"<\xC3\xA4></\xC3>", 7, MATCH},
    {"<a></a\xC3\xA4>", 6, MATCH},
    {"\xC3\xA4<a/>", 0, "text before the root element"},
    {"<a/>\xC3\xA4", 4, "text behind the root element"},
    {"<a\x7F/>", 2, "character that cannot follow an element's name"},

    {"<!-- c --><a/>", 1, "comment"},
    {"<a><!-- c --></a>", 4, "comment"},
    {"<a/><!-- c -->", 4, "comment"},
    {"<!DOCTYPE a><a/>", 1, "DOCTYPE"},
    {"<a><![CDATA[x]]></a>", 4, "CDATA section"},
    {"<!ENTITY a><a/>", 1, "<! that begins nothing known"},
    {"<?xml-stylesheet href=\"a\"?><a/>", 5, "processing instruction"},
    {"<?pi?><a/>", 2, "processing instruction"},
    {"<a><?pi?></a>", 4, "processing instruction"},
    {"<a/><?pi?>", 4, "processing instruction"},
    {"<?xml version='1.0'?><a/>", 14, DECLARED},
    {"<?xml version=\"1.1\"?><a/>", 17, DECLARED},
    {"<?xml version=\"1.0\" encoding=\"utf-8\"?><a/>", 30, DECLARED},
    {"<?xml version=\"1.0\" standalone=\"yes\"?><a/>", 20, DECLARED},
    {"<?xml?><a/>", 5, DECLARED},
    {"<?XML version=\"1.0\"?><a/>", 2, DECLARED},
    {"\n<?xml version=\"1.0\"?><a/>", 2, "declaration that does not stand at the very start"},
    {"<a/><?xml version=\"1.0\"?>", 4, "declaration that does not stand at the very start"},

    {"x<a/>", 0, "text before the root element"},
    {"<a/>x", 4, "text behind the root element"},
    {"<a/><b/>", 4, "second root element"},
    {"</a>", 1, "end tag of no open element"},
    {"<a></a></a>", 7, "end tag of no open element"},
    {"<a></b>", 5, MATCH},
    {"<a></ a>", 5, MATCH},
    {"<ab></a>", 7, MATCH},
    {"<a></ab>", 6, MATCH},
    {"<a><b></a></b>", 8, MATCH},
    {"<a></a b='c'>", 7, "end tag with more than a name"},

    {"< a/>", 1, LESS},
    {"<a>1 < 2</a>", 6, LESS},
    {"<a:b/>", 2, COLON},
    {"<a b:c='d'/>", 4, COLON},
    {"<a!/>", 2, "character that cannot follow an element's name"},
    {"<a 9='b'/>", 3, "character that cannot begin an attribute's name"},
    {"<a b!='c'/>", 4, "character that cannot follow an attribute's name"},
    {"<a b/>", 4, NO_VALUE},
    {"<a b>", 4, NO_VALUE},
    {"<a b c='d'/>", 5, NO_VALUE},
    {"<a b=c/>", 5, "attribute's value without quotes"},
    {"<a b='c'd='e'/>", 8, "blank missing before an attribute"},
    {"<a b='c'='d'/>", 8, "character that cannot follow an attribute's value"},
    {"<a/ >", 3, "/ without > behind it"},
    {"<a b='' b=''/>", 9, "repeated attribute"},
    {"<a b = '' c='b' b =''/>", 17, "repeated attribute"},
    {"<a b=\"<\"/>", 6, "< in an attribute's value: write &lt;"},

    {"<a>&#13;</a>", 6, CHARACTER},
    {"<a>&#1;</a>", 6, CHARACTER},
    {"<a>&#100;</a>", 7, CHARACTER},
    {"<a b='&#x41;'/>", 8, CHARACTER},
    {"<a b='&#9;&#09;'/>", 12, CHARACTER},
    {"<a>&#9</a>", 6, "character reference without ; behind its number"},
    {"<a b='&#10'/>", 10, "character reference without ; behind its number"},
    {"<a>&nbsp;</a>", 4, UNKNOWN},
    {"<a>&amq;</a>", 6, UNKNOWN},
    {"<a>&am;</a>", 6, UNKNOWN},
    {"<a>&ampere;</a>", 7, UNKNOWN},
    {"<a>Hall &amp Son</a>", 12, "entity without ; behind its name"},
    {"<a>Hall & Son</a>", 9, "& that begins no entity: write &amp;"},
    {"<a b='&'/>", 7, "& that begins no entity: write &amp;"},
    {"<a>&amp; ]]></a>", 11, "]]> in text: write ]]&gt;"},
};

static void test_grammar(void)
{
    for (size_t i = 0; i < sizeof grammar / sizeof *grammar; i++)
        expect(grammar[i].input, strlen(grammar[i].input), 4, grammar[i].offset, grammar[i].reason);
    expect("<a>\0</a>", 8, 4, 3, CONTROL);
}

/* 33 bytes of a content. */
static void test_lengths(void)
{
#define BYTES30 "abcdefghijklmnopqrstuvwxyz0123"
#define BYTES32 BYTES30 "45"
    static const char element[] = "<" BYTES32 "6/>", attribute[] = "<a " BYTES32 "6=''/>", value[] = "<a b='" BYTES32 "6'/>",
                      text[] = "<a>" BYTES32 "6</a>", indented[] = "<a>\n                                <b/></a>",
                      entity[] = "<a>" BYTES32 "&amp;</a>", longer[] = "<a" BYTES30 "\xC3\xA4/>";
    expect(element, sizeof element - 1, 5, 33, "33rd byte of an element's name: at most 32 are held");
    expect(longer, sizeof longer - 1, 5, 33, "33rd byte of an element's name: at most 32 are held");
    expect(attribute, sizeof attribute - 1, 5, 35, "33rd byte of an attribute's name: at most 32 are held");
    expect(value, sizeof value - 1, 5, 38, "33rd byte of an attribute's value: at most 32 are held");
#define TEXT_LENGTH "33rd byte of a text: at most 32 are held, and blanks between tags are text"
    expect(text, sizeof text - 1, 5, 35, TEXT_LENGTH);
    expect(indented, sizeof indented - 1, 5, 35, TEXT_LENGTH);
    expect(entity, sizeof entity - 1, 5, 35, TEXT_LENGTH);
}

/* The 1,025th node, and byte 65,536. */
static void test_limits(void)
{
    static char input[NOODLEFEN_XML_BYTES + 2];
    size_t length = 0;
    for (int i = 0; i < NOODLEFEN_NODES; i++, length += 3)
        memcpy(input + length, "<a>", 3);
    expect(input, length, 6, length - 3, "1,025th node: at most 1,024 are held, the document itself included");
    memset(input, ' ', sizeof input);
    memcpy(input, "<a/>", 4);
    expect(input, sizeof input, 4, NOODLEFEN_XML_BYTES, "too long: at most 65,536 bytes are read");
    expect(input, sizeof input - 1, 4, NOODLEFEN_XML_BYTES, "too long: at most 65,536 bytes are read");
    memset(input, ' ', 4);
    expect(input, sizeof input - 2, 4, NOODLEFEN_XML_BYTES, "the input ends too soon, before the root element");
}

/* Causes that are not about the input. */
static void test_other_causes(void)
{
    noodlefen_begin(state, sizeof state, 1);
    expect("<a/>", 4, 15, 0, noodlefen_cause_text(15));
    noodlefen_abort(state, sizeof state, 1);
}

/* Whether the refusal at the offset is one of UTF-8: the byte put in at the place begins no character, or one that does not go on. */
static int broken_utf8(int byte, size_t place, size_t offset)
{
    int begins = byte >= 0xC2 && byte <= 0xF4;
    return byte >= 0x80 && offset == place + (begins ? 1 : 0);
}

/* Every byte at every place of a document: a reason that speaks of a byte, of UTF-8 or of the end is given exactly there. */
static void test_every_byte(void)
{
    static const char document[] = "<?xml version=\"1.0\"?>\n<a b='c&lt;&#10;' d = \"e\"><f /><g>h]]&#9;&amp;</g ></a>\n";
    for (size_t place = 0; place < sizeof document; place++) {
        for (int byte = 0; byte < 256; byte++) {
            char input[sizeof document + 1];
            noodlefen_answer answer;
            memcpy(input, document, place);
            input[place] = (char)byte;
            memcpy(input + place + 1, document + place, sizeof document - 1 - place);
            const char *reason = refusal_of(input, sizeof document, &answer);
            size_t offset = (size_t)noodlefen_value(answer);
            int at = reason != NULL && offset < sizeof document ? (uint8_t)input[offset] : -1;
            int right = reason == NULL
                || (strlen(reason) > 0 && (strcmp(reason, RETURN) == 0) == (at == 13)
                    && (strstr(reason, "ends too soon") != NULL) == (at == -1)
                    && (strstr(reason, "broken UTF-8") != NULL) == (at != -1 && broken_utf8(byte, place, offset)));
            passed += right ? 1u : 0u;
            failed += right ? 0u : 1u;
            if (!right)
                printf("FAILED: byte %d at %lu: %s\n", byte, (unsigned long)place, reason);
        }
    }
}

int main(void)
{
    noodlefen_start(state, sizeof state);
    test_grammar();
    test_lengths();
    test_limits();
    test_other_causes();
    test_every_byte();
    printf("%lu passed, %lu failed\n", passed, failed);
    return failed != 0;
}
