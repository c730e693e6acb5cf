/*
 * reader.c: reads XML by recursive descent, one function for each production.
 *
 * A function answers 0 if the input is refused; then cause and offset are set and nothing more is read. The place only moves
 * forward. A byte is looked at before anything is decided about it, so a refusal for 4 is at the first byte that cannot follow.
 */
#include "characters.h"
#include "xml.h"

#include <stdlib.h>
#include <string.h>

enum { NO_BYTE = -1 };

struct reader {
    const uint8_t *xml;
    size_t length;      /* of the whole input */
    size_t end;         /* bytes from here on are refused: the length, or 65,536 of a longer input */
    size_t place;
    size_t nodes;
    struct refusal refusal;
};

static int refuse(struct reader *r, int cause, size_t offset)
{
    r->refusal.cause = cause;
    r->refusal.offset = offset;
    return 0;
}

static int here(const struct reader *r)
{
    return r->place < r->end ? r->xml[r->place] : NO_BYTE;
}

/* The byte behind this one, which decides whether a node begins here; it may lie behind the end. */
static int behind(const struct reader *r)
{
    return r->place + 1 < r->length ? r->xml[r->place + 1] : NO_BYTE;
}

static int blank(int byte)
{
    return byte == 9 || byte == 10 || byte == 0x20;
}

/* Passes over blanks and answers whether there were any. */
static int blanks(struct reader *r)
{
    size_t from = r->place;
    while (blank(here(r)))
        r->place++;
    return r->place > from;
}

static int expect(struct reader *r, const char *bytes)
{
    for (; *bytes != 0; bytes++) {
        if (here(r) != *bytes)
            return refuse(r, 4, r->place);
        r->place++;
    }
    return 1;
}

/* A node begins at this place: 6 if it is the 1,025th. Nodes are numbered in document order. */
static struct node *begin_node(struct reader *r, struct node *parent, int kind)
{
    if (r->nodes == MOST_NODES) {
        refuse(r, 6, r->place);
        return NULL;
    }
    struct node *node = node_new((noodlefen_node)r->nodes, kind, NULL, 0);
    r->nodes++;
    node_attach(parent, node, NULL);
    return node;
}

/* A content byte given by the byte at this place: 5 if it is the 33rd. */
static int add_byte(struct reader *r, struct node *node, int byte)
{
    if (node->length == MOST_CONTENT)
        return refuse(r, 5, r->place);
    node->content[node->length++] = (uint8_t)byte;
    return 1;
}

/* A character of the class, byte by byte: 4 at the first byte that no such character goes on with. */
static int read_character(struct reader *r, struct node *node, enum character_class class)
{
    uint8_t bytes[4];
    size_t count = 0;
    do {
        if (here(r) == NO_BYTE)
            return refuse(r, 4, r->place);
        bytes[count++] = (uint8_t)here(r);
        if (!character_begins(class, bytes, count))
            return refuse(r, 4, r->place);
        if (!add_byte(r, node, here(r)))
            return 0;
        r->place++;
    } while (!character_whole(bytes, count));
    return 1;
}

static int read_name(struct reader *r, struct node *node)
{
    if (!read_character(r, node, NAME_START))
        return 0;
    while (first_byte(NAME, here(r)))
        if (!read_character(r, node, NAME))
            return 0;
    return 1;
}

/* One of the references; the place is at its `&`. A 33rd content byte is refused there, before the rest is read. */
static int read_reference(struct reader *r, struct node *node)
{
    static const struct { const char *bytes; int stands_for; } references[7] = {
        {"&amp;", '&'}, {"&lt;", '<'}, {"&gt;", '>'}, {"&quot;", '"'}, {"&apos;", '\''}, {"&#9;", 9}, {"&#10;", 10}};
    size_t from = r->place;
    if (node->length == MOST_CONTENT)
        return refuse(r, 5, from);
    for (;;) {
        size_t read = r->place - from;
        int next = here(r);
        int stands_for = NO_BYTE;
        for (int i = 0; i < 7; i++)
            if (strncmp(references[i].bytes, (const char *)r->xml + from, read) == 0 && references[i].bytes[read] == next)
                stands_for = references[i].stands_for;
        if (stands_for == NO_BYTE)
            return refuse(r, 4, r->place);
        r->place++;
        if (next == ';')
            return add_byte(r, node, stands_for);
    }
}

/* Whether a character of a value may begin with the byte. */
static int value_byte(int byte, int quote)
{
    return first_byte(ANY, byte) && byte != quote && byte != '<' && byte != '&';
}

static int read_value(struct reader *r, struct node *attribute)
{
    int quote = here(r);
    struct node *text = NULL;
    if (quote != '"' && quote != '\'')
        return refuse(r, 4, r->place);
    if (value_byte(behind(r), quote) || behind(r) == '&') {
        text = begin_node(r, attribute, TEXT);
        if (text == NULL)
            return 0;
    }
    r->place++;
    while (here(r) != quote) {
        /* At the end or at a byte of no value there may be no text; then neither branch below is taken. */
        if (here(r) == '&') {
            if (!read_reference(r, text))
                return 0;
        } else if (blank(here(r))) {
            /* A literal tab or line feed of a value is a space (XML 1.0, 3.3.3). */
            if (!add_byte(r, text, ' '))
                return 0;
            r->place++;
        } else if (value_byte(here(r), quote)) {
            if (!read_character(r, text, ANY))
                return 0;
        } else {
            return refuse(r, 4, r->place);
        }
    }
    r->place++;
    return 1;
}

static int repeated(const struct node *attribute)
{
    for (const struct node *other = attribute->parent->first; other != attribute; other = other->next)
        if (same_bytes(other->content, other->length, attribute->content, attribute->length))
            return 1;
    return 0;
}

static int read_attribute(struct reader *r, struct node *element)
{
    struct node *attribute = begin_node(r, element, ATTRIBUTE);
    if (attribute == NULL || !read_name(r, attribute))
        return 0;
    if (repeated(attribute))
        return refuse(r, 4, r->place);
    blanks(r);
    if (!expect(r, "="))
        return 0;
    blanks(r);
    return read_value(r, attribute);
}

static int read_text(struct reader *r, struct node *element)
{
    size_t from = r->place;
    if (!first_byte(ANY, here(r)))
        return refuse(r, 4, from);
    struct node *text = begin_node(r, element, TEXT);
    if (text == NULL)
        return 0;
    while (here(r) != '<') {
        int ends_cdata = here(r) == '>' && r->place >= from + 2 && r->xml[r->place - 1] == ']' && r->xml[r->place - 2] == ']';
        if (ends_cdata)
            return refuse(r, 4, r->place);
        if (!(here(r) == '&' ? read_reference(r, text) : read_character(r, text, ANY)))
            return 0;
    }
    return 1;
}

/* No 5 here: a name that goes on longer than the element's differs at that byte. */
static int read_end_tag(struct reader *r, const struct node *element)
{
    if (!expect(r, "</"))
        return 0;
    for (size_t i = 0; i < element->length; i++) {
        if (here(r) != element->content[i])
            return refuse(r, 4, r->place);
        r->place++;
    }
    blanks(r);
    return expect(r, ">");
}

static int read_element(struct reader *r, struct node *parent)
{
    if (here(r) != '<')
        return refuse(r, 4, r->place);
    if (!first_byte(NAME_START, behind(r)))
        return refuse(r, 4, r->place + 1);
    struct node *element = begin_node(r, parent, ELEMENT);
    if (element == NULL)
        return 0;
    r->place++;
    if (!read_name(r, element))
        return 0;
    while (blanks(r) && first_byte(NAME_START, here(r)))
        if (!read_attribute(r, element))
            return 0;
    if (here(r) == '/')
        return expect(r, "/>");
    if (!expect(r, ">"))
        return 0;
    while (here(r) != '<' || behind(r) != '/')
        if (!(here(r) == '<' ? read_element(r, element) : read_text(r, element)))
            return 0;
    return read_end_tag(r, element);
}

static int read_declaration(struct reader *r)
{
    if (here(r) != '<' || behind(r) != '?')
        return 1;
    if (!expect(r, "<?xml version=\"1.0\""))
        return 0;
    return expect(r, here(r) == ' ' ? " encoding=\"UTF-8\"?>" : "?>");
}

static int read_document(struct reader *r, struct node *document)
{
    if (!read_declaration(r))
        return 0;
    blanks(r);
    if (!read_element(r, document))
        return 0;
    blanks(r);
    return r->place == r->length ? 1 : refuse(r, 4, r->place);
}

struct node *xml_read(const uint8_t *xml, size_t length, struct refusal *refusal)
{
    struct reader r = {xml, length, length < MOST_XML ? length : MOST_XML, 0, 1, {0, 0}};
    struct node *document = node_new(0, DOCUMENT, NULL, 0);
    if (!read_document(&r, document)) {
        *refusal = r.refusal;
        node_free(document);
        return NULL;
    }
    return document;
}
