/* parsers.c: the two parsers. */
#include <stdio.h>
#include <stdlib.h>
#include <string.h>

#include <expat.h>
#include <libxml/parser.h>
#include <libxml/tree.h>

#include "flat.h"

struct expat_reader {
    struct flat *flat; /* NULL: only the constructs are of interest */
    unsigned depth;
    char *text;        /* the text being read, which comes in pieces */
    size_t text_length;
    int beyond;        /* something that the subset has not */
};

static void end_text(struct expat_reader *r)
{
    if (r->text_length > 0 && r->flat != NULL)
        flat_add(r->flat, 't', r->depth + 1, r->text, r->text_length);
    r->text_length = 0;
}

static void on_start(void *data, const XML_Char *name, const XML_Char **attributes)
{
    struct expat_reader *r = data;
    end_text(r);
    r->depth++;
    r->beyond |= strchr(name, ':') != NULL;
    if (r->flat != NULL)
        flat_add(r->flat, 'e', r->depth, name, strlen(name));
    for (; attributes[0] != NULL; attributes += 2) {
        r->beyond |= strchr(attributes[0], ':') != NULL;
        if (r->flat != NULL) {
            flat_add(r->flat, 'a', r->depth + 1, attributes[0], strlen(attributes[0]));
            flat_add_value(r->flat, r->depth + 2, attributes[1], strlen(attributes[1]));
        }
    }
}

static void on_end(void *data, const XML_Char *name)
{
    struct expat_reader *r = data;
    (void)name;
    end_text(r);
    r->depth--;
}

static void on_text(void *data, const XML_Char *text, int length)
{
    struct expat_reader *r = data;
    r->text = realloc(r->text, r->text_length + (size_t)length);
    if (r->text == NULL)
        abort();
    memcpy(r->text + r->text_length, text, (size_t)length);
    r->text_length += (size_t)length;
}

static void on_comment(void *data, const XML_Char *text)
{
    (void)text;
    ((struct expat_reader *)data)->beyond = 1;
}

static void on_instruction(void *data, const XML_Char *target, const XML_Char *text)
{
    (void)target;
    (void)text;
    ((struct expat_reader *)data)->beyond = 1;
}

static void on_cdata(void *data)
{
    ((struct expat_reader *)data)->beyond = 1;
}

static void on_doctype(void *data, const XML_Char *name, const XML_Char *system, const XML_Char *public, int internal)
{
    (void)name;
    (void)system;
    (void)public;
    (void)internal;
    ((struct expat_reader *)data)->beyond = 1;
}

static int by_expat(struct expat_reader *r, const char *xml, size_t length)
{
    XML_Parser parser = XML_ParserCreate(NULL);
    XML_SetUserData(parser, r);
    XML_SetElementHandler(parser, on_start, on_end);
    XML_SetCharacterDataHandler(parser, on_text);
    XML_SetCommentHandler(parser, on_comment);
    XML_SetProcessingInstructionHandler(parser, on_instruction);
    XML_SetStartCdataSectionHandler(parser, on_cdata);
    XML_SetStartDoctypeDeclHandler(parser, on_doctype);
    int read = XML_Parse(parser, xml, (int)length, 1) == XML_STATUS_OK;
    XML_ParserFree(parser);
    free(r->text);
    return read;
}

int flat_by_expat(struct flat *flat, const char *xml, size_t length)
{
    struct expat_reader r = {flat, 0, NULL, 0, 0};
    return by_expat(&r, xml, length);
}

int reads_by_expat(const char *xml, size_t length)
{
    XML_Parser parser = XML_ParserCreate(NULL);
    int read = XML_Parse(parser, xml, (int)length, 1) == XML_STATUS_OK;
    XML_ParserFree(parser);
    return read;
}

/* Adds the nodes; answers whether there are some that the subset has not. */
static int walk(struct flat *flat, xmlNodePtr node, unsigned depth)
{
    int beyond = 0;
    for (; node != NULL; node = node->next) {
        const char *content = (const char *)node->content, *name = (const char *)node->name;
        if (node->type == XML_TEXT_NODE) {
            flat_add(flat, 't', depth, content, strlen(content));
        } else if (node->type == XML_ELEMENT_NODE) {
            flat_add(flat, 'e', depth, name, strlen(name));
            beyond |= node->ns != NULL || node->nsDef != NULL || strchr(name, ':') != NULL;
            for (xmlAttrPtr attribute = node->properties; attribute != NULL; attribute = attribute->next) {
                xmlChar *value = xmlNodeListGetString(node->doc, attribute->children, 1);
                name = (const char *)attribute->name;
                flat_add(flat, 'a', depth + 1, name, strlen(name));
                beyond |= attribute->ns != NULL || strchr(name, ':') != NULL;
                if (value != NULL)
                    flat_add_value(flat, depth + 2, (const char *)value, strlen((const char *)value));
                xmlFree(value);
            }
            beyond |= walk(flat, node->children, depth + 1);
        } else {
            flat_add(flat, '?', depth, "", 0);
            beyond = 1;
        }
    }
    return beyond;
}

static int by_libxml2(struct flat *flat, const char *xml, size_t length, int options, int *beyond)
{
    /* HUGE lifts the limit of 256 on the depth, for elements one inside the other. */
    xmlDocPtr document = xmlReadMemory(xml, (int)length, NULL, NULL,
                                       options | XML_PARSE_NONET | XML_PARSE_NOERROR | XML_PARSE_NOWARNING | XML_PARSE_HUGE);
    if (document == NULL)
        return 0;
    *beyond = walk(flat, document->children, 1);
    xmlFreeDoc(document);
    return 1;
}

int flat_by_libxml2(struct flat *flat, const char *xml, size_t length)
{
    int beyond;
    return by_libxml2(flat, xml, length, 0, &beyond);
}

/* libxml2 has the names of both editions: those of the Fifth, and with OLD10 those of the editions before. */
int of_fourth_edition(const char *xml, size_t length)
{
    struct flat flat = {NULL, 0, 0};
    int beyond, read = by_libxml2(&flat, xml, length, XML_PARSE_OLD10, &beyond);
    flat_free(&flat);
    return read;
}

static int begins_with(const char *xml, size_t length, const char *bytes)
{
    return length >= strlen(bytes) && memcmp(xml, bytes, strlen(bytes)) == 0;
}

/* Whether a character reference begins here that the subset has not. */
static int other_reference(const char *xml, size_t length)
{
    return begins_with(xml, length, "&#") && !begins_with(xml, length, "&#9;") && !begins_with(xml, length, "&#10;");
}

int beyond_subset(const char *xml, size_t length)
{
    struct expat_reader r = {NULL, 0, NULL, 0, 0};
    struct flat flat = {NULL, 0, 0};
    int constructs = 0;
    int beyond = length > NOODLEFEN_XML_BYTES || begins_with(xml, length, "\xEF\xBB\xBF");
    for (size_t i = 0; i < length; i++)
        beyond |= xml[i] == 13 || other_reference(xml + i, length - i);
    beyond |= begins_with(xml, length, "<?xml") && !begins_with(xml, length, "<?xml version=\"1.0\"?>")
        && !begins_with(xml, length, "<?xml version=\"1.0\" encoding=\"UTF-8\"?>");
    by_expat(&r, xml, length);
    by_libxml2(&flat, xml, length, 0, &constructs);
    flat_free(&flat);
    return beyond || r.beyond || constructs;
}
