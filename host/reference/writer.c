/* writer.c: writes a document as XML. */
#include "xml.h"

#include <string.h>

struct writer {
    uint8_t *out;
    size_t length;
    int expressible;
};

static void put(struct writer *w, const char *bytes)
{
    size_t length = strlen(bytes);
    memcpy(w->out + w->length, bytes, length);
    w->length += length;
}

static void put_name(struct writer *w, const struct node *node)
{
    memcpy(w->out + w->length, node->content, node->length);
    w->length += node->length;
}

/* In a value a tab or line feed is a reference, for a literal one would be read as a space. */
static void put_text(struct writer *w, const struct node *text)
{
    int value = text->parent->kind == ATTRIBUTE;
    for (size_t i = 0; i < text->length; i++)
        switch (text->content[i]) {
        case '&': put(w, "&amp;"); break;
        case '<': put(w, "&lt;"); break;
        case '>': put(w, "&gt;"); break;
        case '"': put(w, "&quot;"); break;
        case 9: put(w, value ? "&#9;" : "\t"); break;
        case 10: put(w, value ? "&#10;" : "\n"); break;
        default: w->out[w->length++] = text->content[i];
        }
}

static void put_attribute(struct writer *w, const struct node *attribute)
{
    for (const struct node *other = attribute->next; other != NULL; other = other->next)
        if (other->kind == ATTRIBUTE && same_bytes(attribute->content, attribute->length, other->content, other->length))
            w->expressible = 0;
    put(w, " ");
    put_name(w, attribute);
    put(w, "=\"");
    if (attribute->first != NULL)
        put_text(w, attribute->first);
    put(w, "\"");
}

static void put_element(struct writer *w, const struct node *element)
{
    const struct node *child = element->first;
    put(w, "<");
    put_name(w, element);
    for (; child != NULL && child->kind == ATTRIBUTE; child = child->next)
        put_attribute(w, child);
    if (child == NULL) {
        put(w, "/>");
        return;
    }
    put(w, ">");
    for (; child != NULL; child = child->next) {
        if (child->kind == ELEMENT)
            put_element(w, child);
        else
            put_text(w, child);
        if (child->kind == TEXT && child->next != NULL && child->next->kind == TEXT)
            w->expressible = 0;
    }
    put(w, "</");
    put_name(w, element);
    put(w, ">");
}

size_t xml_write(const struct node *document, uint8_t *out)
{
    struct writer w = {out, 0, 1};
    if (document->first == NULL)
        return 0;
    put(&w, "<?xml version=\"1.0\" encoding=\"UTF-8\"?>\n");
    put_element(&w, document->first);
    return w.expressible && w.length <= MOST_XML ? w.length : 0;
}
