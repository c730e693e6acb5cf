#include "tree.h"

#include "characters.h"

#include <stdlib.h>
#include <string.h>

struct node *node_new(noodlefen_node number, int kind, const uint8_t *content, size_t length)
{
    struct node *node = calloc(1, sizeof *node);
    if (node == NULL)
        abort();
    node->number = number;
    node->kind = kind;
    node_set_content(node, content, length);
    return node;
}

void node_set_content(struct node *node, const uint8_t *content, size_t length)
{
    node->length = length;
    if (length > 0)
        memcpy(node->content, content, length);
}

void node_attach(struct node *parent, struct node *node, struct node *before)
{
    struct node **link = &parent->first;
    while (*link != before)
        link = &(*link)->next;
    node->parent = parent;
    node->next = before;
    *link = node;
}

void node_detach(struct node *node)
{
    struct node **link = &node->parent->first;
    while (*link != node)
        link = &(*link)->next;
    *link = node->next;
    node->parent = NULL;
    node->next = NULL;
}

void node_free(struct node *node)
{
    if (node->parent != NULL)
        node_detach(node);
    while (node->first != NULL)
        node_free(node->first);
    free(node);
}

struct node *node_copy(const struct node *node)
{
    struct node *copy = node_new(node->number, node->kind, node->content, node->length);
    copy->count = node->count;
    struct node **link = &copy->first;
    for (const struct node *child = node->first; child != NULL; child = child->next) {
        *link = node_copy(child);
        (*link)->parent = copy;
        link = &(*link)->next;
    }
    return copy;
}

static int deleted(const struct node *node, uint32_t viewer)
{
    return node->deleted_by != 0 && (viewer == HELD || node->deleted_by == viewer);
}

int node_hidden(const struct node *node, uint32_t viewer)
{
    for (; node != NULL; node = node->parent)
        if (deleted(node, viewer))
            return 1;
    return 0;
}

static struct node *first_seen(struct node *node, uint32_t viewer)
{
    while (node != NULL && deleted(node, viewer))
        node = node->next;
    return node;
}

struct node *node_after(const struct node *top, struct node *node, uint32_t viewer)
{
    struct node *next = first_seen(node->first, viewer);
    while (next == NULL && node != top) {
        next = first_seen(node->next, viewer);
        node = node->parent;
    }
    return next;
}

struct node *node_find(struct node *top, noodlefen_node number)
{
    for (struct node *node = top; node != NULL; node = node_after(top, node, EVERYTHING))
        if (node->number == number)
            return node;
    return NULL;
}

size_t node_count(struct node *top, uint32_t viewer)
{
    size_t count = 0;
    for (struct node *node = top; node != NULL; node = node_after(top, node, viewer))
        count++;
    return count;
}

size_t node_children(const struct node *node, uint32_t viewer)
{
    size_t count = 0;
    for (struct node *child = first_seen(node->first, viewer); child != NULL; child = first_seen(child->next, viewer))
        count++;
    return count;
}

struct node *node_child(const struct node *node, uint32_t k, uint32_t viewer)
{
    uint32_t place = 1;
    for (struct node *child = first_seen(node->first, viewer); child != NULL; child = first_seen(child->next, viewer))
        if (place++ == k)
            return child;
    return NULL;
}

static int same_node(const struct node *a, const struct node *b)
{
    int same_parent = a->parent == NULL || b->parent == NULL ? a->parent == b->parent : a->parent->number == b->parent->number;
    return same_parent && a->number == b->number && a->kind == b->kind && same_bytes(a->content, a->length, b->content, b->length);
}

int same_documents(struct node *document, struct node *other, uint32_t viewer)
{
    struct node *a = document, *b = other;
    while (a != NULL && b != NULL && same_node(a, b)) {
        a = node_after(document, a, EVERYTHING);
        b = node_after(other, b, viewer);
    }
    return a == NULL && b == NULL;
}

int same_counts(struct node *document, struct node *other)
{
    struct node *b = other;
    for (struct node *a = document; a != NULL; a = node_after(document, a, EVERYTHING)) {
        while (b != NULL && b->number != a->number)
            b = node_after(other, b, EVERYTHING);
        if (b == NULL || b->count != a->count)
            return 0;
    }
    return 1;
}

int same_bytes(const uint8_t *a, size_t a_length, const uint8_t *b, size_t b_length)
{
    return a_length == b_length && (a_length == 0 || memcmp(a, b, a_length) == 0);
}

int name_allowed(const uint8_t *bytes, size_t length)
{
    size_t at = length > 0 ? character_length(NAME_START, bytes, length) : 0;
    if (at == 0 || length > MOST_CONTENT)
        return 0;
    while (at < length) {
        size_t character = character_length(NAME, bytes + at, length - at);
        if (character == 0)
            return 0;
        at += character;
    }
    return 1;
}

static int text_allowed(const uint8_t *bytes, size_t length)
{
    if (length < 1 || length > MOST_CONTENT)
        return 0;
    for (size_t at = 0; at < length;) {
        size_t character = character_length(ANY, bytes + at, length - at);
        if (character == 0)
            return 0;
        at += character;
    }
    return 1;
}

int content_allowed(int kind, const uint8_t *bytes, size_t length)
{
    switch (kind) {
    case DOCUMENT: return length == 0;
    case ELEMENT: return name_allowed(bytes, length);
    case ATTRIBUTE: return name_allowed(bytes, length);
    case TEXT: return text_allowed(bytes, length);
    }
    return 0;
}

int kind_stands_under(uint32_t kind, int parent_kind)
{
    switch (parent_kind) {
    case DOCUMENT: return kind == ELEMENT;
    case ELEMENT: return kind == ATTRIBUTE || kind == ELEMENT || kind == TEXT;
    case ATTRIBUTE: return kind == TEXT;
    }
    return 0;
}

int place_allowed(const struct node *parent, uint32_t kind, uint32_t k, uint32_t viewer)
{
    size_t children = node_children(parent, viewer);
    if (k < 1 || k > children + 1)
        return 0;
    if (parent->kind == DOCUMENT || parent->kind == ATTRIBUTE)
        return children == 0; /* at most one element, at most one text */
    /* Attributes first: nothing else before an attribute, no attribute behind anything else. */
    struct node *before = node_child(parent, k - 1, viewer);
    struct node *behind = node_child(parent, k, viewer);
    if (kind == ATTRIBUTE)
        return before == NULL || before->kind == ATTRIBUTE;
    return behind == NULL || behind->kind != ATTRIBUTE;
}
