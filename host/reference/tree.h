/* tree.h: documents as linked nodes. */
#ifndef TREE_H
#define TREE_H

#include "noodlefen.h"

enum { DOCUMENT = 1, ELEMENT = 2, ATTRIBUTE = 3, TEXT = 4 };
enum { MOST_NODES = 1024, MOST_CONTENT = 32, MOST_TRANSACTIONS = 16, MOST_COMMITS = 1000000, NUMBER_BYTES = 4 };

struct node {
    noodlefen_node number;
    int kind;
    size_t length;
    uint8_t content[MOST_CONTENT];
    struct node *parent, *first, *next; /* parent, first child, next sibling */
    uint32_t count;                     /* which commit inserted it or last updated its content; 0 if none did */

    /* The rest is used in the held tree only. */
    uint32_t deleted_by;                     /* the open transaction that deleted this very node, or 0 */
    unsigned modes[MOST_TRANSACTIONS + 1];   /* modes[t]: the set of lock modes that t was granted here */
};

/* What a transaction sees of a tree is the tree without the nodes it deleted. The viewer EVERYTHING deleted none; the viewer HELD sees the
 * held document, without the nodes that any open transaction deleted. */
enum { EVERYTHING = 0, HELD = MOST_TRANSACTIONS + 1 };

struct node *node_new(noodlefen_node number, int kind, const uint8_t *content, size_t length);
void node_set_content(struct node *node, const uint8_t *content, size_t length);
void node_attach(struct node *parent, struct node *node, struct node *before); /* before NULL: as the last child */
void node_detach(struct node *node);
void node_free(struct node *node);                    /* with all below it; detached first if it has a parent */
struct node *node_copy(const struct node *node);      /* with all below it, without locks and deletions */

int node_hidden(const struct node *node, uint32_t viewer);                     /* viewer deleted it or an ancestor */
struct node *node_after(const struct node *top, struct node *node, uint32_t viewer); /* the next below top in document order */
struct node *node_find(struct node *top, noodlefen_node number);               /* NULL if no node is so numbered */
size_t node_count(struct node *top, uint32_t viewer);
size_t node_children(const struct node *node, uint32_t viewer);
struct node *node_child(const struct node *node, uint32_t k, uint32_t viewer);       /* k from 1; NULL if there is none */

/* Whether the document is what the viewer sees of the other one: numbers, kinds, contents, parents and order; the counts aside. */
int same_documents(struct node *document, struct node *other, uint32_t viewer);

/* Whether each node of the document is in the other one too, in the same order and with the same count. The other one may have more. */
int same_counts(struct node *document, struct node *other);

int same_bytes(const uint8_t *a, size_t a_length, const uint8_t *b, size_t b_length);
int name_allowed(const uint8_t *bytes, size_t length);
int content_allowed(int kind, const uint8_t *bytes, size_t length);
int kind_stands_under(uint32_t kind, int parent_kind);

/* The rule on children, with a new node of the kind as k-th child of the parent that the viewer sees. */
int place_allowed(const struct node *parent, uint32_t kind, uint32_t k, uint32_t viewer);

#endif
