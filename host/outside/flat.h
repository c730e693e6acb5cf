/* flat.h: a document as a list of lines, one for each node in document order, so that two readers can be compared. */
#ifndef FLAT_H
#define FLAT_H

#include <stddef.h>

#include "../engine.h"

struct flat {
    char *text;
    size_t length, room;
};

/* Adds a node: its kind e, a or t, its depth and its content. */
void flat_add(struct flat *flat, char kind, unsigned depth, const char *content, size_t length);

/* The same for an attribute's value; the empty one is no node. */
void flat_add_value(struct flat *flat, unsigned depth, const char *content, size_t length);

void flat_free(struct flat *flat);
int flat_equal(const struct flat *one, const struct flat *other);

/* What the engine holds, as a new transaction 1 sees it. */
void flat_of_engine(struct flat *flat, const struct engine *engine, void *e);

/* What the parsers read; 0 if they refuse it. */
int flat_by_expat(struct flat *flat, const char *xml, size_t length);
int flat_by_libxml2(struct flat *flat, const char *xml, size_t length);

/* Whether expat reads it. */
int reads_by_expat(const char *xml, size_t length);

/* Whether a document that libxml2 reads has only names of the Fourth Edition of XML 1.0, which expat follows. */
int of_fourth_edition(const char *xml, size_t length);

/* Whether a document that a parser reads has something that the subset has not: comments, CDATA, byte 13, other references, and so on. */
int beyond_subset(const char *xml, size_t length);

#endif
