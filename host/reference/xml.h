/* xml.h: reading and writing XML. */
#ifndef XML_H
#define XML_H

#include "tree.h"

enum { MOST_XML = 65536, MOST_WRITTEN = 1 << 20 }; /* no document of 1,024 nodes takes MOST_WRITTEN bytes */

/* Why and where a document is refused: cause 4, 5 or 6, and the offset. */
struct refusal {
    int cause;
    size_t offset;
};

/* The document that the bytes stand for, or NULL and the refusal. */
struct node *xml_read(const uint8_t *xml, size_t length, struct refusal *refusal);

/* Writes the document into MOST_WRITTEN bytes and answers the length, or answers 0 if it is not expressible. */
size_t xml_write(const struct node *document, uint8_t *out);

#endif
