/* document.h: random XML. */
#ifndef DOCUMENT_H
#define DOCUMENT_H

#include <stddef.h>
#include <stdint.h>

#include "random.h"

enum { DOCUMENT_ROOM = 1 << 20 };

/* Writes random bytes that a name or text may or may not be made of; mostly allowed. Answers the length, at most 40. */
size_t random_name(struct random *r, uint8_t *out);
size_t random_text(struct random *r, uint8_t *out);

/* A document of the subset with about so many nodes; a rough one may have contents of 33 bytes, or references that are not read. Answers
 * the length. */
size_t random_document(struct random *r, uint8_t *out, size_t nodes, int rough);

/* Changes some bytes at random places; answers the new length. */
size_t random_damage(struct random *r, uint8_t *out, size_t length);

/* A document near one of the limits: 1,024 nodes, 65,536 bytes, or both, at times damaged. */
size_t random_limit_document(struct random *r, uint8_t *out);

#endif
