/*
 * reference.h: a slow and plain implementation of the calls of noodlefen.h, to compare the library with.
 *
 * The functions are those of noodlefen.h with another prefix, over an object instead of lent state bytes;
 * answers and the treatment of lent buffers are the same.
 */
#ifndef REFERENCE_H
#define REFERENCE_H

#include "noodlefen.h"

struct reference;

/* A new object. Until reference_start every call is refused for 13, as with state bytes that are not of the form. */
struct reference *reference_new(void);
void reference_free(struct reference *r);

/* How many steps answered otherwise than the plain run does, in commits and in reference_finish; how often a commit left nodes with other
 * counts than those of the plain run, and the latter a document that was not the held one; one more while each open transaction waits for
 * somebody. Always 0 if the reference is right. */
unsigned long reference_disagreements(const struct reference *r);

/* Whom transaction t, 1 to 16, is remembered to wait for: bit u-1 for u. */
unsigned reference_remembered(const struct reference *r, uint32_t t);

/* How many transactions the shortest ring has for which a step was last refused (17). */
unsigned reference_ring(const struct reference *r);

/* How many commits were granted since the last granted start or load. They can be put, as if so many had been granted: each of the further
 * ones begun and committed at once, without a step. */
uint32_t reference_commits(const struct reference *r);
void reference_put_commits(struct reference *r, uint32_t commits);

/* The numbers of all nodes held, in document order, those that open transactions inserted or deleted too; answers how many there are. */
size_t reference_numbers(const struct reference *r, noodlefen_node numbers[NOODLEFEN_NODES]);

/* What open transactions have done to the node of this number, added up. A node below a deleted one is deleted too. */
enum reference_changes { REFERENCE_INSERTED = 1, REFERENCE_DELETED = 2, REFERENCE_UPDATED = 4 };
unsigned reference_changes_of(const struct reference *r, noodlefen_node n);

/* How many granted updates have given a node the bytes that it had. */
unsigned long reference_same_updates(const struct reference *r);

/* What is open finishes in this order, of all that are open: on a copy of the plain document the plain run takes the granted steps so far
 * of each. Answers as a write of the document left does, or as the first commit that is not granted; nothing but the disagreements is
 * changed. */
noodlefen_answer reference_finish(struct reference *r, const uint32_t *order, unsigned count, uint8_t *out, size_t out_len);

#define STATE struct reference *r
#define READ_STATE const struct reference *r
#define CALL(name, parameters, arguments) noodlefen_answer reference_##name parameters;
#include "../calls.def"

#endif
