/* step.h: a step's arguments and its answer, as values that can be kept. */
#ifndef STEP_H
#define STEP_H

#include "tree.h"

enum step_name { STEP_T, STEP_C, STEP_R, STEP_U, STEP_D, STEP_I, STEP_TT, STEP_RR, STEP_UU };

struct step {
    enum step_name what;
    noodlefen_node n;
    uint32_t k;              /* C, I */
    noodlefen_node m;        /* I */
    uint32_t kind;           /* I */
    const uint8_t *a, *b;    /* U, I: content a; UU: names a and b */
    size_t a_length, b_length;
};

/* The answer of a granted step: the number it answers, and what it puts in the first and the second lent buffer. */
struct result {
    uint64_t value;
    size_t length, cells_length;
    uint8_t bytes[NUMBER_BYTES * MOST_NODES];
    uint8_t cells[33 * MOST_NODES];
};

/* What the step answers on the tree that the viewer sees, changing nothing. Node n must be there. */
void step_result(struct result *result, const struct step *step, struct node *n, uint32_t viewer);

/* A granted step kept for the plain run, with the answer it gave. */
struct kept_step {
    struct step step;
    uint8_t a[MOST_CONTENT], b[MOST_CONTENT];
    uint64_t value;
    size_t length, cells_length;
    uint8_t *bytes, *cells;
    struct kept_step *next;
};

struct kept_step *keep_step(const struct step *step, const struct result *result);
void kept_step_free(struct kept_step *kept);

/* The plain run's step on a plain document, for the commit of this count: what the step inserts or updates bears it. 0 if the document does
 * not allow the step: then nothing has changed. */
int plain_step(struct node *document, const struct step *step, uint32_t count, struct result *result);

/* Takes a committed transaction's steps in order, for the commit of this count; answers how many were not allowed or answered otherwise. */
unsigned long plain_commit(struct node *document, const struct kept_step *steps, uint32_t count);

#endif
