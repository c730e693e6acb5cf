/* locks.h: lock modes, what each step needs, and who stands in its way. */
#ifndef LOCKS_H
#define LOCKS_H

#include "step.h"
#include "tree.h"

enum mode { LT, LC, LR, LU, LW, LTT, LRR, LUU, LIR, LIU, LIW, LICW, MODES };

/* A step's locks: pairs of node and mode. */
struct needs {
    size_t count;
    struct { struct node *node; enum mode mode; } list[4 * MOST_NODES];
};

int modes_clash(enum mode a, enum mode b);

/* The column "Locks" of the table of steps. LW on the node of an insertion is left out: it is not there before. */
void needs_of(struct needs *needs, const struct step *step, struct node *n);

/* Bit t-1 for each open transaction t other than the caller that holds a mode which clashes with one needed. */
unsigned wait_set(const struct needs *needs, uint32_t caller, const int open[]);

void needs_grant(const struct needs *needs, uint32_t caller);

#endif
