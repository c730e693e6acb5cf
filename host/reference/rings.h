/* rings.h: whom each transaction waits for, as it is remembered, and rings of transactions, each waiting for the next. */
#ifndef RINGS_H
#define RINGS_H

#include "tree.h"

struct wait_sets {
    int waits_for[MOST_TRANSACTIONS + 1][MOST_TRANSACTIONS + 1]; /* [t][u]: u is in the set of t */
};

/* This set, bit u-1 for u, is remembered of t from now on. */
void set_remember(struct wait_sets *sets, uint32_t t, unsigned set);
unsigned set_remembered(const struct wait_sets *sets, uint32_t t);

/* Empties the set of t, and strikes t from all others. */
void set_strike(struct wait_sets *sets, uint32_t t);

/* How many transactions the shortest ring has; 0 if there is none. */
unsigned ring_length(const struct wait_sets *sets);

#endif
