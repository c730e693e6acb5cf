/* contention.h: steps of transactions that wait for each other. */
#ifndef CONTENTION_H
#define CONTENTION_H

#include "call.h"
#include "random.h"

enum { CONTENTION_ROOM = NOODLEFEN_TRANSACTIONS + 1 }; /* transactions count from 1 */

struct contention {
    /* By transaction, what the answers so far have shown; a step is CALL_START where there was none. */
    struct call granted[CONTENTION_ROOM];   /* its last granted step, or one before */
    struct call hindered[CONTENTION_ROOM];  /* its last step, if that waits or is refused for 17 */
    uint32_t waits_for[CONTENTION_ROOM];    /* bit u if it waits for u */
    /* A ring that is being made. */
    uint32_t ring[NOODLEFEN_TRANSACTIONS];   /* its transactions, each waiting for the next */
    uint32_t asking[NOODLEFEN_TRANSACTIONS]; /* their places there, in the order in which they ask */
    unsigned size, made;                     /* how many they are, and how many calls have been made */
};

void contention_forget(struct contention *contention);
void contention_learn(struct contention *contention, struct random *r, const struct call *call, noodlefen_answer answer);

/* Whether t makes its last step again: mostly if that waits, at times if it was refused for 17. */
int contention_repeats(const struct contention *contention, struct random *r, uint32_t t);

/* A step that was granted to another of so many transactions, often to one that waits for t, so that there would be a ring if t waited for
 * it. NULL if nothing is known of the other. */
const struct call *contention_granted(const struct contention *contention, struct random *r, uint32_t t, unsigned transactions);

/* Whether a step on the node of a granted one, or on the node that it inserted, waits for it. */
int contention_waits(const struct call *granted, enum call_name what);

/* A ring of so many: each begins, updates a node of its own, and asks for that of the next. */
void contention_plan(struct contention *contention, struct random *r, unsigned size);

/* Whether calls of the ring are left. If so, what and t of the next one are set, and *place is that of its node among those of the ring. */
int contention_next(struct contention *contention, struct random *r, struct call *call, unsigned *place);

#endif
