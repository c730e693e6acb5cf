#include <string.h>

#include "reached.h"

enum {
    RING_TWO, RING_THREE, RING_FOUR, RING_MORE, RING_T, RING_UU = RING_T + CALL_UU - CALL_T,
    RING_AGAIN, RING_WAITS, RING_GRANTED, RING_KEEPS, WAIT_REPLACED, WAIT_EMPTIED, WAIT_STRUCK, COUNTED
};

struct counted counted_rings[COUNTED] = {
    [RING_TWO] = {"cause 17, the shortest ring has two transactions", 200, 0},
    [RING_THREE] = {"cause 17, it has three", 4000, 0},
    [RING_FOUR] = {"cause 17, it has four", 20000, 0},
    [RING_MORE] = {"cause 17, it has more", 20000, 0},
#define RING_STEP(name) [RING_T + CALL_##name - CALL_T] = {"cause 17 of " #name, 100000, 0}
    RING_STEP(T), RING_STEP(C), RING_STEP(R), RING_STEP(U), RING_STEP(D), RING_STEP(I), RING_STEP(TT), RING_STEP(RR), RING_STEP(UU),
#undef RING_STEP
    [RING_AGAIN] = {"cause 17, the same call had it before", 1000, 0},
    [RING_WAITS] = {"waits, the same call had cause 17 before", 10000, 0},
    [RING_GRANTED] = {"granted, the same call had cause 17 before", 100000, 0},
    [RING_KEEPS] = {"cause 17, and the caller keeps the set of an earlier wait", 5000, 0},
    [WAIT_REPLACED] = {"waits, another set in the place of an earlier one", 1000, 0},
    [WAIT_EMPTIED] = {"granted, and the caller waits no more", 1000, 0},
    [WAIT_STRUCK] = {"commits and aborts of one that others wait for", 1000, 0},
};

const int rings_counted = COUNTED;

/* By transaction: whom it waits for, and its last call that was refused for 17, until it ends. */
static uint64_t sets[NOODLEFEN_TRANSACTIONS + 1];
static struct call refused[NOODLEFEN_TRANSACTIONS + 1];

static void count_if(int met, int what)
{
    counted_rings[what].times += met ? 1u : 0u;
}

static void forget(uint32_t t)
{
    sets[t] = 0;
    memset(&refused[t], 0, sizeof refused[t]);
}

static void count_step(const struct call *call, noodlefen_answer answer, unsigned ring)
{
    uint32_t t = call->t;
    int same = memcmp(call, &refused[t], sizeof *call) == 0;
    if (noodlefen_cause(answer) == NOODLEFEN_DEADLOCK) {
        count_if(1, ring == 2 ? RING_TWO : ring == 3 ? RING_THREE : ring == 4 ? RING_FOUR : RING_MORE);
        count_if(1, (int)(RING_T + call->what - CALL_T));
        count_if(same, RING_AGAIN);
        count_if(sets[t] != 0, RING_KEEPS);
        refused[t] = *call;
    } else if (noodlefen_waits(answer)) {
        count_if(same, RING_WAITS);
        count_if(sets[t] != 0 && sets[t] != noodlefen_value(answer), WAIT_REPLACED);
        sets[t] = noodlefen_value(answer);
    } else if (noodlefen_granted(answer)) {
        count_if(same, RING_GRANTED);
        count_if(sets[t] != 0, WAIT_EMPTIED);
        sets[t] = 0;
    }
}

static void count_end(uint32_t t)
{
    uint64_t others = 0;
    forget(t);
    for (uint32_t u = 1; u <= NOODLEFEN_TRANSACTIONS; u++) {
        others |= sets[u] >> (t - 1) & 1;
        sets[u] &= ~((uint64_t)1 << (t - 1));
    }
    count_if(others != 0, WAIT_STRUCK);
}

void reached_rings(const struct call *call, noodlefen_answer answer, unsigned ring)
{
    if (call->what == CALL_START)
        for (uint32_t t = 1; t <= NOODLEFEN_TRANSACTIONS; t++)
            forget(t);
    if (call->what >= CALL_T && call->t >= 1 && call->t <= NOODLEFEN_TRANSACTIONS)
        count_step(call, answer, ring);
    if ((call->what == CALL_COMMIT || call->what == CALL_ABORT) && noodlefen_granted(answer))
        count_end(call->t);
}
