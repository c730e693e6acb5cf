#include "contention.h"

#include <string.h>

void contention_forget(struct contention *contention)
{
    memset(contention, 0, sizeof *contention);
}

static void learn_end(struct contention *contention, uint32_t t)
{
    contention->granted[t].what = CALL_START;
    contention->hindered[t].what = CALL_START;
    contention->waits_for[t] = 0;
    for (uint32_t u = 1; u < CONTENTION_ROOM; u++)
        contention->waits_for[u] &= ~(1u << t);
}

/* Of the granted steps a deletion or an insertion mostly stays, since every step waits for it. */
static void learn_granted(struct contention *contention, struct random *r, const struct call *call)
{
    enum call_name last = contention->granted[call->t].what;
    if (call->n != 0 && ((last != CALL_D && last != CALL_I) || once_in(r, 4)))
        contention->granted[call->t] = *call;
    contention->hindered[call->t].what = CALL_START;
    contention->waits_for[call->t] = 0;
}

void contention_learn(struct contention *contention, struct random *r, const struct call *call, noodlefen_answer answer)
{
    if (noodlefen_waits(answer) || noodlefen_cause(answer) == NOODLEFEN_DEADLOCK)
        contention->hindered[call->t] = *call;
    if (noodlefen_waits(answer))
        contention->waits_for[call->t] = (uint32_t)noodlefen_value(answer) << 1;
    if (noodlefen_granted(answer) && (call->what == CALL_COMMIT || call->what == CALL_ABORT))
        learn_end(contention, call->t);
    if (noodlefen_granted(answer) && call->what >= CALL_T)
        learn_granted(contention, r, call);
}

int contention_repeats(const struct contention *contention, struct random *r, uint32_t t)
{
    if (t >= CONTENTION_ROOM || contention->hindered[t].what < CALL_T)
        return 0;
    return contention->waits_for[t] != 0 ? !once_in(r, 4) : once_in(r, 3);
}

/* Those that wait for t over as many others as possible: bit u for u. */
static uint32_t farthest_from(const struct contention *contention, uint32_t t)
{
    uint32_t reached = 1u << t, level = reached, next = reached;
    while (next != 0) {
        level = next;
        next = 0;
        for (uint32_t u = 1; u < CONTENTION_ROOM; u++)
            if ((contention->waits_for[u] & level) != 0)
                next |= 1u << u;
        next &= ~reached;
        reached |= next;
    }
    return level & ~(1u << t);
}

const struct call *contention_granted(const struct contention *contention, struct random *r, uint32_t t, unsigned transactions)
{
    uint32_t among = t < CONTENTION_ROOM && once_in(r, 2) ? farthest_from(contention, t) : 0, other = 1 + below(r, transactions);
    for (unsigned i = 0; i < 40 && (other == t || (among != 0 && (among >> other & 1) == 0)); i++)
        other = 1 + below(r, transactions);
    return contention->granted[other].what >= CALL_T ? &contention->granted[other] : NULL;
}

int contention_waits(const struct call *granted, enum call_name what)
{
#define STEP(name) (1u << CALL_##name)
    static const unsigned waiting[CALLS] = {
        [CALL_T] = STEP(D),
        [CALL_C] = STEP(D) | STEP(I),
        [CALL_R] = STEP(U) | STEP(D) | STEP(UU),
        [CALL_U] = STEP(R) | STEP(U) | STEP(D) | STEP(RR) | STEP(UU),
        [CALL_D] = ~0u,
        [CALL_I] = ~0u,
        [CALL_TT] = STEP(D) | STEP(I),
        [CALL_RR] = STEP(U) | STEP(D) | STEP(I) | STEP(UU),
        [CALL_UU] = STEP(R) | STEP(U) | STEP(D) | STEP(I) | STEP(RR) | STEP(UU)
    };
#undef STEP
    return what >= CALL_T && (waiting[granted->what] >> what & 1) != 0;
}

/* The numbers from first on, so many, in a random order. */
static void shuffle(uint32_t *numbers, unsigned count, uint32_t first, struct random *r)
{
    for (unsigned i = 0; i < count; i++) {
        unsigned place = below(r, i + 1);
        numbers[i] = numbers[place];
        numbers[place] = first + i;
    }
}

void contention_plan(struct contention *contention, struct random *r, unsigned size)
{
    shuffle(contention->ring, NOODLEFEN_TRANSACTIONS, 1, r);
    shuffle(contention->asking, size, 0, r);
    contention->size = size;
    contention->made = 0;
}

int contention_next(struct contention *contention, struct random *r, struct call *call, unsigned *place)
{
    if (contention->made == 3 * contention->size)
        return 0;
    unsigned phase = contention->made / contention->size, turn = contention->made % contention->size;
    unsigned member = phase == 2 ? contention->asking[turn] : turn;
    contention->made++;
    call->t = contention->ring[member];
    call->what = phase == 0 ? CALL_BEGIN : phase == 1 || once_in(r, 2) ? CALL_U : CALL_R;
    *place = phase == 2 ? (member + 1) % contention->size : member;
    return 1;
}
