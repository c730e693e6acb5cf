#include "locks.h"

static const char *const table[MODES] = {
    /* LT   */ "++++-+++++++",
    /* LC   */ "++++-++++++-",
    /* LR   */ "+++--++-++++",
    /* LU   */ "++---+--++++",
    /* LW   */ "------------",
    /* LTT  */ "++++-+++++--",
    /* LRR  */ "+++--++-+---",
    /* LUU  */ "++---+------",
    /* LIR  */ "++++-++-++++",
    /* LIU  */ "++++-+--++++",
    /* LIW  */ "++++----++++",
    /* LICW */ "+-++----++++",
};

int modes_clash(enum mode a, enum mode b)
{
    return table[a][b] == '-';
}

static void on(struct needs *needs, enum mode mode, struct node *node)
{
    needs->list[needs->count].node = node;
    needs->list[needs->count].mode = mode;
    needs->count++;
}

/* "Above n" means all proper ancestors of n, the document included. */
static void above(struct needs *needs, enum mode mode, struct node *n)
{
    for (struct node *node = n->parent; node != NULL; node = node->parent)
        on(needs, mode, node);
}

void needs_of(struct needs *needs, const struct step *step, struct node *n)
{
    needs->count = 0;
    switch (step->what) {
    case STEP_T: on(needs, LT, n); above(needs, LT, n); break;
    case STEP_C: on(needs, LC, n); above(needs, LT, n); break;
    case STEP_R: on(needs, LR, n); above(needs, LIR, n); break;
    case STEP_U: on(needs, LU, n); above(needs, LIU, n); break;
    case STEP_D: on(needs, LW, n); on(needs, LICW, n->parent); above(needs, LIW, n->parent); break;
    case STEP_I: on(needs, LC, n); above(needs, LT, n); on(needs, LICW, n); above(needs, LIW, n); break;
    case STEP_TT: on(needs, LTT, n); above(needs, LT, n); break;
    case STEP_RR: on(needs, LRR, n); above(needs, LIR, n); break;
    case STEP_UU: on(needs, LUU, n); above(needs, LIU, n); break;
    }
}

unsigned wait_set(const struct needs *needs, uint32_t caller, const int open[])
{
    unsigned set = 0;
    for (uint32_t t = 1; t <= MOST_TRANSACTIONS; t++) {
        if (t == caller || !open[t])
            continue;
        for (size_t i = 0; i < needs->count; i++)
            for (int held = 0; held < MODES; held++)
                if ((needs->list[i].node->modes[t] >> held & 1) && modes_clash((enum mode)held, needs->list[i].mode))
                    set |= 1u << (t - 1);
    }
    return set;
}

void needs_grant(const struct needs *needs, uint32_t caller)
{
    for (size_t i = 0; i < needs->count; i++)
        needs->list[i].node->modes[caller] |= 1u << needs->list[i].mode;
}
