#include "rings.h"

/* Rows and columns count from 1. No shortest path is longer than there are transactions. */
enum { ROOM = MOST_TRANSACTIONS + 1, NO_PATH = MOST_TRANSACTIONS + 1 };

void set_remember(struct wait_sets *sets, uint32_t t, unsigned set)
{
    for (uint32_t u = 1; u <= MOST_TRANSACTIONS; u++)
        sets->waits_for[t][u] = (int)(set >> (u - 1) & 1);
}

unsigned set_remembered(const struct wait_sets *sets, uint32_t t)
{
    unsigned set = 0;
    for (uint32_t u = 1; u <= MOST_TRANSACTIONS; u++)
        if (sets->waits_for[t][u])
            set |= 1u << (u - 1);
    return set;
}

void set_strike(struct wait_sets *sets, uint32_t t)
{
    set_remember(sets, t, 0);
    for (uint32_t u = 1; u <= MOST_TRANSACTIONS; u++)
        sets->waits_for[u][t] = 0;
}

/* By the lengths of the shortest paths between any two: first those of one step, then over one more transaction at a time. */
unsigned ring_length(const struct wait_sets *sets)
{
    unsigned paths[ROOM][ROOM], shortest = NO_PATH;
    for (int t = 1; t < ROOM; t++)
        for (int u = 1; u < ROOM; u++)
            paths[t][u] = sets->waits_for[t][u] ? 1 : NO_PATH;
    for (int over = 1; over < ROOM; over++)
        for (int t = 1; t < ROOM; t++)
            for (int u = 1; u < ROOM; u++)
                if (paths[t][over] + paths[over][u] < paths[t][u])
                    paths[t][u] = paths[t][over] + paths[over][u];
    for (int t = 1; t < ROOM; t++)
        if (paths[t][t] < shortest)
            shortest = paths[t][t];
    return shortest < NO_PATH ? shortest : 0;
}
