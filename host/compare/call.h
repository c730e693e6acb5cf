/* call.h: a call with its arguments and lent buffers as a value, to be made on any engine. */
#ifndef CALL_H
#define CALL_H

#include <stdio.h>

#include "../engine.h"

/* The calls of noodlefen.h; a number of commits put, and what is open finishing in some order (engine.h). */
enum call_name {
    CALL_START, CALL_LOAD, CALL_WRITE, CALL_COUNT, CALL_COMMITS, CALL_FINISH, CALL_BEGIN, CALL_COMMIT, CALL_ABORT, CALL_T, CALL_C, CALL_R,
    CALL_U, CALL_D, CALL_I, CALL_TT, CALL_RR, CALL_UU, CALLS
};

enum { MOST_ARGUMENT = 64, GUARD_BYTES = 48 };

struct call {
    enum call_name what;
    uint32_t t, k, kind;
    uint32_t commits;                           /* commits: how many */
    noodlefen_node n, m;
    uint8_t a[MOST_ARGUMENT], b[MOST_ARGUMENT]; /* U, I: content a; UU: names a and b */
    size_t a_length, b_length;
    const uint8_t *xml;                         /* load */
    size_t xml_length;
    size_t room, cells_room;                    /* lent for the answer: write, finish, R, TT, RR */
    uint32_t order[NOODLEFEN_TRANSACTIONS];     /* finish: the open transactions */
    unsigned count, changing;                   /* finish: how many they are, and how many of them have changed something */
};

/* Lent memory with guard bytes behind it. */
struct lent {
    uint8_t *bytes, *cells;
};

struct lent lent_new(void);
void lent_free(struct lent *lent);

/* Fills what the call lends, and the guard behind it, with a pattern. */
void lent_fill(struct lent *lent, const struct call *call);

/* Whether both hold the same bytes. */
int lent_equal(const struct lent *one, const struct lent *other, const struct call *call);

/* Whether all bytes behind the answer, and all if the call was not granted, still have the pattern. */
int lent_kept(const struct lent *lent, const struct call *call, noodlefen_answer answer);

noodlefen_answer make_call(const struct engine *engine, void *e, const struct call *call, struct lent *lent);

const char *call_word(enum call_name what);
void print_call(FILE *file, const struct call *call);
void print_answer(FILE *file, noodlefen_answer answer);

#endif
