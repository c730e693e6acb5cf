/* reached.h: what the random calls have come to. */
#ifndef REACHED_H
#define REACHED_H

#include "../reference/reference.h"
#include "call.h"

/* Something that is counted besides the outcomes. */
struct counted {
    const char *what;
    unsigned long enough; /* so many calls reach it, twice as many twice, and so on, or the generator has changed */
    unsigned long times;
};

/* What has to do with characters of more than one byte, and a call counted there. */
extern struct counted counted_characters[];
extern const int characters_counted;
void reached_characters(const struct call *call, noodlefen_answer answer, const struct lent *lent);

/* What has to do with rings of waiting transactions, and a call counted there: the shortest ring of a refusal for 17 has so many. */
extern struct counted counted_rings[];
extern const int rings_counted;
void reached_rings(const struct call *call, noodlefen_answer answer, unsigned ring);

/* What has to do with the counts of commits, and a call counted there: the reference is as the call left it. */
extern struct counted counted_counts[];
extern const int counts_counted;
void reached_counts(const struct call *call, noodlefen_answer answer, const struct reference *reference);

/* Counts a call on which the engines agreed; lent is what it wrote. */
void reached_count(const struct call *call, noodlefen_answer answer, const struct lent *lent);

void reached_print(void);

/* How many of the outcomes that so many calls reach were not; each is printed. */
unsigned long reached_missing(unsigned long calls);

#endif
