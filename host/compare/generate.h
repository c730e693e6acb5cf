/* generate.h: random calls that reach every outcome. */
#ifndef GENERATE_H
#define GENERATE_H

#include "call.h"
#include "contention.h"
#include "random.h"

enum { MOST_SEEN = 2048, MOST_CHANGED = 8 };

struct generator {
    struct random random;
    struct random orders;      /* of their own, so that the calls do not depend on them */
    /* The episode: calls from a start on, with trees and transactions of one size. */
    unsigned calls_left, calls_made;
    int only_xml;              /* loads and writes only */
    int contended;               /* many transactions at few nodes, which seldom end: they wait for each other */
    unsigned transactions;     /* those in use are 1 to this */
    unsigned range;            /* numbers that load gives are mostly below this */
    noodlefen_node fresh;      /* fresh numbers are mostly from this on */
    unsigned nodes;            /* of the documents to load */
    enum { RANDOM_TREE, LIMIT_TREE } tree;
    /* What the answers so far have shown; only a guess at what comes next. */
    uint32_t open;             /* bit t for an open transaction t */
    uint32_t changing;         /* bit t if it has changed something */
    int no_commits;            /* they are refused for 18 */
    unsigned known;            /* nodes that may be there; the first is the document */
    struct seen {
        noodlefen_node number;
        uint8_t kind;          /* 0 if not known */
        uint8_t length;        /* bytes of content when last seen */
        uint16_t count;        /* nodes in the subtree when last seen */
    } seen[MOST_SEEN];
    noodlefen_node asked;      /* the node of the last step */
    struct contention contention;
    struct call renaming;      /* the last UU */
    struct changed {
        noodlefen_node number;
        uint8_t content[MOST_ARGUMENT];
        size_t length;
    } changed[MOST_CHANGED];   /* the last granted U and I, in turn */
    unsigned changes;          /* how many there were */
    size_t written;            /* bytes of the document when last written */
    uint8_t *xml;
};

void generator_init(struct generator *g, uint64_t seed);
void generator_free(struct generator *g);

/* Whether the next call begins an episode; it is then a start. */
int generator_begins(const struct generator *g);

void generate(struct generator *g, struct call *call);

/* All that is open, in a random order. */
void generate_finish(struct generator *g, struct call *call);

/* Tells the generator what the call answered. */
void generator_learn(struct generator *g, const struct call *call, noodlefen_answer answer);

#endif
