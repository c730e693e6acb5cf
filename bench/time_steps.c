/* time_steps.c: one call at a time, each on the same state as every other. */
#include <stdio.h>
#include <stdlib.h>
#include <string.h>

#include "timing.h"

/* COUNT is count_of. WAITS is an R that waits for the last of the open ones, which waits for the one before it, and so on, so that the
 * search for a ring is the longest; with one open there is none. COMMIT is one of nothing; COMMIT_CHANGES and ABORT are of an update, an
 * insertion and a deletion. The refused calls are commits of a transaction that is not open, on a state without and with such changes: they
 * end right behind the form check, and so show its time. From COMPUTED on come the times of the ends less that of the form check. */
enum what {
    COUNT, T, C, R, U, D, I, TT, RR, UU, WAITS, BEGIN, COMMIT, COMMIT_CHANGES, ABORT, REFUSED, REFUSED_CHANGES,
    COMPUTED, COMMIT_BEHIND = COMPUTED, COMMIT_CHANGES_BEHIND, ABORT_BEHIND, WHATS
};
enum { SIZES = 3, OPENS = 3, SAMPLES = 301, MOST_CALLS = COMPUTED - BEGIN, WORD = 18 };

static const char *const words[WHATS] = {
    "count_of", "T", "C", "R", "U", "D", "I", "TT", "RR", "UU", "R, waits", "begin", "commit", "commit of changes", "abort", "refused",
    "refused, changes", "commit", "commit of changes", "abort"
};
static const unsigned sizes[SIZES] = {16, 128, 1024};
static const unsigned opens[OPENS] = {1, 4, 16};

static uint8_t numbers[NOODLEFEN_NUMBER_BYTES * NOODLEFEN_NODES], cells[NOODLEFEN_CELL_BYTES * NOODLEFEN_NODES];

/* Nodes of tree_document: the root is 1; a drive has an attribute, its text, an element, and its text behind it. */
struct places {
    noodlefen_node drive, text, last;
    noodlefen_node held; /* WAITS: what the last of the open transactions has updated */
};

/* Where transactions wait, each has updated a node of its own. */
static noodlefen_node node_of(uint32_t t)
{
    return t - 1;
}

static struct places places_in(unsigned nodes, unsigned open)
{
    unsigned drives = (nodes - 2) / 5, middle = 2 + 5 * (drives / 2);
    struct places places = {middle, middle + 4, nodes - 2, node_of(open)};
    return places;
}

static noodlefen_answer call(const struct timed *engine, uint8_t *state, enum what what, struct places at)
{
    const size_t length = NOODLEFEN_STATE_BYTES;
    static const uint8_t name[] = "winch", speed[] = "speed", text[] = "7.5";
    switch (what) {
    case COUNT: return engine->count_of(state, length, at.text);
    case T: return engine->test(state, length, 1, at.text);
    case C: return engine->child(state, length, 1, at.drive, 2);
    case R: return engine->read(state, length, 1, at.text, cells, sizeof cells);
    case U: return engine->update(state, length, 1, at.text, text, 3);
    case D: return engine->delete(state, length, 1, at.drive);
    case I: return engine->insert(state, length, 1, 5000, NOODLEFEN_ELEMENT, name, 5, at.drive, 2);
    case TT: return engine->test_tree(state, length, 1, 0, numbers, sizeof numbers);
    case RR: return engine->read_tree(state, length, 1, 0, numbers, sizeof numbers, cells, sizeof cells);
    case UU: return engine->rename_tree(state, length, 1, 0, speed, 5, name, 5);
    case WAITS: return engine->read(state, length, 1, at.held, cells, sizeof cells);
    case BEGIN: return engine->begin(state, length, 1);
    case COMMIT:
    case COMMIT_CHANGES: return engine->commit(state, length, 1);
    case ABORT: return engine->abort(state, length, 1);
    case REFUSED:
    case REFUSED_CHANGES: return engine->commit(state, length, NOODLEFEN_TRANSACTIONS);
    default: abort();
    }
}

static int has_call(const struct timed *engine, enum what what) { return what != COUNT || engine->count_of != NULL; }
static int is_refused(enum what what) { return what == REFUSED || what == REFUSED_CHANGES; }
static int has_changes(enum what what) { return what == COMMIT_CHANGES || what == ABORT || what == REFUSED_CHANGES; }

/* An update and an insertion in one drive, and the next drive deleted. */
static void make_changes(const struct timed *engine, uint8_t *state, struct places at)
{
    struct places kept = {at.drive - 5, at.text - 5, at.last, at.held};
    must_grant(engine->name, "U", call(engine, state, U, kept));
    must_grant(engine->name, "I", call(engine, state, I, kept));
    must_grant(engine->name, "D", call(engine, state, D, at));
}

/* Each transaction but the first updates its node, and then waits for the one before it. */
static void make_chain(const struct timed *engine, uint8_t *state, unsigned open)
{
    const size_t length = NOODLEFEN_STATE_BYTES;
    for (uint32_t t = 2; t <= open; t++)
        must_grant(engine->name, "U", engine->update(state, length, t, node_of(t), (const uint8_t *)"chain", 5));
    for (uint32_t t = 3; t <= open; t++)
        must_wait(engine->name, "R", engine->read(state, length, t, node_of(t - 1), cells, sizeof cells));
}

/* The state before the timed call: the tree loaded, transactions 1 to open begun, each other one with locks that do not clash. The one that
 * is to begin or to be refused is not open. */
static void prepare(const struct timed *engine, uint8_t *state, enum what what, unsigned nodes, unsigned open)
{
    static char xml[NOODLEFEN_XML_BYTES];
    const size_t length = NOODLEFEN_STATE_BYTES;
    struct places at = places_in(nodes, open);
    /* An insertion needs room for its node. */
    size_t xml_length = tree_document(xml, nodes - (what == I || has_changes(what)));
    must_grant(engine->name, "start", engine->start(state, length));
    must_grant(engine->name, "load", engine->load(state, length, (const uint8_t *)xml, xml_length));
    for (uint32_t t = 1; t <= open; t++)
        must_grant(engine->name, "begin", engine->begin(state, length, t));
    for (uint32_t t = 2; t <= open && what != WAITS; t++)
        must_grant(engine->name, "T", engine->test(state, length, t, at.last));
    if (what == WAITS)
        make_chain(engine, state, open);
    if (what == BEGIN)
        must_grant(engine->name, "abort", engine->abort(state, length, 1));
    if (is_refused(what) && open == NOODLEFEN_TRANSACTIONS)
        must_grant(engine->name, "abort", engine->abort(state, length, NOODLEFEN_TRANSACTIONS));
    if (has_changes(what))
        make_changes(engine, state, at);
}

static double results[WHATS][SIZES][OPENS][MOST_ENGINES];

static double time_call(const struct timed *engine, enum what what, struct places at, const uint8_t *prepared)
{
    static uint8_t state[NOODLEFEN_STATE_BYTES]; /* at the same place for all engines */
    memcpy(state, prepared, sizeof state);
    double from = now();
    noodlefen_answer answer = call(engine, state, what, at);
    double time = now() - from;
    if (is_refused(what))
        must_refuse(engine->name, "commit", NOODLEFEN_NOT_OPEN, answer);
    else if (what == WAITS)
        must_wait(engine->name, words[what], answer);
    else
        must_grant(engine->name, words[what], answer);
    return time;
}

/* Medians of count calls, from first on. Calls and engines take turns, so that all meet the same load of the machine. */
static void time_calls(int first, int count, int size, int open)
{
    static uint8_t prepared[MOST_CALLS][MOST_ENGINES][NOODLEFEN_STATE_BYTES];
    static double samples[MOST_CALLS][MOST_ENGINES][SAMPLES];
    struct places at = places_in(sizes[size], opens[open]);
    for (int c = 0; c < count; c++)
        for (int e = 0; e < timed_count; e++)
            prepare(&timed_engines[e], prepared[c][e], (enum what)(first + c), sizes[size], opens[open]);
    for (int i = 0; i < SAMPLES; i++)
        for (int c = 0; c < count; c++)
            for (int turn = 0; turn < timed_count; turn++) {
                int e = engine_at(turn, i);
                if (has_call(&timed_engines[e], (enum what)(first + c)))
                    samples[c][e][i] = time_call(&timed_engines[e], (enum what)(first + c), at, prepared[c][e]);
            }
    for (int c = 0; c < count; c++)
        for (int e = 0; e < timed_count; e++)
            if (has_call(&timed_engines[e], (enum what)(first + c)))
                results[first + c][size][open][e] = median(samples[c][e], SAMPLES);
}

static void subtract_check(enum what computed, enum what end, enum what refused)
{
    for (int s = 0; s < SIZES; s++)
        for (int o = 0; o < OPENS; o++)
            for (int e = 0; e < timed_count; e++)
                results[computed][s][o][e] = results[end][s][o][e] - results[refused][s][o][e];
}

/* The time of an engine in microseconds, or its ratio to that of another one; there is none of what was not timed, and no ratio of
 * differences below a tenth of a microsecond, which say nothing. */
static void print_cell(const double *times, int engine, int other)
{
    if (other < 0 && times[engine] != 0)
        printf("%9.2f", times[engine] / 1000);
    else if (other >= 0 && times[engine] >= 100 && times[other] >= 100)
        printf("%9.2f", times[engine] / times[other]);
    else
        printf("%9s", "-");
}

static void print_table(const char *title, int engine, int other)
{
    printf("%s\n%-*s", title, WORD, "nodes");
    for (int s = 0; s < SIZES; s++)
        for (int o = 0; o < OPENS; o++)
            printf("%9u", sizes[s]);
    printf("\n%-*s", WORD, "open");
    for (int s = 0; s < SIZES; s++)
        for (int o = 0; o < OPENS; o++)
            printf("%9u", opens[o]);
    printf("\n");
    for (int what = 0; what < WHATS; what++) {
        if (what == COMPUTED)
            printf("behind the check (less refused):\n");
        printf("%-*s", WORD, words[what]);
        for (int s = 0; s < SIZES; s++)
            for (int o = 0; o < OPENS; o++)
                print_cell(results[what][s][o], engine, other);
        printf("\n");
    }
    printf("\n");
}

void time_steps(void)
{
    time_calls(T, 1, 0, 0); /* until the machine has its speed */
    for (int s = 0; s < SIZES; s++)
        for (int o = 0; o < OPENS; o++) {
            for (int step = COUNT; step <= (opens[o] > 1 ? WAITS : UU); step++)
                time_calls(step, 1, s, o);
            time_calls(BEGIN, MOST_CALLS, s, o);
        }
    subtract_check(COMMIT_BEHIND, COMMIT, REFUSED);
    subtract_check(COMMIT_CHANGES_BEHIND, COMMIT_CHANGES, REFUSED_CHANGES);
    subtract_check(ABORT_BEHIND, ABORT, REFUSED_CHANGES);
    print_table("C engine, microseconds", C_ENGINE, -1);
    if (timed_count > LIBRARY) {
        print_table("library, microseconds", LIBRARY, -1);
        print_table("library / C engine", LIBRARY, C_ENGINE);
    }
    if (timed_count > BEFORE)
        print_table("library before / library", BEFORE, LIBRARY);
}
