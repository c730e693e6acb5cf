/* timing.h: times of single calls, and tables of them. */
#ifndef BENCH_TIMING_H
#define BENCH_TIMING_H

#include "engine.h"

/* The functions that are timed, for each engine. */
struct timed {
    const char *name;
    /* The calls: noodlefen_answer (*start)(uint8_t *state, size_t state_len) and so on; count_of is NULL if the engine has it not. */
#define CALL(name, parameters, arguments) noodlefen_answer(*name) parameters;
#include "../host/calls.def"
};

/* The C engine; the library, and another one from before, are there if they were linked. */
enum { C_ENGINE, LIBRARY, BEFORE, MOST_ENGINES };
extern const struct timed timed_engines[];
extern const int timed_count;

/* The engine at this turn of sample i: the C engine first; the two libraries change places from sample to sample, since a call may gain by
 * the one just before it. */
int engine_at(int turn, int i);

/* The time now in nanoseconds. */
double now(void);

/* The median of the samples, which are put in order. */
double median(double *samples, int count);

/* Writes a settings document of so many nodes, the document included; answers its length. */
size_t tree_document(char *out, unsigned nodes);

/* Writes a document of close to 65,536 bytes and 1,024 nodes: names, values and texts of 28 to 32 bytes, entities, blanks in tags. */
size_t long_document(char *out);

/* Stops the program if a call that is timed was not granted: its time would mean nothing. */
void must_grant(const char *engine, const char *what, noodlefen_answer answer);

/* The same if it does not wait. */
void must_wait(const char *engine, const char *what, noodlefen_answer answer);

/* The same if the answer is not the refusal for this cause. */
void must_refuse(const char *engine, const char *what, unsigned cause, noodlefen_answer answer);

void time_steps(void);
void time_xml(const char *settings_path);

#endif
