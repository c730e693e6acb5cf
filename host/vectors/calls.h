/* calls.h: calls written as words. */
#ifndef CALLS_H
#define CALLS_H

#include "../engine.h"

/* Writes outcome, cause and value. */
void describe(noodlefen_answer answer, char *got);

/* Takes the call that the words name and writes its answer as the vectors do. The words are changed. */
void run_call(const struct engine *engine, void *e, uint32_t t, char *words, char *got);

#endif
