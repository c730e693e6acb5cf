/* engine.h: an implementation of the calls as a table of functions, so that test programs take any of them. */
#ifndef ENGINE_H
#define ENGINE_H

#include "noodlefen.h"

struct engine {
    const char *name;
    void *(*make)(void);   /* one engine of its own; start has not been called */
    void (*drop)(void *e);
    unsigned long (*faults)(void *e); /* what the engine's own checks found wrong so far; see each table */
    /* What is open commits in this order, and the settings are written, all on a copy: the engine stays as it is. Answers the first commit
     * that is not granted, or the write. */
    noodlefen_answer (*finish)(void *e, const uint32_t *order, unsigned count, uint8_t *out, size_t out_len);
    unsigned (*remembered)(void *e, uint32_t t); /* whom t, 1 to 16, is remembered to wait for: bit u-1 for u */
    uint32_t (*commits)(void *e);                /* how many were granted since the last granted start or load */
    void (*put_commits)(void *e, uint32_t commits); /* as if so many had been granted, the further ones of transactions without a step */
    /* The calls: noodlefen_answer (*start)(void *e) and so on. */
#define STATE void *e
#define READ_STATE void *e
#define CALL(name, parameters, arguments) noodlefen_answer(*name) parameters;
#include "calls.def"
};

/* The reference. A fault is a committed step that answered otherwise than the plain run, and a commit that left nodes with other counts; in
 * finish also a step of an open transaction that answered otherwise in this order, and a document left that is not the held one. While each
 * open transaction waits for somebody there is one more. */
extern const struct engine reference_engine;

/* The functions of noodlefen.h. A fault is a call that changed its input, only reads the state or was refused and changed its bytes, or
 * waits and changed others of them than those of its remembered set, which have to be the set that it answers; also a finish that changed
 * the state bytes. */
extern const struct engine library_engine;

/* The engine that a program tests: the library if it was linked, otherwise the reference. */
extern const struct engine *const tested_engine;

#endif
