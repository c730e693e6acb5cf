#include "engine.h"
#include "reference/reference.h"

static void *make(void) { return reference_new(); }
static void drop(void *e) { reference_free(e); }
static unsigned long faults(void *e) { return reference_disagreements(e); }

static noodlefen_answer finish(void *e, const uint32_t *order, unsigned count, uint8_t *out, size_t out_len)
{
    return reference_finish(e, order, count, out, out_len);
}

static unsigned remembered(void *e, uint32_t t) { return reference_remembered(e, t); }
static uint32_t commits(void *e) { return reference_commits(e); }
static void put_commits(void *e, uint32_t count) { reference_put_commits(e, count); }

#define STATE void *e
#define READ_STATE void *e
#define PASSED_STATE e
#define CALL(name, parameters, arguments) \
    static noodlefen_answer of_##name parameters { return reference_##name arguments; }
#include "calls.def"

const struct engine reference_engine = {
    "reference", make, drop, faults, finish, remembered, commits, put_commits,
#define CALL(name, parameters, arguments) of_##name,
#include "calls.def"
};

#ifndef WITH_LIBRARY
const struct engine *const tested_engine = &reference_engine;
#endif
