/* stand_in.c: the functions of noodlefen.h by the engine of this directory, to try test programs without the library. */
#include "engine.h"

#define CALL(name, parameters, arguments) \
    noodlefen_answer noodlefen_##name parameters { return bench_##name arguments; }
#include "../host/calls.def"
