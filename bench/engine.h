/*
 * engine.h: a hand-written engine in C of the same rules as the panel library, to measure the library against.
 *
 * The functions are those of noodlefen.h with another prefix. The state is packed in arrays: rows in document order with their
 * depths, contents and lock words by slot. Every call checks the form of the state once, as the library does.
 */
#ifndef BENCH_ENGINE_H
#define BENCH_ENGINE_H

#include "noodlefen.h"

#define CALL(name, parameters, arguments) noodlefen_answer bench_##name parameters;
#include "../host/calls.def"

#endif
