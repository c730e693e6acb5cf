/* bench.c: times every step, begin and end of transactions, load and write. bench_run [SETTINGS.xml] */
#define _POSIX_C_SOURCE 199309L
#include <stdio.h>
#include <stdlib.h>
#include <string.h>
#include <time.h>

#include "timing.h"

/* A call that the library before has not is NULL: it need not have count_of. */
#ifdef WITH_BEFORE
#define CALL(name, parameters, arguments) noodlefen_answer before_##name parameters __attribute__((weak));
#include "../host/calls.def"
#endif

const struct timed timed_engines[] = {
    {"bench",
#define CALL(name, parameters, arguments) bench_##name,
#include "../host/calls.def"
    },
#ifdef WITH_LIBRARY
    {"noodlefen",
#define CALL(name, parameters, arguments) noodlefen_##name,
#include "../host/calls.def"
    },
#endif
#ifdef WITH_BEFORE
    {"before",
#define CALL(name, parameters, arguments) before_##name,
#include "../host/calls.def"
    },
#endif
};
const int timed_count = sizeof timed_engines / sizeof timed_engines[0];

int engine_at(int turn, int i)
{
    return timed_count > BEFORE && turn != C_ENGINE && i % 2 == 1 ? LIBRARY + BEFORE - turn : turn;
}

double now(void)
{
    struct timespec time;
    clock_gettime(CLOCK_MONOTONIC, &time);
    return 1e9 * (double)time.tv_sec + (double)time.tv_nsec;
}

static int order(const void *a, const void *b)
{
    double x = *(const double *)a, y = *(const double *)b;
    return (x > y) - (x < y);
}

double median(double *samples, int count)
{
    qsort(samples, (size_t)count, sizeof *samples, order);
    return samples[count / 2];
}

/* The documents begin with the declaration that write puts there, so that libxml2 writes the same text. */
#define DECLARATION "<?xml version=\"1.0\" encoding=\"UTF-8\"?>\n"

size_t tree_document(char *out, unsigned nodes)
{
    char *at = out + sprintf(out, DECLARATION "<ropeway>");
    unsigned left = nodes - 2;
    for (; left >= 5; left -= 5)
        at += sprintf(at, "<drive id=\"%u\"><speed>6.25</speed></drive>", left);
    for (; left > 0; left--)
        at += sprintf(at, "<ramp/>");
    at += sprintf(at, "</ropeway>");
    return (size_t)(at - out);
}

size_t long_document(char *out)
{
    static const char carrier[] =
        "<carrier-of-detachable-chairlift identification-of-the-carrier = \"Line %03u &amp; northern valley, 2nd\"\n"
        "                                 position-on-the-hauling-rope  = '1,204.75 metres behind the drive'\n"
        "                                 >"
        "<greatest-speed-of-the-carrier  >6.25 m/s, less if wind &gt; 12 m/s</greatest-speed-of-the-carrier  >"
        "<distance-to-the-carrier-in-front  ></distance-to-the-carrier-in-front  >"
        "<state-of-the-grip-upon-the-cable  ></state-of-the-grip-upon-the-cable  >"
        "<state-of-the-doors-of-the-cabins  ></state-of-the-doors-of-the-cabins  >"
        "<number-of-the-seats-in-the-cabin  ></number-of-the-seats-in-the-cabin  >"
        "<passengers-who-are-in-the-cabins  ></passengers-who-are-in-the-cabins  >"
        "<weight-of-the-carrier-when-empty  ></weight-of-the-carrier-when-empty  >"
        "</carrier-of-detachable-chairlift\n>";
    enum { CARRIERS = 78 }; /* 13 nodes each */
    char *at = out + sprintf(out, DECLARATION "<ropeway-of-the-northern-station>");
    for (unsigned i = 0; i < CARRIERS; i++)
        at += sprintf(at, carrier, i);
    at += sprintf(at, "</ropeway-of-the-northern-station>");
    return (size_t)(at - out);
}

static void stop(const char *engine, const char *what, const char *wanted, noodlefen_answer answer)
{
    fprintf(stderr, "%s: %s is not %s: outcome %u, cause %u\n", engine, what, wanted, (unsigned)(answer & 0xFF), noodlefen_cause(answer));
    exit(1);
}

void must_grant(const char *engine, const char *what, noodlefen_answer answer)
{
    if (!noodlefen_granted(answer))
        stop(engine, what, "granted", answer);
}

void must_wait(const char *engine, const char *what, noodlefen_answer answer)
{
    if (!noodlefen_waits(answer))
        stop(engine, what, "a wait", answer);
}

void must_refuse(const char *engine, const char *what, unsigned cause, noodlefen_answer answer)
{
    if (answer != (NOODLEFEN_REFUSED | (noodlefen_answer)cause << 8))
        stop(engine, what, "refused as expected", answer);
}

/* A library of another state size would be timed on other work. The one before may be of version 3, which has the same calls but count_of
 * and keeps no counts. */
static void check_state_size(int e)
{
    enum { BYTES_OF_VERSION_3 = 112688 };
    static uint8_t state[NOODLEFEN_STATE_BYTES];
    const struct timed *engine = &timed_engines[e];
    size_t least = engine->count_of == NULL ? BYTES_OF_VERSION_3 : NOODLEFEN_STATE_BYTES;
    must_grant(engine->name, "start", engine->start(state, sizeof state));
    must_refuse(engine->name, "start on a byte less", NOODLEFEN_TOO_SHORT, engine->start(state, least - 1));
}

int main(int count, char **arguments)
{
    for (int e = LIBRARY; e < timed_count; e++)
        check_state_size(e);
    time_steps();
    time_xml(count > 1 ? arguments[1] : "../host/settings.xml");
    return 0;
}
