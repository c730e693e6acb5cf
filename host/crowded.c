/*
 * crowded.c: how long T and count_of take at worst: on 1,024 nodes whose numbers all stand in one bucket of the form check, which every
 * call makes once. No load gives such numbers, but a panel that means harm can insert them. Last line 'N passed, 0 failed'.
 */
#define _POSIX_C_SOURCE 199309L
#include <stdio.h>
#include <stdlib.h>
#include <time.h>

#include "noodlefen.h"

enum { MOST_MICROSECONDS = 5000, SAMPLES = 20 };

static uint8_t state[NOODLEFEN_STATE_BYTES];

static void must(noodlefen_answer answer)
{
    if (!noodlefen_granted(answer)) {
        printf("a call is not granted: outcome %u, cause %u\n0 passed, 1 failed\n", (unsigned)(answer & 0xFF), noodlefen_cause(answer));
        exit(1);
    }
}

/* The bucket of a number, as in crates/form/src/numbers.rt. The document, number 0, is in bucket 0. */
static uint64_t bucket(noodlefen_node number)
{
    return (uint64_t)number * 2654435761u / 2097152 % 2048;
}

/* The number behind this one: the next, or the next of bucket 0. */
static noodlefen_node next_number(noodlefen_node number, int crowded)
{
    do {
        number++;
    } while (crowded && bucket(number) != 0);
    return number;
}

/* A document of 1,024 nodes, committed, with transaction 1 open. Answers the last number. */
static noodlefen_node build(int crowded)
{
    noodlefen_node root = next_number(0, crowded), last = root;
    const uint8_t *name = (const uint8_t *)"a";
    must(noodlefen_start(state, sizeof state));
    must(noodlefen_begin(state, sizeof state, 1));
    must(noodlefen_insert(state, sizeof state, 1, root, NOODLEFEN_ELEMENT, name, 1, 0, 1));
    for (int nodes = 2; nodes < NOODLEFEN_NODES; nodes++) {
        last = next_number(last, crowded);
        must(noodlefen_insert(state, sizeof state, 1, last, NOODLEFEN_ELEMENT, name, 1, root, 1));
    }
    must(noodlefen_commit(state, sizeof state, 1));
    must(noodlefen_begin(state, sizeof state, 1));
    return last;
}

static double now(void)
{
    struct timespec time;
    clock_gettime(CLOCK_MONOTONIC, &time);
    return 1e6 * (double)time.tv_sec + 1e-3 * (double)time.tv_nsec;
}

static noodlefen_answer test(noodlefen_node n) { return noodlefen_test(state, sizeof state, 1, n); }
static noodlefen_answer count_of(noodlefen_node n) { return noodlefen_count_of(state, sizeof state, n); }

/* The least of some times, in microseconds: what else the machine does can only add to it. */
static double time_of(noodlefen_answer (*call)(noodlefen_node), noodlefen_node n)
{
    double least = 1e18;
    for (int i = 0; i < SAMPLES; i++) {
        double from = now();
        noodlefen_answer answer = call(n);
        double taken = now() - from;
        must(answer);
        least = taken < least ? taken : least;
    }
    return least;
}

static int passed, failed;

static void check(int right, const char *what)
{
    passed += right;
    failed += !right;
    if (!right)
        printf("FAILED: %s\n", what);
}

static void compare(const char *name, noodlefen_answer (*call)(noodlefen_node))
{
    double plain = time_of(call, build(0)), crowded = time_of(call, build(1));
    printf("%-8s on 1,024 nodes numbered from 0: %.1f microseconds\n", name, plain);
    printf("%-8s on 1,024 nodes of one bucket:   %.1f microseconds, at most %d\n", name, crowded, MOST_MICROSECONDS);
    check(crowded <= MOST_MICROSECONDS, "too long");
    check(crowded >= 4 * plain, "hardly longer, so they share no bucket: has its hash changed?");
}

int main(void)
{
    compare("T", test);
    compare("count_of", count_of);
    printf("%d passed, %d failed\n", passed, failed);
    return failed != 0;
}
