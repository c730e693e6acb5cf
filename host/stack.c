/*
 * stack.c: how much stack each call of the library takes. A call runs on a thread whose stack was filled with a pattern;
 * the deepest byte that has changed tells. A thread that makes no call is taken off.
 */
#define _POSIX_C_SOURCE 200809L
#include <pthread.h>
#include <stdio.h>
#include <stdlib.h>
#include <string.h>

#include "noodlefen.h"

#define STACK_BYTES (1u << 20)
#define PATTERN 0xA5

static uint8_t state[NOODLEFEN_STATE_BYTES];
static uint8_t xml[NOODLEFEN_XML_BYTES];
static uint8_t out[NOODLEFEN_XML_BYTES];
static uint8_t cells[NOODLEFEN_NODES * NOODLEFEN_CELL_BYTES];
static size_t xml_length;
static noodlefen_answer answer;

static const uint8_t *bytes(const char *text) { return (const uint8_t *)text; }

static void *nothing(void *unused) { return unused; }
static void *start(void *unused) { answer = noodlefen_start(state, sizeof state); return unused; }
static void *load(void *unused) { answer = noodlefen_load(state, sizeof state, xml, xml_length); return unused; }
static void *write(void *unused) { answer = noodlefen_write(state, sizeof state, out, sizeof out); return unused; }
static void *count_of(void *unused) { answer = noodlefen_count_of(state, sizeof state, 900); return unused; }
static void *begin(void *unused) { answer = noodlefen_begin(state, sizeof state, 1); return unused; }
static void *commit(void *unused) { answer = noodlefen_commit(state, sizeof state, 1); return unused; }
static void *abort_it(void *unused) { answer = noodlefen_abort(state, sizeof state, 1); return unused; }
static void *test(void *unused) { answer = noodlefen_test(state, sizeof state, 1, 900); return unused; }
static void *child(void *unused) { answer = noodlefen_child(state, sizeof state, 1, 1, 1); return unused; }
static void *read(void *unused) { answer = noodlefen_read(state, sizeof state, 1, 900, out, sizeof out); return unused; }
static void *update(void *unused) { answer = noodlefen_update(state, sizeof state, 1, 900, bytes("pace"), 4); return unused; }
static void *delete(void *unused) { answer = noodlefen_delete(state, sizeof state, 1, 900); return unused; }
static void *test_tree(void *unused) { answer = noodlefen_test_tree(state, sizeof state, 1, 0, out, sizeof out); return unused; }

static void *insert(void *unused)
{
    answer = noodlefen_insert(state, sizeof state, 1, 4000000000u, 2, bytes("lamp"), 4, 899, 1);
    return unused;
}

static void *read_tree(void *unused)
{
    answer = noodlefen_read_tree(state, sizeof state, 1, 0, out, sizeof out, cells, sizeof cells);
    return unused;
}

static void *rename_tree(void *unused)
{
    answer = noodlefen_rename_tree(state, sizeof state, 1, 0, bytes("e"), 1, bytes("f"), 1);
    return unused;
}

/* Of sixteen transactions each has updated the element 100 + t and asks for that of the next, the last for that of the first. */
static noodlefen_answer ask(uint32_t t)
{
    return noodlefen_update(state, sizeof state, t, 101 + t % NOODLEFEN_TRANSACTIONS, bytes("pace"), 4);
}

static void *wait_last(void *unused) { answer = ask(15); return unused; }
static void *close_ring(void *unused) { answer = ask(16); return unused; }

static void make_chain(void)
{
    for (uint32_t t = 1; t <= NOODLEFEN_TRANSACTIONS; t++) {
        noodlefen_begin(state, sizeof state, t);
        noodlefen_update(state, sizeof state, t, 100 + t, bytes("speed"), 5);
    }
    for (uint32_t t = 1; t < 15; t++)
        ask(t);
}

static size_t depth_of(void *(*call)(void *))
{
    uint8_t *stack;
    pthread_attr_t attributes;
    pthread_t thread;
    size_t untouched = 0;
    if (posix_memalign((void **)&stack, 4096, STACK_BYTES) != 0)
        exit(2);
    memset(stack, PATTERN, STACK_BYTES);
    pthread_attr_init(&attributes);
    if (pthread_attr_setstack(&attributes, stack, STACK_BYTES) != 0 || pthread_create(&thread, &attributes, call, NULL) != 0)
        exit(2);
    pthread_join(thread, NULL);
    while (untouched < STACK_BYTES && stack[untouched] == PATTERN)
        untouched++;
    pthread_attr_destroy(&attributes);
    free(stack);
    return STACK_BYTES - untouched;
}

/* The deepest tree: 1,023 elements, each in the one before. */
static void make_deepest(void)
{
    for (int i = 0; i < NOODLEFEN_NODES - 1; i++) {
        memcpy(xml + xml_length, "<e>", 3);
        xml_length += 3;
    }
    for (int i = 0; i < NOODLEFEN_NODES - 1; i++) {
        memcpy(xml + xml_length, "</e>", 4);
        xml_length += 4;
    }
}

static size_t thread, most;

static void measure(const char *name, void *(*call)(void *))
{
    size_t depth = depth_of(call);
    depth = depth > thread ? depth - thread : 0;
    most = depth > most ? depth : most;
    printf("%-12s %-8s %6lu bytes\n", name, noodlefen_granted(answer) ? "granted" : noodlefen_waits(answer) ? "waits" : "refused",
           (unsigned long)depth);
}

int main(void)
{
    static const struct {
        const char *name;
        void *(*call)(void *);
    } calls[] = {
        {"start", start}, {"load", load}, {"write", write}, {"count_of", count_of}, {"begin", begin}, {"test", test}, {"child", child},
        {"read", read}, {"test_tree", test_tree}, {"read_tree", read_tree}, {"update", update}, {"rename_tree", rename_tree},
        {"delete", delete}, {"abort", abort_it}, {"begin", begin}, {"delete", delete}, {"commit", commit}, {"begin", begin},
        {"insert", insert}, {"commit", commit},
    };
    thread = depth_of(nothing);
    make_deepest();
    for (size_t i = 0; i < sizeof calls / sizeof *calls; i++)
        measure(calls[i].name, calls[i].call);
    make_chain();
    measure("update", wait_last);
    measure("update", close_ring);
    printf("at most %lu bytes\n", (unsigned long)most);
    return 0;
}
