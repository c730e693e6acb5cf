/* compare.c: makes the same random calls on two engines and compares every answer and every lent byte; at each end of a transaction also
 * the counts of all nodes, and now and then what is left when all that is open commits, in a random order. */
#include <stdio.h>
#include <stdlib.h>
#include <string.h>
#include <time.h>

#include "../reference/reference.h"
#include "call.h"
#include "generate.h"
#include "reached.h"

enum { MOST_FAILURES = 10, MOST_HISTORY = 512, MANY_NODES = 128 };

struct side {
    const struct engine *engine;
    void *e;
    struct lent lent;
};

static struct side left, right;
static unsigned long passed, failed;

/* The calls of this episode so far, to be shown if one fails. */
static struct call history[MOST_HISTORY];
static unsigned history_length;

static void renew(struct side *side)
{
    if (side->e != NULL)
        side->engine->drop(side->e);
    side->e = side->engine->make();
}

static void remember(const struct call *call)
{
    if (history_length == MOST_HISTORY)
        return;
    history[history_length] = *call;
    if (call->what == CALL_LOAD) {
        uint8_t *xml = malloc(call->xml_length + 1);
        if (xml == NULL)
            abort();
        memcpy(xml, call->xml, call->xml_length);
        history[history_length].xml = xml;
    }
    history_length++;
}

static void forget_history(void)
{
    for (unsigned i = 0; i < history_length; i++)
        if (history[i].what == CALL_LOAD)
            free((void *)history[i].xml);
    history_length = 0;
}

static void report(const char *what, const struct call *call, noodlefen_answer one, noodlefen_answer other)
{
    failed++;
    if (failed == 1)
        for (unsigned i = 0; i < history_length; i++) {
            printf("    ");
            print_call(stdout, &history[i]);
            printf("\n");
        }
    printf("FAILED, %s: ", what);
    print_call(stdout, call);
    printf("\n    %s: ", left.engine->name);
    print_answer(stdout, one);
    printf("\n    %s: ", right.engine->name);
    print_answer(stdout, other);
    printf("\n");
}

/* Whether both remember the same waits. */
static int same_sets(void)
{
    for (uint32_t t = 1; t <= NOODLEFEN_TRANSACTIONS; t++)
        if (left.engine->remembered(left.e, t) != right.engine->remembered(right.e, t))
            return 0;
    return 1;
}

/* Makes the call on both sides; answers whether they agree. */
static int agree(const struct call *call, noodlefen_answer *answer)
{
    lent_fill(&left.lent, call);
    lent_fill(&right.lent, call);
    noodlefen_answer one = make_call(left.engine, left.e, call, &left.lent);
    noodlefen_answer other = make_call(right.engine, right.e, call, &right.lent);
    const char *wrong = NULL;
    if (one != other)
        wrong = "other answer";
    else if (!lent_equal(&left.lent, &right.lent, call))
        wrong = "other bytes in a lent buffer";
    else if (!lent_kept(&left.lent, call, one) || !lent_kept(&right.lent, call, other))
        wrong = "bytes behind the answer changed";
    else if (!same_sets())
        wrong = "another set remembered";
    else if (left.engine->commits(left.e) != right.engine->commits(right.e))
        wrong = "another number of commits";
    else if (left.engine->faults(left.e) != 0)
        wrong = "the first engine's own check";
    else if (right.engine->faults(right.e) != 0)
        wrong = "the second engine's own check";
    if (wrong != NULL)
        report(wrong, call, one, other);
    *answer = one;
    return wrong == NULL;
}

static void note(const struct call *call, noodlefen_answer answer)
{
    reached_count(call, answer, &left.lent);
    reached_rings(call, answer, reference_ring(left.e));
    reached_counts(call, answer, left.e);
}

/* Makes a call that the generator need not learn of. */
static int agree_besides(const struct call *call)
{
    noodlefen_answer answer;
    int well = agree(call, &answer);
    if (well)
        note(call, answer);
    return well;
}

/* The counts of all nodes held, those that open transactions inserted or deleted too; of many nodes only now and then, since most of the
 * time would go into it otherwise. */
static int agree_on_counts(void)
{
    static noodlefen_node numbers[NOODLEFEN_NODES];
    static unsigned turn;
    size_t count = reference_numbers(left.e, numbers);
    struct call call = {.what = CALL_COUNT};
    if (count > MANY_NODES && turn++ % 4 != 0)
        return 1;
    for (size_t i = 0; i < count; i++) {
        call.n = numbers[i];
        if (!agree_besides(&call))
            return 0;
    }
    return 1;
}

/* Now and then, at call i: the whole committed document, and what is open finishing in some order, the oftener the more of it has changed
 * something. */
static int agree_on_documents(struct generator *g, unsigned long i)
{
    static const unsigned every[] = {16, 16, 4, 2, 1};
    struct call write = {.what = CALL_WRITE, .room = NOODLEFEN_XML_BYTES}, finish;
    generate_finish(g, &finish);
    unsigned often = every[finish.changing < 4 ? finish.changing : 4];
    return (i % 8 != 0 || agree_besides(&write)) && (i % often != 0 || agree_besides(&finish));
}

static void run(unsigned long calls, uint64_t seed)
{
    static struct generator g;
    struct call call;
    noodlefen_answer answer;
    generator_init(&g, seed);
    for (unsigned long i = 0; i < calls && failed < MOST_FAILURES; i++) {
        if (generator_begins(&g)) {
            forget_history();
            renew(&left);
            renew(&right);
        }
        generate(&g, &call);
        int well = agree(&call, &answer);
        remember(&call);
        if (well) {
            int ended = (call.what == CALL_COMMIT || call.what == CALL_ABORT) && noodlefen_granted(answer);
            generator_learn(&g, &call, answer);
            note(&call, answer);
            well = (!ended || agree_on_counts()) && agree_on_documents(&g, i);
        }
        if (well)
            passed++;
        else
            g.calls_left = 0;
        if ((i + 1) % (calls / 10 + 1) == 0) {
            printf("%lu of %lu calls, %lu failed\n", i + 1, calls, failed);
            fflush(stdout);
        }
    }
    forget_history();
    generator_free(&g);
}

int main(int count, char **arguments)
{
    if (count < 2) {
        fprintf(stderr, "compare CALLS [SEED]\n");
        return 2;
    }
    unsigned long calls = strtoul(arguments[1], NULL, 10);
    uint64_t seed = count > 2 ? strtoull(arguments[2], NULL, 10) : (uint64_t)time(NULL);
    left.engine = &reference_engine;
    right.engine = tested_engine;
    left.lent = lent_new();
    right.lent = lent_new();
    printf("%s against %s, seed %llu\n", left.engine->name, right.engine->name, (unsigned long long)seed);
    run(calls, seed);
    left.engine->drop(left.e);
    right.engine->drop(right.e);
    lent_free(&left.lent);
    lent_free(&right.lent);
    reached_print();
    if (failed == 0)
        failed += reached_missing(calls);
    printf("%lu passed, %lu failed\n", passed, failed);
    return failed != 0;
}
