/*
 * outside.c: compares with parsers made by others. outside ROUNDS [SEED]
 *
 * First every character (characters.c). Then each round loads a random document, changes it, and writes it: expat and libxml2 must read
 * the same tree from what was written. Then a random input, mostly damaged: whatever load grants, both must read as the same tree;
 * whatever load refuses for 4 and one of them reads, must hold something that the subset has not. No byte is left out of these
 * comparisons. A document with names that only the Fifth Edition of XML 1.0 has is compared with libxml2 alone: expat has the names of the
 * Fourth.
 */
#include <stdio.h>
#include <stdlib.h>
#include <string.h>
#include <time.h>

#include <libxml/parser.h>

#include "../compare/document.h"
#include "characters.h"
#include "flat.h"

static unsigned long passed, failed, written, not_written, all_read, all_refused, beyond, limits, fifth;

static void verdict(int right, const char *what, const char *xml, size_t length)
{
    if (right) {
        passed++;
        return;
    }
    failed++;
    printf("FAILED: %s: %.*s\n", what, length < 400 ? (int)length : 400, xml);
}

/* What the parsers read, compared with what the engine holds. */
static void check_read(const struct engine *engine, void *e, const char *xml, size_t length)
{
    struct flat held = {NULL, 0, 0}, expat = {NULL, 0, 0}, libxml2 = {NULL, 0, 0};
    flat_of_engine(&held, engine, e);
    if (of_fourth_edition(xml, length))
        verdict(flat_by_expat(&expat, xml, length) && flat_equal(&held, &expat), "expat reads no or another tree", xml, length);
    else
        fifth++;
    verdict(flat_by_libxml2(&libxml2, xml, length) && flat_equal(&held, &libxml2), "libxml2 reads no or another tree", xml, length);
    flat_free(&held);
    flat_free(&expat);
    flat_free(&libxml2);
}

/* What the engine wrote, compared with what it holds. */
static void check_written(const struct engine *engine, void *e)
{
    static uint8_t out[NOODLEFEN_XML_BYTES];
    noodlefen_answer answer = engine->write(e, out, sizeof out);
    if (!noodlefen_granted(answer)) {
        not_written++;
        return;
    }
    written++;
    check_read(engine, e, (const char *)out, noodlefen_value(answer));
}

/* Some changes by one transaction; refused ones do no harm. */
static void change(const struct engine *engine, void *e, struct random *r, unsigned nodes)
{
    uint8_t a[64], b[64];
    engine->begin(e, 1);
    for (unsigned i = below(r, 12); i > 0; i--) {
        noodlefen_node n = below(r, nodes + 4);
        uint32_t kind = 2 + below(r, 3);
        size_t a_length = kind == 4 ? random_text(r, a) : random_name(r, a);
        switch (below(r, 4)) {
        case 0: engine->update(e, 1, n, a, a_length); break;
        case 1: if (n > 1) engine->delete(e, 1, n); break;
        case 2: engine->insert(e, 1, nodes + i + (below(r, 3) << 16), kind, a, a_length, n, 1 + below(r, 3)); break;
        case 3: engine->rename_tree(e, 1, n, a, a_length, b, random_name(r, b)); break;
        }
    }
    engine->commit(e, 1);
}

static void round_of_writing(const struct engine *engine, struct random *r, uint8_t *xml)
{
    void *e = engine->make();
    size_t length = once_in(r, 20) ? random_limit_document(r, xml) : random_document(r, xml, 3 + below(r, 60), 0);
    engine->start(e);
    noodlefen_answer answer = engine->load(e, xml, length);
    if (noodlefen_granted(answer)) {
        check_written(engine, e);
        change(engine, e, r, (unsigned)noodlefen_value(answer));
        check_written(engine, e);
    }
    engine->drop(e);
}

static void round_of_reading(const struct engine *engine, struct random *r, uint8_t *bytes)
{
    void *e = engine->make();
    struct flat libxml2 = {NULL, 0, 0};
    size_t length = random_document(r, bytes, 2 + below(r, 20), once_in(r, 4));
    if (!once_in(r, 4))
        length = random_damage(r, bytes, length);
    const char *xml = (const char *)bytes;
    engine->start(e);
    noodlefen_answer answer = engine->load(e, bytes, length);
    if (noodlefen_granted(answer)) {
        check_read(engine, e, xml, length);
        all_read++;
    } else if (noodlefen_cause(answer) != NOODLEFEN_GRAMMAR) {
        limits++; /* the parsers have no such limits */
    } else if (!flat_by_libxml2(&libxml2, xml, length) && !reads_by_expat(xml, length)) {
        all_refused++;
        passed++;
    } else {
        verdict(beyond_subset(xml, length), "load refuses it, and a parser reads it", xml, length);
        beyond++;
    }
    flat_free(&libxml2);
    engine->drop(e);
}

int main(int count, char **arguments)
{
    unsigned long rounds = count > 1 ? strtoul(arguments[1], NULL, 10) : 10000;
    uint64_t seed = count > 2 ? strtoull(arguments[2], NULL, 10) : (uint64_t)time(NULL);
    struct random random = {seed};
    uint8_t *xml = malloc(DOCUMENT_ROOM);
    if (xml == NULL)
        abort();
    printf("%s beside expat and libxml2, seed %llu\n", tested_engine->name, (unsigned long long)seed);
    struct checked_characters characters = {0, 0, 0, 0};
    check_characters(tested_engine, &characters);
    printf("characters: %lu read by load and libxml2 (%lu of them names that expat does not read), %lu refused or left out\n",
           characters.granted, characters.of_fifth_edition, characters.passed + characters.failed - characters.granted);
    passed = characters.passed;
    failed = characters.failed;
    for (unsigned long i = 0; i < rounds && failed < 10; i++) {
        round_of_writing(tested_engine, &random, xml);
        for (int j = 0; j < 8; j++)
            round_of_reading(tested_engine, &random, xml);
        if ((i + 1) % (rounds / 5 + 1) == 0)
            printf("%lu of %lu rounds, %lu failed\n", i + 1, rounds, failed);
    }
    free(xml);
    xmlCleanupParser();
    printf("written documents: %lu read by the parsers (%lu could not be written)\n", written, not_written);
    printf("inputs: %lu read by load and the parsers, %lu refused by all, %lu beyond the subset, %lu beyond the limits\n", all_read,
           all_refused, beyond, limits);
    printf("of those that were read %lu have names of the Fifth Edition, which expat does not read\n", fifth);
    printf("%lu passed, %lu failed\n", passed, failed);
    return failed != 0;
}
