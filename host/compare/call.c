#include "call.h"

#include <stdlib.h>
#include <string.h>

enum { BYTES_ROOM = 1 << 17, CELLS_ROOM = 1 << 16 };

struct lent lent_new(void)
{
    struct lent lent = {malloc(BYTES_ROOM), malloc(CELLS_ROOM)};
    if (lent.bytes == NULL || lent.cells == NULL)
        abort();
    return lent;
}

void lent_free(struct lent *lent)
{
    free(lent->bytes);
    free(lent->cells);
}

/* The pattern of all lent memory. It is made once, since a third of the time would go into it otherwise. */
static const uint8_t *pattern(void)
{
    static uint8_t bytes[BYTES_ROOM];
    if (bytes[0] == 0)
        for (size_t i = 0; i < BYTES_ROOM; i++)
            bytes[i] = (uint8_t)(0xA5 ^ i * 7);
    return bytes;
}

static void fill(uint8_t *bytes, size_t length)
{
    memcpy(bytes, pattern(), length);
}

static int filled(const uint8_t *bytes, size_t from, size_t length)
{
    return from >= length || memcmp(bytes + from, pattern() + from, length - from) == 0;
}

void lent_fill(struct lent *lent, const struct call *call)
{
    fill(lent->bytes, call->room + GUARD_BYTES);
    fill(lent->cells, call->cells_room + GUARD_BYTES);
}

int lent_equal(const struct lent *one, const struct lent *other, const struct call *call)
{
    return memcmp(one->bytes, other->bytes, call->room + GUARD_BYTES) == 0
        && memcmp(one->cells, other->cells, call->cells_room + GUARD_BYTES) == 0;
}

int lent_kept(const struct lent *lent, const struct call *call, noodlefen_answer answer)
{
    size_t answered = 0, answered_cells = 0;
    if (noodlefen_granted(answer)) {
        uint64_t value = noodlefen_value(answer);
        if (call->what == CALL_R || call->what == CALL_WRITE || call->what == CALL_FINISH)
            answered = value;
        if (call->what == CALL_TT || call->what == CALL_RR)
            answered = NOODLEFEN_NUMBER_BYTES * value;
        if (call->what == CALL_RR)
            answered_cells = NOODLEFEN_CELL_BYTES * value;
    }
    return filled(lent->bytes, answered, call->room + GUARD_BYTES) && filled(lent->cells, answered_cells, call->cells_room + GUARD_BYTES);
}

noodlefen_answer make_call(const struct engine *engine, void *e, const struct call *c, struct lent *lent)
{
    switch (c->what) {
    case CALL_START: return engine->start(e);
    case CALL_LOAD: return engine->load(e, c->xml, c->xml_length);
    case CALL_WRITE: return engine->write(e, lent->bytes, c->room);
    case CALL_COUNT: return engine->count_of(e, c->n);
    case CALL_COMMITS: engine->put_commits(e, c->commits); return 0; /* granted */
    case CALL_FINISH: return engine->finish(e, c->order, c->count, lent->bytes, c->room);
    case CALL_BEGIN: return engine->begin(e, c->t);
    case CALL_COMMIT: return engine->commit(e, c->t);
    case CALL_ABORT: return engine->abort(e, c->t);
    case CALL_T: return engine->test(e, c->t, c->n);
    case CALL_C: return engine->child(e, c->t, c->n, c->k);
    case CALL_R: return engine->read(e, c->t, c->n, lent->bytes, c->room);
    case CALL_U: return engine->update(e, c->t, c->n, c->a, c->a_length);
    case CALL_D: return engine->delete(e, c->t, c->n);
    case CALL_I: return engine->insert(e, c->t, c->m, c->kind, c->a, c->a_length, c->n, c->k);
    case CALL_TT: return engine->test_tree(e, c->t, c->n, lent->bytes, c->room);
    case CALL_RR: return engine->read_tree(e, c->t, c->n, lent->bytes, c->room, lent->cells, c->cells_room);
    case CALL_UU: return engine->rename_tree(e, c->t, c->n, c->a, c->a_length, c->b, c->b_length);
    case CALLS: break;
    }
    abort();
}

const char *call_word(enum call_name what)
{
    static const char *const words[CALLS] = {"start", "load", "write", "count", "commits", "finish", "begin", "commit", "abort",
                                             "T", "C", "R", "U", "D", "I", "TT", "RR", "UU"};
    return words[what];
}

static void print_bytes(FILE *file, const uint8_t *bytes, size_t length)
{
    fputs(" \"", file);
    for (size_t i = 0; i < length && i < 300; i++)
        if (bytes[i] >= 0x20 && bytes[i] < 0x7F && bytes[i] != '\\')
            fputc(bytes[i], file);
        else
            fprintf(file, "\\x%02X", bytes[i]);
    fputs(length > 300 ? "...\"" : "\"", file);
}

void print_call(FILE *file, const struct call *c)
{
    if (c->what > CALL_FINISH)
        fprintf(file, "t%u ", (unsigned)c->t);
    fputs(call_word(c->what), file);
    switch (c->what) {
    case CALL_LOAD: fprintf(file, " %lu bytes", (unsigned long)c->xml_length); print_bytes(file, c->xml, c->xml_length); break;
    case CALL_WRITE: fprintf(file, " room %lu", (unsigned long)c->room); break;
    case CALL_COMMITS: fprintf(file, " %u", (unsigned)c->commits); break;
    case CALL_FINISH:
        for (unsigned i = 0; i < c->count; i++)
            fprintf(file, " t%u", (unsigned)c->order[i]);
        break;
    case CALL_COUNT:
    case CALL_T:
    case CALL_D: fprintf(file, " %u", (unsigned)c->n); break;
    case CALL_C: fprintf(file, " %u %u", (unsigned)c->n, (unsigned)c->k); break;
    case CALL_R:
    case CALL_TT: fprintf(file, " %u room %lu", (unsigned)c->n, (unsigned long)c->room); break;
    case CALL_RR: fprintf(file, " %u room %lu %lu", (unsigned)c->n, (unsigned long)c->room, (unsigned long)c->cells_room); break;
    case CALL_U: fprintf(file, " %u", (unsigned)c->n); print_bytes(file, c->a, c->a_length); break;
    case CALL_I:
        fprintf(file, " %u kind %u", (unsigned)c->m, (unsigned)c->kind);
        print_bytes(file, c->a, c->a_length);
        fprintf(file, " under %u place %u", (unsigned)c->n, (unsigned)c->k);
        break;
    case CALL_UU:
        fprintf(file, " %u", (unsigned)c->n);
        print_bytes(file, c->a, c->a_length);
        print_bytes(file, c->b, c->b_length);
        break;
    default: break;
    }
}

void print_answer(FILE *file, noodlefen_answer answer)
{
    unsigned long value = (unsigned long)noodlefen_value(answer);
    if (noodlefen_granted(answer))
        fprintf(file, "granted %lu", value);
    else if (noodlefen_waits(answer))
        fprintf(file, "waits 0x%lX", value);
    else
        fprintf(file, "refused %u, value %lu", noodlefen_cause(answer), value);
    if (answer >> 16 > 0xFFFFFFFFu)
        fprintf(file, " (kind %u, number %u)", noodlefen_kind(answer), (unsigned)noodlefen_number(answer));
}
