/* engine_library.c: the functions of noodlefen.h; state and buffers of every call have exact lengths between guard pages. */
#include <stdlib.h>
#include <string.h>

#include "engine.h"
#include "fence.h"

enum { MOST_STATE = 1048576, MOST_BUFFER = 1 << 17, MOST_BUFFERS = 2 };
/* In the state, by docs/STATE.md: the commits so far, low byte first, and the remembered sets by transaction. */
enum { AT_COMMITS = 12, COMMITS_BYTES = 4, AT_SETS = 116752, SET_BYTES = 2 };

struct library {
    struct fence fence;
    uint8_t *state;   /* within the fence */
    uint8_t *before;  /* the fence's bytes as the last call left them */
    size_t length;
    unsigned long faults;
};

/* The buffers of the call that is being made. */
static struct buffer {
    struct fence fence;
    const uint8_t *given; /* an input, or NULL */
    uint8_t *lent;        /* an output, or NULL */
    uint8_t *bytes;       /* its copy within the fence */
    size_t length;
} buffers[MOST_BUFFERS];
static unsigned in_use;

/* Whether the call that is being made only reads the state. */
static int only_reads;

static uint8_t *within(const struct fence *fence, size_t length)
{
    static unsigned turn;
    return turn++ % 4 == 3 ? fence_begin(fence, length) : fence_end(fence, length);
}

static struct library *with_length(size_t length)
{
    struct library *l = calloc(1, sizeof *l);
    if (l == NULL)
        abort();
    l->length = length;
    l->fence = fence_new(l->length);
    l->state = within(&l->fence, l->length);
    l->before = malloc(l->fence.size);
    if (l->before == NULL)
        abort();
    memset(l->fence.bytes, 0xA5, l->fence.size);
    memcpy(l->before, l->fence.bytes, l->fence.size);
    for (int i = 0; i < MOST_BUFFERS && buffers[i].fence.bytes == NULL; i++)
        buffers[i].fence = fence_new(MOST_BUFFER);
    return l;
}

/* Mostly the exact need, at times the size that is never too short. */
static void *make(void)
{
    static unsigned made;
    return with_length(made++ % 8 == 7 ? MOST_STATE : NOODLEFEN_STATE_BYTES);
}

/* The same state bytes within a fence of their own. */
static struct library *copy_of(const struct library *l)
{
    struct library *copy = with_length(l->length);
    memcpy(copy->state, l->state, l->length);
    memcpy(copy->before, copy->fence.bytes, copy->fence.size);
    return copy;
}

static void drop(void *e)
{
    struct library *l = e;
    fence_free(&l->fence);
    free(l->before);
    free(l);
}

static unsigned long faults(void *e) { return ((struct library *)e)->faults; }

static struct buffer *copied(const uint8_t *bytes, size_t length)
{
    struct buffer *buffer = &buffers[in_use++];
    buffer->given = NULL;
    buffer->lent = NULL;
    buffer->bytes = within(&buffer->fence, length);
    buffer->length = length;
    if (length > 0)
        memcpy(buffer->bytes, bytes, length);
    return buffer;
}

static const uint8_t *give(const uint8_t *bytes, size_t length)
{
    struct buffer *buffer = copied(bytes, length);
    buffer->given = bytes;
    return buffer->bytes;
}

static uint8_t *lend(uint8_t *bytes, size_t length)
{
    struct buffer *buffer = copied(bytes, length);
    buffer->lent = bytes;
    return buffer->bytes;
}

static unsigned remembered(void *e, uint32_t t)
{
    const uint8_t *set = ((struct library *)e)->state + AT_SETS + SET_BYTES * (t - 1);
    return set[0] | (unsigned)set[1] << 8;
}

static uint32_t commits(void *e)
{
    const uint8_t *bytes = ((struct library *)e)->state + AT_COMMITS;
    uint32_t count = 0;
    for (int i = COMMITS_BYTES; i > 0; i--)
        count = count << 8 | bytes[i - 1];
    return count;
}

static void put_commits(void *e, uint32_t count)
{
    struct library *l = e;
    for (int i = 0; i < COMMITS_BYTES; i++)
        l->state[AT_COMMITS + i] = (uint8_t)(count >> 8 * i & 0xFF);
    memcpy(l->before, l->fence.bytes, l->fence.size);
}

/* Whether all bytes within the fence but these of the state are as they were. */
static int kept_but(const struct library *l, size_t offset, size_t length)
{
    size_t from = (size_t)(l->state - l->fence.bytes) + offset, to = from + length;
    return memcmp(l->fence.bytes, l->before, from) == 0 && memcmp(l->fence.bytes + to, l->before + to, l->fence.size - to) == 0;
}

/* Whether a call of t kept what it may not change: a granted one may change the state if it does not only read it, one that waits the set
 * of t, which it answers. */
static int state_kept(struct library *l, uint32_t t, noodlefen_answer answer)
{
    if (!noodlefen_waits(answer))
        return kept_but(l, 0, noodlefen_granted(answer) && !only_reads ? l->length : 0);
    return t >= 1 && t <= NOODLEFEN_TRANSACTIONS && remembered(l, t) == noodlefen_value(answer)
        && kept_but(l, AT_SETS + SET_BYTES * (t - 1), SET_BYTES);
}

/* Takes the outputs back, compares inputs and state with what they were, and answers the answer. */
static noodlefen_answer checked(struct library *l, uint32_t t, noodlefen_answer answer)
{
    for (; in_use > 0; in_use--) {
        const struct buffer *buffer = &buffers[in_use - 1];
        if (buffer->lent != NULL)
            memcpy(buffer->lent, buffer->bytes, buffer->length);
        else if (buffer->length > 0 && memcmp(buffer->given, buffer->bytes, buffer->length) != 0)
            l->faults++;
    }
    if (!state_kept(l, t, answer))
        l->faults++;
    if (!only_reads)
        memcpy(l->before, l->fence.bytes, l->fence.size);
    only_reads = 0;
    return answer;
}

static const uint8_t *reads(const struct library *l)
{
    only_reads = 1;
    return l->state;
}

/* The transaction of the calls that name none. */
static const uint32_t t = 0;

#define STATE void *e
#define READ_STATE void *e
#define PASSED_STATE ((struct library *)e)->state, ((struct library *)e)->length
#define PASSED_READ_STATE reads(e), ((struct library *)e)->length
#define GIVEN(bytes) give(bytes, bytes##_len), bytes##_len
#define LENT(bytes) lend(bytes, bytes##_len), bytes##_len
#define CALL(name, parameters, arguments) \
    static noodlefen_answer library_##name parameters { return checked(e, t, noodlefen_##name arguments); }
#include "calls.def"

static noodlefen_answer commit_and_write(void *e, const uint32_t *order, unsigned count, uint8_t *out, size_t out_len)
{
    for (unsigned i = 0; i < count; i++) {
        noodlefen_answer answer = library_commit(e, order[i]);
        if (!noodlefen_granted(answer))
            return answer;
    }
    return library_write(e, out, out_len);
}

static noodlefen_answer finish(void *e, const uint32_t *order, unsigned count, uint8_t *out, size_t out_len)
{
    struct library *l = e, *copy = copy_of(l);
    noodlefen_answer answer = commit_and_write(copy, order, count, out, out_len);
    l->faults += copy->faults;
    if (memcmp(l->fence.bytes, l->before, l->fence.size) != 0)
        l->faults++;
    drop(copy);
    return answer;
}

const struct engine library_engine = {
    "library", make, drop, faults, finish, remembered, commits, put_commits,
#define CALL(name, parameters, arguments) library_##name,
#include "calls.def"
};

const struct engine *const tested_engine = &library_engine;
