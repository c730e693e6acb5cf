#include "generate.h"

#include <stdlib.h>
#include <string.h>

#include "document.h"

/* Most fresh numbers of an episode are among so many, so that they meet. */
enum { FRESH = 40 };

void generator_init(struct generator *g, uint64_t seed)
{
    memset(g, 0, sizeof *g);
    g->random.state = seed;
    g->orders.state = ~seed;
    g->xml = malloc(DOCUMENT_ROOM);
    if (g->xml == NULL)
        abort();
}

void generator_free(struct generator *g)
{
    free(g->xml);
}

int generator_begins(const struct generator *g)
{
    return g->calls_left == 0;
}

static void forget(struct generator *g)
{
    g->open = 0;
    g->changing = 0;
    g->no_commits = 0;
    contention_forget(&g->contention);
    g->changes = 0;
    g->known = 1;
    g->seen[0] = (struct seen){.number = 0, .kind = NOODLEFEN_DOCUMENT, .count = 1};
}

static struct seen *find_seen(struct generator *g, noodlefen_node number)
{
    for (unsigned i = 0; i < g->known; i++)
        if (g->seen[i].number == number)
            return &g->seen[i];
    return NULL;
}

/* What is known of a number: nothing, if no node was seen with it. */
static struct seen known_of(struct generator *g, noodlefen_node number)
{
    const struct seen *seen = find_seen(g, number);
    return seen != NULL ? *seen : (struct seen){.number = number};
}

/* A new entry; if there is no room, in the place of another one. */
static struct seen *add_seen(struct generator *g, noodlefen_node number)
{
    unsigned place = g->known < MOST_SEEN ? g->known++ : 1 + below(&g->random, MOST_SEEN - 1);
    g->seen[place] = (struct seen){.number = number, .count = 1};
    return &g->seen[place];
}

static struct seen *learn_number(struct generator *g, noodlefen_node number)
{
    struct seen *seen = find_seen(g, number);
    return seen != NULL ? seen : add_seen(g, number);
}

static void unlearn_number(struct generator *g, noodlefen_node number)
{
    struct seen *seen = find_seen(g, number);
    if (seen != NULL && seen != g->seen)
        *seen = g->seen[--g->known];
}

static void begin_episode(struct generator *g)
{
    struct random *r = &g->random;
    unsigned size = below(r, 100);
    g->calls_left = 30 + below(r, 300);
    g->calls_made = 0;
    g->tree = RANDOM_TREE;
    if (size < 65)
        g->nodes = 3 + below(r, 10);
    else if (size < 85)
        g->nodes = 20 + below(r, 60);
    else if (size < 94)
        g->nodes = 300 + below(r, 700);
    else
        g->tree = LIMIT_TREE;
    g->range = g->tree == LIMIT_TREE ? 1100 : g->nodes + 8;
    const noodlefen_node fresh[] = {g->range, 65536 - FRESH / 2, UINT32_MAX - FRESH + 1, (noodlefen_node)random_word(r)};
    g->fresh = fresh[below(r, 4)];
    g->only_xml = once_in(r, 8);
    g->contended = !g->only_xml && g->range < 100 && once_in(r, 2);
    g->transactions = once_in(r, g->contended ? 3 : 8) ? 16 : (g->contended ? 2 : 1) + below(r, 4);
}

static uint32_t pick_transaction(struct generator *g, int open)
{
    struct random *r = &g->random;
    if (once_in(r, 50)) {
        static const uint32_t wrong[] = {0, 17, 32, 33, 256 + 1, 65536 + 1, 0x80000001u, 0xFFFFFFFFu};
        return wrong[below(r, 8)];
    }
    uint32_t t = 1 + below(r, g->transactions);
    for (unsigned i = 0; i < 20 && !once_in(r, 15) && (int)(g->open >> t & 1) != open; i++)
        t = 1 + below(r, g->transactions);
    return t;
}

/* Often one of those that came last: these were inserted, and may have any number. */
static noodlefen_node pick_known(struct generator *g)
{
    unsigned among = once_in(&g->random, 3) && g->known > 8 ? 8 : g->known;
    return g->seen[g->known - 1 - below(&g->random, among)].number;
}

/* Small, around 65,536, close to the greatest, or any. */
static noodlefen_node pick_any(struct generator *g)
{
    struct random *r = &g->random;
    switch (below(r, 4)) {
    case 0: return below(r, g->range);
    case 1: return 65536 - 8 + below(r, 16);
    case 2: return UINT32_MAX - below(r, 16);
    default: return (noodlefen_node)random_word(r);
    }
}

/* A number that an engine which loses two bytes or a bit takes for that of a node: the same low or high 16 bits, the halves changed, or
 * another bit. */
static noodlefen_node pick_alike(struct generator *g)
{
    struct random *r = &g->random;
    noodlefen_node number = pick_known(g), other = (noodlefen_node)random_word(r);
    switch (below(r, 4)) {
    case 0: return (once_in(r, 2) ? below(r, 3) << 16 : other & 0xFFFF0000u) | (number & 0xFFFF);
    case 1: return (number & 0xFFFF0000u) | (other & 0xFFFF);
    case 2: return number << 16 | number >> 16;
    default: return number ^ 1u << below(r, 32);
    }
}

/* Often the one that was asked for last, so that two engineers meet there. */
static noodlefen_node pick_number(struct generator *g)
{
    struct random *r = &g->random;
    if (once_in(r, 8))
        return g->asked;
    if (once_in(r, 40))
        return pick_any(g);
    if (once_in(r, 20))
        return below(r, g->range);
    return once_in(r, 20) ? pick_alike(g) : pick_known(g);
}

static noodlefen_node pick_fresh(struct generator *g)
{
    struct random *r = &g->random;
    switch (below(r, 8)) {
    case 0:
    case 1: return pick_any(g);
    case 2:
    case 3: return pick_alike(g);
    case 4: return below(r, g->range);
    default: return g->fresh + below(r, FRESH);
    }
}

/* A length that may be one too few, right or one too many for what was seen last, or quite another. */
static size_t pick_room(struct generator *g, size_t seen, size_t plenty)
{
    struct random *r = &g->random;
    switch (below(r, 8)) {
    case 0: return 0;
    case 1: return seen > 0 ? seen - 1 : 0;
    case 2: return seen;
    case 3: return seen + 1;
    case 4: return below(r, (unsigned)plenty);
    default: return plenty;
    }
}

static void pick_load(struct generator *g, struct call *call)
{
    struct random *r = &g->random;
    call->xml = g->xml;
    if (g->tree == LIMIT_TREE || once_in(r, 12)) {
        call->xml_length = random_limit_document(r, g->xml);
    } else if (once_in(r, 30)) {
        call->xml_length = 0;
    } else {
        /* The first of an episode is mostly right, so that there is a tree. */
        int rough = g->calls_made > 1 && once_in(r, g->only_xml ? 1 : 3);
        call->xml_length = random_document(r, g->xml, g->nodes, rough && !once_in(r, 3));
        if (rough && once_in(r, 2))
            call->xml_length = random_damage(r, g->xml, call->xml_length);
    }
}

static void pick_content(struct generator *g, struct call *call, int text)
{
    struct random *r = &g->random;
    if (once_in(r, 12))
        text = !text;
    call->a_length = text ? random_text(r, call->a) : random_name(r, call->a);
}

/* A node for a child of the kind: mostly one that takes such a child, for a text often an attribute. */
static noodlefen_node pick_parent(struct generator *g, uint32_t kind, noodlefen_node n)
{
    struct random *r = &g->random;
    int value = kind == 4 && once_in(r, 3);
    for (unsigned i = 0; i < (value ? 20u : 6u); i++) {
        unsigned parent_kind = known_of(g, n).kind;
        if ((parent_kind == 2 && !value) || (parent_kind == 0 && once_in(r, value ? 20 : 2)) || (parent_kind == 3 && kind == 4)
            || (parent_kind == 1 && kind == 2) || once_in(r, value ? 40 : 12))
            break;
        n = pick_number(g);
    }
    return n;
}

static void pick_insert(struct generator *g, struct call *call)
{
    static const uint32_t wrong[] = {0, 1, 5, 6, 256 + 2, 65536 + 3, 0x80000002u, 0xFFFFFFFFu};
    struct random *r = &g->random;
    unsigned kind = below(r, 20);
    call->kind = kind < 8 ? 2 : kind < 12 ? 3 : kind < 19 ? 4 : wrong[below(r, 8)];
    call->n = pick_parent(g, call->kind, call->n);
    call->m = once_in(r, 8) ? pick_number(g) : pick_fresh(g);
    if (once_in(r, 2))
        call->k = call->kind == 3 || known_of(g, call->n).kind == 3 ? 1 : 1 + below(r, 3);
    pick_content(g, call, call->kind == 4);
}

/* Where the last UU was asked, of its old name or of its new one, so that two engineers' renamings meet. */
static void pick_same_renaming(struct generator *g, struct call *call)
{
    const struct call *last = &g->renaming;
    int on = once_in(&g->random, 2);
    call->n = last->n;
    call->a_length = on ? last->b_length : last->a_length;
    memcpy(call->a, on ? last->b : last->a, sizeof call->a);
}

/* One of the last changes; there has to be one. */
static const struct changed *pick_changed(struct generator *g)
{
    return &g->changed[below(&g->random, g->changes < MOST_CHANGED ? g->changes : MOST_CHANGED)];
}

/* An update of a node that was changed before: mostly it has these bytes already. */
static void pick_same_update(struct generator *g, struct call *call)
{
    const struct changed *changed = pick_changed(g);
    call->n = changed->number;
    call->a_length = changed->length;
    memcpy(call->a, changed->content, changed->length);
}

/* Mostly close to the limit, so that a few more commits reach it; else where a count begins to take another byte, or past the limit. */
static uint32_t pick_commits(struct generator *g)
{
    static const uint32_t others[] = {250, 65530, 1000001, 16777216, 65536u * 15 + 1, 0x80000000u, 0xFFFFFFFFu};
    struct random *r = &g->random;
    return once_in(r, 4) ? others[below(r, sizeof others / sizeof *others)] : NOODLEFEN_COMMITS - below(r, 6);
}

static enum call_name pick_call(struct generator *g);

/* A node that transactions contend for: mostly one that another one has locks on, with a step that waits for them, or one of those that
 * are shared out among the transactions, so that each gets locks of its own. */
static void pick_contended(struct generator *g, struct call *call)
{
    struct random *r = &g->random;
    const struct call *held = once_in(r, 3) ? NULL : contention_granted(&g->contention, r, call->t, g->transactions);
    unsigned own = 2 + call->t % g->transactions + g->transactions * below(r, 1 + g->known / g->transactions);
    call->n = own < g->known ? g->seen[own].number : pick_number(g);
    if (held != NULL) {
        call->n = held->what == CALL_I ? held->m : held->n;
        while (!contention_waits(held, call->what))
            call->what = pick_call(g);
    }
}

static void pick_arguments(struct generator *g, struct call *call)
{
    struct random *r = &g->random;
    if (g->contended && call->what >= CALL_T && !once_in(r, 8))
        pick_contended(g, call);
    else
        call->n = pick_number(g);
    const struct seen n = known_of(g, call->n);
    call->k = once_in(r, 40) ? 0xFFFFFFFFu : once_in(r, 40) ? (uint32_t)random_word(r)
            : once_in(r, 3) ? below(r, 2u + n.count) : below(r, 5);
    switch (call->what) {
    case CALL_WRITE:
        call->room = pick_room(g, g->written, 65536);
        break;
    case CALL_COUNT:
        if (g->changes > 0 && once_in(r, 2))
            call->n = pick_changed(g)->number;
        break;
    case CALL_COMMITS:
        call->commits = pick_commits(g);
        break;
    case CALL_R:
        call->room = pick_room(g, n.length, 40);
        break;
    case CALL_TT:
        call->room = pick_room(g, NOODLEFEN_NUMBER_BYTES * (size_t)n.count, 4200);
        break;
    case CALL_RR:
        call->room = pick_room(g, NOODLEFEN_NUMBER_BYTES * (size_t)n.count, 4200);
        call->cells_room = pick_room(g, NOODLEFEN_CELL_BYTES * (size_t)n.count, 34000);
        break;
    case CALL_U:
        if (!g->contended && g->changes > 0 && once_in(r, 4))
            pick_same_update(g, call);
        else
            pick_content(g, call, n.kind == 4 || (n.kind == 0 && once_in(r, 2)));
        break;
    case CALL_D:
        /* The root goes seldom, or most of the calls would meet an empty tree. */
        for (unsigned i = 0; i < 4 && call->n <= 1 && !once_in(r, 20); i++)
            call->n = pick_number(g);
        break;
    case CALL_I:
        pick_insert(g, call);
        break;
    case CALL_UU:
        call->a_length = random_name(r, call->a);
        call->b_length = random_name(r, call->b);
        if (once_in(r, 3))
            pick_same_renaming(g, call);
        if (once_in(r, 6)) {
            call->b_length = call->a_length;
            memcpy(call->b, call->a, sizeof call->b);
        }
        g->renaming = *call;
        break;
    default:
        break;
    }
    g->asked = call->what >= CALL_T ? call->n : g->asked;
}

static enum call_name pick_call(struct generator *g)
{
    static const unsigned mostly[CALLS] = {[CALL_START] = 2, [CALL_LOAD] = 20, [CALL_WRITE] = 40, [CALL_COUNT] = 60, [CALL_COMMITS] = 3,
        [CALL_BEGIN] = 100, [CALL_COMMIT] = 45, [CALL_ABORT] = 30, [CALL_T] = 60, [CALL_C] = 70, [CALL_R] = 80, [CALL_U] = 90,
        [CALL_D] = 60, [CALL_I] = 170, [CALL_TT] = 60, [CALL_RR] = 60, [CALL_UU] = 60};
    static const unsigned contended[CALLS] = {[CALL_START] = 3, [CALL_LOAD] = 3, [CALL_WRITE] = 10, [CALL_COUNT] = 20, [CALL_COMMITS] = 2,
        [CALL_BEGIN] = 60, [CALL_COMMIT] = 15, [CALL_ABORT] = 15, [CALL_T] = 80, [CALL_C] = 80, [CALL_R] = 100, [CALL_U] = 120,
        [CALL_D] = 60, [CALL_I] = 120, [CALL_TT] = 50, [CALL_RR] = 40, [CALL_UU] = 40};
    const unsigned *weights = g->contended ? contended : mostly;
    unsigned total = 0, at;
    for (int i = 0; i < CALLS; i++)
        total += weights[i];
    at = below(&g->random, total);
    for (int i = 0; i < CALLS; i++) {
        if (at < weights[i])
            return (enum call_name)i;
        at -= weights[i];
    }
    return CALL_WRITE;
}

/* The next call of a ring that is being made; where nothing is open, one is begun. Its contents are names, which every node takes. */
static int pick_of_ring(struct generator *g, struct call *call)
{
    struct random *r = &g->random;
    unsigned most = g->known - 1 < NOODLEFEN_TRANSACTIONS ? g->known - 1 : NOODLEFEN_TRANSACTIONS, place;
    if (!g->contended || once_in(r, 20))
        return 0;
    if (g->open == 0 && most >= 2 && once_in(r, 2))
        contention_plan(&g->contention, r, 2 + below(r, most - 1));
    if (!contention_next(&g->contention, r, call, &place))
        return 0;
    call->n = g->seen[1 + place].number;
    call->room = NOODLEFEN_CONTENT_BYTES;
    call->a_length = call->what == CALL_U ? random_name(r, call->a) : 0;
    return 1;
}

void generate(struct generator *g, struct call *call)
{
    memset(call, 0, sizeof *call);
    if (g->calls_left == 0) {
        begin_episode(g);
        call->what = CALL_START;
        return;
    }
    g->calls_left--;
    g->calls_made++;
    if (g->calls_made > 1 && pick_of_ring(g, call))
        return;
    if ((g->calls_made == 1 && !once_in(&g->random, 8)) || (g->only_xml && !once_in(&g->random, 3)))
        call->what = CALL_LOAD;
    else if (g->only_xml)
        call->what = CALL_WRITE;
    else if (g->open == 0 && (g->known < 3 || once_in(&g->random, g->no_commits ? 2 : 6)))
        call->what = CALL_LOAD;
    else if (g->open == 0 && !once_in(&g->random, 4))
        call->what = CALL_BEGIN;
    else
        call->what = pick_call(g);
    if (g->no_commits && call->what == CALL_COMMIT && once_in(&g->random, 2))
        call->what = CALL_ABORT;
    call->t = pick_transaction(g, call->what != CALL_BEGIN);
    if (call->what == CALL_LOAD)
        pick_load(g, call);
    else if (g->contended && call->what >= CALL_T && contention_repeats(&g->contention, &g->random, call->t))
        *call = g->contention.hindered[call->t];
    else
        pick_arguments(g, call);
}

void generate_finish(struct generator *g, struct call *call)
{
    memset(call, 0, sizeof *call);
    call->what = CALL_FINISH;
    call->room = NOODLEFEN_XML_BYTES;
    for (uint32_t t = 1; t <= NOODLEFEN_TRANSACTIONS; t++)
        if (g->open >> t & 1) {
            unsigned place = below(&g->orders, call->count + 1);
            call->order[call->count++] = call->order[place];
            call->order[place] = t;
            call->changing += g->changing >> t & 1;
        }
}

static void learn_load(struct generator *g, uint64_t count)
{
    forget(g);
    for (noodlefen_node number = 1; number < count; number++)
        add_seen(g, number);
    g->seen[0].count = (uint16_t)count;
    g->seen[1].count = (uint16_t)(count - 1);
}

static void learn_change(struct generator *g, noodlefen_node number, const struct call *call)
{
    struct changed *changed = &g->changed[g->changes++ % MOST_CHANGED];
    changed->number = number;
    changed->length = call->a_length;
    memcpy(changed->content, call->a, call->a_length);
}

static void learn_insertion(struct generator *g, const struct call *call)
{
    *learn_number(g, call->m) = (struct seen){call->m, (uint8_t)call->kind, (uint8_t)call->a_length, 1};
    learn_number(g, call->n)->count++;
    learn_change(g, call->m, call);
}

void generator_learn(struct generator *g, const struct call *call, noodlefen_answer answer)
{
    uint64_t value = noodlefen_value(answer);
    contention_learn(&g->contention, &g->random, call, answer);
    if (noodlefen_cause(answer) == NOODLEFEN_NO_NODE && call->what >= CALL_T && once_in(&g->random, 2))
        unlearn_number(g, call->n);
    if (noodlefen_cause(answer) == NOODLEFEN_NO_MORE_COMMITS)
        g->no_commits = 1;
    if (!noodlefen_granted(answer))
        return;
    if (call->what == CALL_U || call->what == CALL_D || call->what == CALL_I || (call->what == CALL_UU && value > 0))
        g->changing |= 1u << call->t;
    switch (call->what) {
    case CALL_START:
        forget(g);
        break;
    case CALL_LOAD: learn_load(g, value); break;
    case CALL_WRITE: g->written = value; break;
    case CALL_BEGIN: g->open |= 1u << call->t; break;
    case CALL_COMMIT:
    case CALL_ABORT:
        g->open &= ~(1u << call->t);
        g->changing &= ~(1u << call->t);
        break;
    case CALL_T: learn_number(g, call->n)->kind = (uint8_t)noodlefen_kind(answer); break;
    case CALL_C:
        if (noodlefen_kind(answer) != 0)
            learn_number(g, noodlefen_number(answer))->kind = (uint8_t)noodlefen_kind(answer);
        break;
    case CALL_R: learn_number(g, call->n)->length = (uint8_t)value; break;
    case CALL_U:
        learn_number(g, call->n)->length = (uint8_t)call->a_length;
        learn_change(g, call->n, call);
        break;
    case CALL_I: learn_insertion(g, call); break;
    case CALL_TT:
    case CALL_RR: learn_number(g, call->n)->count = (uint16_t)value; break;
    case CALL_COUNT:
    case CALL_COMMITS:
    case CALL_FINISH:
    case CALL_D:
    case CALL_UU:
    case CALLS: break;
    }
}
