#include "reference.h"

#include <stdlib.h>
#include <string.h>

#include "locks.h"
#include "rings.h"
#include "step.h"
#include "xml.h"

/* A change of the held tree, kept so that an abort can take it back. */
struct change {
    enum change_name { INSERTED, DELETED, CHANGED } what;
    struct node *node;
    size_t length;                       /* CHANGED: the content before */
    uint8_t content[MOST_CONTENT];
    struct change *before;               /* the transaction's change before this one */
};

struct transaction {
    struct change *last_change;
    struct kept_step *first_step, *last_step; /* its granted steps in call order */
};

struct reference {
    int started;
    struct node *held;   /* with the nodes that open transactions inserted and those that they deleted */
    struct node *plain;  /* the document of the plain run, which write takes */
    int open[MOST_TRANSACTIONS + 1];
    struct transaction transactions[MOST_TRANSACTIONS + 1];
    struct wait_sets remembered;
    unsigned ring;       /* how many transactions the ring has for which a step was refused last */
    uint32_t commits;    /* since the last granted start or load */
    unsigned long same_updates;
    unsigned long disagreements;
};

static noodlefen_answer granted(uint64_t value)
{
    return value << 16;
}

static noodlefen_answer waits(unsigned set)
{
    return 1 | (uint64_t)set << 16;
}

static noodlefen_answer refused(int cause, size_t offset)
{
    return 2 | (uint64_t)cause << 8 | (uint64_t)offset << 16;
}

static void remember(struct transaction *transaction, enum change_name what, struct node *node)
{
    struct change *change = calloc(1, sizeof *change);
    if (change == NULL)
        abort();
    change->what = what;
    change->node = node;
    change->length = node->length;
    memcpy(change->content, node->content, node->length);
    change->before = transaction->last_change;
    transaction->last_change = change;
}

/* Takes the changes back, the last one first. An inserted node has no children left when its turn comes. */
static void take_back(struct transaction *transaction)
{
    for (struct change *change = transaction->last_change; change != NULL; change = change->before)
        switch (change->what) {
        case INSERTED: node_free(change->node); break;
        case DELETED: change->node->deleted_by = 0; break;
        case CHANGED: node_set_content(change->node, change->content, change->length); break;
        }
}

/* What the transaction inserted or updated in the held tree bears the count of its commit. Its nodes are all there still, also those that
 * it deleted. */
static void give_count(const struct transaction *transaction, uint32_t count)
{
    for (const struct change *change = transaction->last_change; change != NULL; change = change->before)
        if (change->what != DELETED)
            change->node->count = count;
}

/* Takes the nodes that t deleted out of the held tree. */
static void remove_deleted(struct node *top, uint32_t t)
{
    struct node *next;
    for (struct node *child = top->first; child != NULL; child = next) {
        next = child->next;
        if (child->deleted_by == t)
            node_free(child);
        else
            remove_deleted(child, t);
    }
}

/* Forgets the transaction's lists, empties its lock sets, and strikes it from what is remembered of waits. */
static void close_transaction(struct reference *r, uint32_t t)
{
    struct transaction *transaction = &r->transactions[t];
    struct kept_step *next;
    for (struct kept_step *kept = transaction->first_step; kept != NULL; kept = next) {
        next = kept->next;
        kept_step_free(kept);
    }
    struct change *before;
    for (struct change *change = transaction->last_change; change != NULL; change = before) {
        before = change->before;
        free(change);
    }
    memset(transaction, 0, sizeof *transaction);
    for (struct node *node = r->held; node != NULL; node = node_after(r->held, node, EVERYTHING))
        node->modes[t] = 0;
    set_strike(&r->remembered, t);
    r->open[t] = 0;
}

/* Both documents become this one, and commits count from 1 again. Nothing may be open. */
static void replace_documents(struct reference *r, struct node *document)
{
    if (r->started) {
        node_free(r->held);
        node_free(r->plain);
    }
    r->held = document;
    r->plain = node_copy(document);
    r->commits = 0;
    r->started = 1;
}

static void close_all(struct reference *r)
{
    for (uint32_t t = 1; t <= MOST_TRANSACTIONS; t++)
        if (r->open[t])
            close_transaction(r, t);
}

struct reference *reference_new(void)
{
    struct reference *r = calloc(1, sizeof *r);
    if (r == NULL)
        abort();
    return r;
}

void reference_free(struct reference *r)
{
    close_all(r);
    if (r->started) {
        node_free(r->held);
        node_free(r->plain);
    }
    free(r);
}

/* Whether some are open and each of them waits for somebody. */
static int all_wait(const struct reference *r)
{
    int any = 0, all = 1;
    for (uint32_t t = 1; t <= MOST_TRANSACTIONS; t++)
        if (r->open[t]) {
            any = 1;
            all = all && set_remembered(&r->remembered, t) != 0;
        }
    return any && all;
}

unsigned long reference_disagreements(const struct reference *r)
{
    return r->disagreements + (all_wait(r) ? 1 : 0);
}

unsigned reference_remembered(const struct reference *r, uint32_t t)
{
    return set_remembered(&r->remembered, t);
}

unsigned reference_ring(const struct reference *r)
{
    return r->ring;
}

uint32_t reference_commits(const struct reference *r)
{
    return r->commits;
}

void reference_put_commits(struct reference *r, uint32_t commits)
{
    r->commits = commits;
}

size_t reference_numbers(const struct reference *r, noodlefen_node numbers[NOODLEFEN_NODES])
{
    size_t count = 0;
    for (struct node *node = r->held; node != NULL; node = node_after(r->held, node, EVERYTHING))
        numbers[count++] = node->number;
    return count;
}

unsigned reference_changes_of(const struct reference *r, noodlefen_node n)
{
    const struct node *node = node_find(r->held, n);
    unsigned changes = node != NULL && node_hidden(node, HELD) ? REFERENCE_DELETED : 0;
    for (uint32_t t = 1; t <= MOST_TRANSACTIONS; t++)
        for (const struct change *change = r->transactions[t].last_change; change != NULL; change = change->before)
            if (change->node == node && change->what != DELETED)
                changes |= change->what == INSERTED ? REFERENCE_INSERTED : REFERENCE_UPDATED;
    return changes;
}

unsigned long reference_same_updates(const struct reference *r)
{
    return r->same_updates;
}

noodlefen_answer reference_start(struct reference *r)
{
    close_all(r);
    replace_documents(r, node_new(0, DOCUMENT, NULL, 0));
    return granted(0);
}

noodlefen_answer reference_load(struct reference *r, const uint8_t *xml, size_t xml_len)
{
    if (!r->started)
        return refused(13, 0);
    for (uint32_t t = 1; t <= MOST_TRANSACTIONS; t++)
        if (r->open[t])
            return refused(15, 0);
    struct refusal refusal;
    struct node *document = xml_read(xml, xml_len, &refusal);
    if (document == NULL)
        return refused(refusal.cause, refusal.offset);
    replace_documents(r, document);
    return granted(node_count(document, EVERYTHING));
}

static noodlefen_answer write_document(const struct node *document, uint8_t *out, size_t out_len)
{
    uint8_t *written = malloc(MOST_WRITTEN);
    if (written == NULL)
        abort();
    size_t length = xml_write(document, written);
    int fits = length <= out_len;
    if (length > 0 && fits)
        memcpy(out, written, length);
    free(written);
    if (length == 0)
        return refused(14, 0);
    return fits ? granted(length) : refused(13, 0);
}

noodlefen_answer reference_write(const struct reference *r, uint8_t *out, size_t out_len)
{
    return r->started ? write_document(r->plain, out, out_len) : refused(13, 0);
}

/* The committed document is that of the plain run, and so are its counts. */
noodlefen_answer reference_count_of(const struct reference *r, noodlefen_node n)
{
    if (!r->started)
        return refused(13, 0);
    const struct node *node = node_find(r->plain, n);
    return node != NULL ? granted(node->count) : refused(7, 0);
}

noodlefen_answer reference_begin(struct reference *r, uint32_t t)
{
    if (!r->started)
        return refused(13, 0);
    if (t < 1 || t > MOST_TRANSACTIONS)
        return refused(1, 0);
    if (r->open[t])
        return refused(2, 0);
    r->open[t] = 1;
    return granted(0);
}

/* The refusals of every call on a transaction but begin; 0 if there is none. */
static int transaction_cause(const struct reference *r, uint32_t t)
{
    if (!r->started)
        return 13;
    if (t < 1 || t > MOST_TRANSACTIONS)
        return 1;
    return r->open[t] ? 0 : 3;
}

noodlefen_answer reference_commit(struct reference *r, uint32_t t)
{
    int cause = transaction_cause(r, t);
    if (cause != 0)
        return refused(cause, 0);
    if (r->commits >= MOST_COMMITS)
        return refused(18, 0);
    r->commits++;
    r->disagreements += plain_commit(r->plain, r->transactions[t].first_step, r->commits);
    give_count(&r->transactions[t], r->commits);
    remove_deleted(r->held, t);
    close_transaction(r, t);
    if (!same_counts(r->plain, r->held))
        r->disagreements++;
    return granted(0);
}

noodlefen_answer reference_finish(struct reference *r, const uint32_t *order, unsigned count, uint8_t *out, size_t out_len)
{
    int cause = r->started ? 0 : 13;
    for (unsigned i = 0; i < count && cause == 0; i++)
        cause = transaction_cause(r, order[i]);
    if (cause == 0 && count > 0 && (uint64_t)r->commits + count > MOST_COMMITS)
        cause = 18;
    if (cause != 0)
        return refused(cause, 0);
    struct node *document = node_copy(r->plain);
    for (unsigned i = 0; i < count; i++)
        r->disagreements += plain_commit(document, r->transactions[order[i]].first_step, r->commits + i + 1);
    if (!same_documents(document, r->held, HELD))
        r->disagreements++;
    noodlefen_answer answer = write_document(document, out, out_len);
    node_free(document);
    return answer;
}

noodlefen_answer reference_abort(struct reference *r, uint32_t t)
{
    int cause = transaction_cause(r, t);
    if (cause != 0)
        return refused(cause, 0);
    take_back(&r->transactions[t]);
    close_transaction(r, t);
    return granted(0);
}

/* Cause 8. */
static int kind_fits(const struct step *step, const struct node *n)
{
    switch (step->what) {
    case STEP_R:
    case STEP_U:
    case STEP_D:
        return n->kind != DOCUMENT;
    case STEP_I:
        return kind_stands_under(step->kind, n->kind);
    default:
        return 1;
    }
}

/* Cause 9. */
static int content_fits(const struct step *step, const struct node *n)
{
    switch (step->what) {
    case STEP_U:
        return content_allowed(n->kind, step->a, step->a_length);
    case STEP_I:
        return content_allowed((int)step->kind, step->a, step->a_length);
    case STEP_UU:
        return name_allowed(step->a, step->a_length) && name_allowed(step->b, step->b_length);
    default:
        return 1;
    }
}

/* Changes the held tree as the granted step says. A deletion only marks its node. */
static void change_held(struct reference *r, uint32_t t, const struct step *step, struct node *n)
{
    struct transaction *transaction = &r->transactions[t];
    if (step->what == STEP_U) {
        r->same_updates += same_bytes(n->content, n->length, step->a, step->a_length) ? 1u : 0u;
        remember(transaction, CHANGED, n);
        node_set_content(n, step->a, step->a_length);
    } else if (step->what == STEP_D) {
        remember(transaction, DELETED, n);
        n->deleted_by = t;
    } else if (step->what == STEP_I) {
        struct node *m = node_new(step->m, (int)step->kind, step->a, step->a_length);
        /* In front of the child that t sees there now. Where it stands among children that t deleted shows in no document. */
        node_attach(n, m, node_child(n, step->k, t));
        remember(transaction, INSERTED, m);
        m->modes[t] |= 1u << LW;
    } else if (step->what == STEP_UU) {
        for (struct node *node = n; node != NULL; node = node_after(n, node, t))
            if (node->kind == ELEMENT && same_bytes(node->content, node->length, step->a, step->a_length)) {
                remember(transaction, CHANGED, node);
                node_set_content(node, step->b, step->b_length);
            }
    }
}

static void keep(struct transaction *transaction, const struct step *step, const struct result *result)
{
    struct kept_step *kept = keep_step(step, result);
    if (transaction->last_step == NULL)
        transaction->first_step = kept;
    else
        transaction->last_step->next = kept;
    transaction->last_step = kept;
}

struct lent {
    uint8_t *bytes;
    size_t length;
};

/* A step that has to wait. Its set takes the place of the one remembered of t; if that makes a ring, it is refused and all stays. */
static noodlefen_answer wait_for(struct reference *r, uint32_t t, unsigned set)
{
    struct wait_sets then = r->remembered;
    set_remember(&then, t, set);
    unsigned ring = ring_length(&then);
    if (ring != 0) {
        r->ring = ring;
        return refused(17, 0);
    }
    r->remembered = then;
    return waits(set);
}

/* A step: the refusals in their order, with the wait between them. */
static noodlefen_answer take_step(struct reference *r, uint32_t t, const struct step *step, struct lent out, struct lent cells)
{
    int cause = transaction_cause(r, t);
    if (cause != 0)
        return refused(cause, 0);
    struct node *n = node_find(r->held, step->n);
    if (n == NULL || node_hidden(n, t))
        return refused(7, 0);
    if (!kind_fits(step, n))
        return refused(8, 0);
    if (!content_fits(step, n))
        return refused(9, 0);
    if (step->what == STEP_I && node_find(r->held, step->m) != NULL)
        return refused(10, 0);

    static struct needs needs;
    needs_of(&needs, step, n);
    unsigned set = wait_set(&needs, t, r->open);
    if (set != 0)
        return wait_for(r, t, set);

    if (step->what == STEP_I && !place_allowed(n, step->kind, step->k, t))
        return refused(11, 0);
    if (step->what == STEP_I && node_count(r->held, EVERYTHING) >= MOST_NODES)
        return refused(12, 0);

    static struct result result;
    step_result(&result, step, n, t);
    if (result.length > out.length || result.cells_length > cells.length)
        return refused(13, 0);

    set_remember(&r->remembered, t, 0);
    needs_grant(&needs, t);
    change_held(r, t, step, n);
    keep(&r->transactions[t], step, &result);
    if (result.length > 0)
        memcpy(out.bytes, result.bytes, result.length);
    if (result.cells_length > 0)
        memcpy(cells.bytes, result.cells, result.cells_length);
    return granted(result.value);
}

static const struct lent nothing = {NULL, 0};

noodlefen_answer reference_test(struct reference *r, uint32_t t, noodlefen_node n)
{
    struct step step = {.what = STEP_T, .n = n};
    return take_step(r, t, &step, nothing, nothing);
}

noodlefen_answer reference_child(struct reference *r, uint32_t t, noodlefen_node n, uint32_t k)
{
    struct step step = {.what = STEP_C, .n = n, .k = k};
    return take_step(r, t, &step, nothing, nothing);
}

noodlefen_answer reference_read(struct reference *r, uint32_t t, noodlefen_node n, uint8_t *out, size_t out_len)
{
    struct step step = {.what = STEP_R, .n = n};
    return take_step(r, t, &step, (struct lent){out, out_len}, nothing);
}

noodlefen_answer reference_update(struct reference *r, uint32_t t, noodlefen_node n, const uint8_t *bytes, size_t bytes_len)
{
    struct step step = {.what = STEP_U, .n = n, .a = bytes, .a_length = bytes_len};
    return take_step(r, t, &step, nothing, nothing);
}

noodlefen_answer reference_delete(struct reference *r, uint32_t t, noodlefen_node n)
{
    struct step step = {.what = STEP_D, .n = n};
    return take_step(r, t, &step, nothing, nothing);
}

noodlefen_answer reference_insert(struct reference *r, uint32_t t, noodlefen_node m, uint32_t kind,
                                  const uint8_t *bytes, size_t bytes_len, noodlefen_node n, uint32_t k)
{
    struct step step = {.what = STEP_I, .n = n, .k = k, .m = m, .kind = kind, .a = bytes, .a_length = bytes_len};
    return take_step(r, t, &step, nothing, nothing);
}

noodlefen_answer reference_test_tree(struct reference *r, uint32_t t, noodlefen_node n, uint8_t *numbers, size_t numbers_len)
{
    struct step step = {.what = STEP_TT, .n = n};
    return take_step(r, t, &step, (struct lent){numbers, numbers_len}, nothing);
}

noodlefen_answer reference_read_tree(struct reference *r, uint32_t t, noodlefen_node n,
                                     uint8_t *numbers, size_t numbers_len, uint8_t *cells, size_t cells_len)
{
    struct step step = {.what = STEP_RR, .n = n};
    return take_step(r, t, &step, (struct lent){numbers, numbers_len}, (struct lent){cells, cells_len});
}

noodlefen_answer reference_rename_tree(struct reference *r, uint32_t t, noodlefen_node n,
                                       const uint8_t *from, size_t from_len, const uint8_t *to, size_t to_len)
{
    struct step step = {.what = STEP_UU, .n = n, .a = from, .a_length = from_len, .b = to, .b_length = to_len};
    return take_step(r, t, &step, nothing, nothing);
}
