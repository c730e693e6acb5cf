#include <string.h>

#include "reached.h"

enum {
    TOLD_ZERO, TOLD_MORE, TOLD_WIDE, TOLD_UPDATED, TOLD_DELETED, INSERTED_UNKNOWN,
    UPDATED_SAME, RENAMED_SAME, COMMIT_OF_NOTHING, LAST_COMMIT, REFUSED_OF_NOTHING, REFUSED_OF_CHANGES, ABORT_AT_LIMIT, LOAD_AT_LIMIT,
    LOAD_AFTER_COMMITS, COUNTED
};

struct counted counted_counts[COUNTED] = {
    [TOLD_ZERO] = {"count told of another node than the document: 0", 20, 0},
    [TOLD_MORE] = {"count told: more", 50, 0},
    [TOLD_WIDE] = {"count told: past 65,535", 2000, 0},
    [TOLD_UPDATED] = {"count told of a node that an open transaction has updated", 200, 0},
    [TOLD_DELETED] = {"count told of a node that an open transaction has deleted, or an ancestor of it", 200, 0},
    [INSERTED_UNKNOWN] = {"count refused of a node that an open transaction has inserted", 400, 0},
    [UPDATED_SAME] = {"granted U with the bytes that the node had", 1000, 0},
    [RENAMED_SAME] = {"granted UU of some nodes with two equal names", 20000, 0},
    [COMMIT_OF_NOTHING] = {"granted commit of a transaction that has changed nothing", 200, 0},
    [LAST_COMMIT] = {"granted commit, the 1,000,000th", 50000, 0},
    [REFUSED_OF_NOTHING] = {"cause 18 of a transaction that has changed nothing", 20000, 0},
    [REFUSED_OF_CHANGES] = {"cause 18 of a transaction that has changed something", 20000, 0},
    [ABORT_AT_LIMIT] = {"granted abort where commits are refused", 20000, 0},
    [LOAD_AT_LIMIT] = {"granted load where commits are refused", 100000, 0},
    [LOAD_AFTER_COMMITS] = {"granted load after commits", 4000, 0},
};

const int counts_counted = COUNTED;

/* Bit t if transaction t has changed something; commits and granted updates with the same bytes before the call. */
static uint32_t changing, commits;
static unsigned long same_updates;

static void count_if(int met, int what)
{
    counted_counts[what].times += met ? 1u : 0u;
}

static void count_told(const struct call *call, noodlefen_answer answer, const struct reference *reference)
{
    unsigned changes = reference_changes_of(reference, call->n);
    if (!noodlefen_granted(answer)) {
        count_if((changes & REFERENCE_INSERTED) != 0, INSERTED_UNKNOWN);
        return;
    }
    count_if(noodlefen_count(answer) == 0 && call->n != 0, TOLD_ZERO);
    count_if(noodlefen_count(answer) > 0, TOLD_MORE);
    count_if(noodlefen_count(answer) > 65535, TOLD_WIDE);
    count_if((changes & REFERENCE_UPDATED) != 0, TOLD_UPDATED);
    count_if((changes & REFERENCE_DELETED) != 0, TOLD_DELETED);
}

static void count_end(const struct call *call, noodlefen_answer answer)
{
    int limit = commits >= NOODLEFEN_COMMITS, changed = call->t <= NOODLEFEN_TRANSACTIONS && (changing >> call->t & 1) != 0;
    if (call->what == CALL_ABORT) {
        count_if(noodlefen_granted(answer) && limit, ABORT_AT_LIMIT);
    } else if (noodlefen_granted(answer)) {
        count_if(!changed, COMMIT_OF_NOTHING);
        count_if(commits == NOODLEFEN_COMMITS - 1, LAST_COMMIT);
    } else if (noodlefen_cause(answer) == NOODLEFEN_NO_MORE_COMMITS) {
        count_if(1, changed ? REFUSED_OF_CHANGES : REFUSED_OF_NOTHING);
    }
    if (noodlefen_granted(answer))
        changing &= ~(1u << call->t);
}

static void count_granted_step(const struct call *call, noodlefen_answer answer, const struct reference *reference)
{
    int changes = call->what == CALL_U || call->what == CALL_D || call->what == CALL_I
        || (call->what == CALL_UU && noodlefen_value(answer) > 0);
    changing |= changes ? 1u << call->t : 0;
    count_if(reference_same_updates(reference) > same_updates, UPDATED_SAME);
    count_if(call->what == CALL_UU && changes && call->a_length == call->b_length && memcmp(call->a, call->b, call->a_length) == 0,
             RENAMED_SAME);
}

void reached_counts(const struct call *call, noodlefen_answer answer, const struct reference *reference)
{
    if (call->what == CALL_COUNT)
        count_told(call, answer, reference);
    if (call->what == CALL_COMMIT || call->what == CALL_ABORT)
        count_end(call, answer);
    if (call->what >= CALL_T && noodlefen_granted(answer))
        count_granted_step(call, answer, reference);
    if (call->what == CALL_LOAD && noodlefen_granted(answer)) {
        count_if(commits >= NOODLEFEN_COMMITS, LOAD_AT_LIMIT);
        count_if(commits > 0, LOAD_AFTER_COMMITS);
    }
    if (call->what == CALL_START)
        changing = 0;
    commits = reference_commits(reference);
    same_updates = reference_same_updates(reference);
}
