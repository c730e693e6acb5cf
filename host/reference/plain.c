/* plain.c: the plain run. Its state is one document without locks; it takes the granted steps of committed transactions. */
#include "step.h"

#include <stdlib.h>

/* A node not there, a number there already, a kind or place against the tree's rules, content that is not allowed. */
static int allowed(struct node *document, const struct step *step, const struct node *n)
{
    if (n == NULL)
        return 0;
    switch (step->what) {
    case STEP_R:
    case STEP_D:
        return n->kind != DOCUMENT;
    case STEP_U:
        return n->kind != DOCUMENT && content_allowed(n->kind, step->a, step->a_length);
    case STEP_I:
        return kind_stands_under(step->kind, n->kind) && content_allowed((int)step->kind, step->a, step->a_length)
            && node_find(document, step->m) == NULL && place_allowed(n, step->kind, step->k, EVERYTHING);
    case STEP_UU:
        return name_allowed(step->a, step->a_length) && name_allowed(step->b, step->b_length);
    case STEP_T:
    case STEP_C:
    case STEP_TT:
    case STEP_RR:
        break;
    }
    return 1;
}

/* Gives the node a content, for the commit of this count; that the bytes may be the same ones does not matter. */
static void update(struct node *node, const uint8_t *content, size_t length, uint32_t count)
{
    node_set_content(node, content, length);
    node->count = count;
}

static struct node *inserted(const struct step *step, uint32_t count)
{
    struct node *node = node_new(step->m, (int)step->kind, step->a, step->a_length);
    node->count = count;
    return node;
}

int plain_step(struct node *document, const struct step *step, uint32_t count, struct result *result)
{
    struct node *n = node_find(document, step->n);
    if (!allowed(document, step, n))
        return 0;
    step_result(result, step, n, EVERYTHING);
    switch (step->what) {
    case STEP_U:
        update(n, step->a, step->a_length, count);
        break;
    case STEP_D:
        node_free(n);
        break;
    case STEP_I:
        node_attach(n, inserted(step, count), node_child(n, step->k, EVERYTHING));
        break;
    case STEP_UU:
        for (struct node *node = n; node != NULL; node = node_after(n, node, EVERYTHING))
            if (node->kind == ELEMENT && same_bytes(node->content, node->length, step->a, step->a_length))
                update(node, step->b, step->b_length, count);
        break;
    case STEP_T:
    case STEP_C:
    case STEP_R:
    case STEP_TT:
    case STEP_RR:
        break;
    }
    return 1;
}

unsigned long plain_commit(struct node *document, const struct kept_step *steps, uint32_t count)
{
    unsigned long disagreements = 0;
    struct result *result = malloc(sizeof *result);
    if (result == NULL)
        abort();
    for (const struct kept_step *kept = steps; kept != NULL; kept = kept->next)
        if (!plain_step(document, &kept->step, count, result) || result->value != kept->value
            || !same_bytes(result->bytes, result->length, kept->bytes, kept->length)
            || !same_bytes(result->cells, result->cells_length, kept->cells, kept->cells_length))
            disagreements++;
    free(result);
    return disagreements;
}
