#include "step.h"

#include <stdlib.h>
#include <string.h>

static void put_content(struct result *result, const struct node *node)
{
    memcpy(result->bytes, node->content, node->length);
    result->length = node->length;
    result->value = node->length;
}

static void put_tree(struct result *result, struct node *n, uint32_t viewer, int with_cells)
{
    for (struct node *node = n; node != NULL; node = node_after(n, node, viewer)) {
        for (unsigned byte = 0; byte < NUMBER_BYTES; byte++) /* the low byte first */
            result->bytes[result->length++] = (uint8_t)(node->number >> 8 * byte & 0xFF);
        if (with_cells) {
            uint8_t *cell = result->cells + result->cells_length;
            memset(cell, 0, 33);
            cell[0] = (uint8_t)node->length;
            memcpy(cell + 1, node->content, node->length);
            result->cells_length += 33;
        }
        result->value++;
    }
}

static uint64_t count_named(struct node *n, uint32_t viewer, const uint8_t *name, size_t length)
{
    uint64_t count = 0;
    for (struct node *node = n; node != NULL; node = node_after(n, node, viewer))
        if (node->kind == ELEMENT && same_bytes(node->content, node->length, name, length))
            count++;
    return count;
}

void step_result(struct result *result, const struct step *step, struct node *n, uint32_t viewer)
{
    result->value = 0;
    result->length = 0;
    result->cells_length = 0;
    switch (step->what) {
    case STEP_T:
        result->value = (n->parent != NULL ? n->parent->number : 0) + ((uint64_t)n->kind << 32);
        break;
    case STEP_C: {
        struct node *child = node_child(n, step->k, viewer);
        if (child != NULL)
            result->value = child->number + ((uint64_t)child->kind << 32);
        break;
    }
    case STEP_R:
        put_content(result, n);
        break;
    case STEP_TT:
        put_tree(result, n, viewer, 0);
        break;
    case STEP_RR:
        put_tree(result, n, viewer, 1);
        break;
    case STEP_UU:
        result->value = count_named(n, viewer, step->a, step->a_length);
        break;
    case STEP_U:
    case STEP_D:
    case STEP_I:
        break;
    }
}

static uint8_t *copy_of(const uint8_t *bytes, size_t length)
{
    uint8_t *copy = malloc(length + 1);
    if (copy == NULL)
        abort();
    memcpy(copy, bytes, length);
    return copy;
}

struct kept_step *keep_step(const struct step *step, const struct result *result)
{
    struct kept_step *kept = calloc(1, sizeof *kept);
    if (kept == NULL)
        abort();
    kept->step = *step;
    if (step->a_length > 0)
        memcpy(kept->a, step->a, step->a_length);
    if (step->b_length > 0)
        memcpy(kept->b, step->b, step->b_length);
    kept->step.a = kept->a;
    kept->step.b = kept->b;
    kept->value = result->value;
    kept->length = result->length;
    kept->cells_length = result->cells_length;
    kept->bytes = copy_of(result->bytes, result->length);
    kept->cells = copy_of(result->cells, result->cells_length);
    return kept;
}

void kept_step_free(struct kept_step *kept)
{
    free(kept->bytes);
    free(kept->cells);
    free(kept);
}
