/*
 * waits.c: which step waits for which: the table of docs/PANEL.md, made by calls.
 *
 *   waits      prints the table. A row is a step that another transaction has made on a node n, a column the step that is asked. A letter
 *              is a wait: n on n itself, c on a child of n, b further below, p on the parent of n, a further above.
 */
#include <stdio.h>
#include <stdlib.h>

#include "noodlefen.h"

static const char *const steps[] = {"T", "C", "R", "U", "D", "I", "TT", "RR", "UU"};
enum { STEPS = sizeof steps / sizeof *steps };

/* Elements numbered 1 to 7. */
static const uint8_t document[] = "<r><a><p><n><c><b><x/></b></c></n></p></a></r>";
enum { ABOVE = 2, PARENT = 3, N = 4, CHILD = 5, BELOW = 6 };

static uint8_t state[NOODLEFEN_STATE_BYTES];

/* Makes a step on a node; I puts a new node under it. */
static noodlefen_answer make_step(int step, uint32_t t, noodlefen_node n)
{
    uint8_t out[64], cells[1024];
    const uint8_t *name = (const uint8_t *)"x";
    switch (step) {
    case 0: return noodlefen_test(state, sizeof state, t, n);
    case 1: return noodlefen_child(state, sizeof state, t, n, 1);
    case 2: return noodlefen_read(state, sizeof state, t, n, out, sizeof out);
    case 3: return noodlefen_update(state, sizeof state, t, n, name, 1);
    case 4: return noodlefen_delete(state, sizeof state, t, n);
    case 5: return noodlefen_insert(state, sizeof state, t, 65535 + t, NOODLEFEN_ELEMENT, name, 1, n, 1);
    case 6: return noodlefen_test_tree(state, sizeof state, t, n, out, sizeof out);
    case 7: return noodlefen_read_tree(state, sizeof state, t, n, out, sizeof out, cells, sizeof cells);
    default: return noodlefen_rename_tree(state, sizeof state, t, n, name, 1, name, 1);
    }
}

/* Whether transaction 2 waits with a step where transaction 1 has made one on n. */
static int waits(int held, int asked, noodlefen_node where)
{
    noodlefen_start(state, sizeof state);
    noodlefen_load(state, sizeof state, document, sizeof document - 1);
    noodlefen_begin(state, sizeof state, 1);
    noodlefen_begin(state, sizeof state, 2);
    noodlefen_answer first = make_step(held, 1, N), second = make_step(asked, 2, where);
    if (!noodlefen_granted(first) || noodlefen_refused(second)) {
        printf("FAILED: %s, then %s\n", steps[held], steps[asked]);
        exit(1);
    }
    return noodlefen_waits(second);
}

int main(void)
{
    static const noodlefen_node places[] = {N, CHILD, BELOW, PARENT, ABOVE};
    printf("held");
    for (int asked = 0; asked < STEPS; asked++)
        printf(" %6s", steps[asked]);
    printf("\n");
    for (int held = 0; held < STEPS; held++) {
        printf("%-4s", steps[held]);
        for (int asked = 0; asked < STEPS; asked++) {
            printf("  ");
            for (size_t i = 0; i < sizeof places / sizeof *places; i++)
                putchar(waits(held, asked, places[i]) ? "ncbpa"[i] : '.');
        }
        printf("\n");
    }
    return 0;
}
