/*
 * run.c: makes the calls of a script on one state and prints a line for each. calls.txt is the script; expected.txt has the lines that
 * documents 01 and 02 ask for, worked out from these papers.
 *
 * The script has a word for each call, s (start), l (load), N (the count of a node), b (begin), c (commit), a (abort) or a step's name,
 * then the transaction, but for the first three, and the arguments in the paper's order; R, TT and RR then have the lengths of their lent
 * buffers. Texts stand between quotes. Other words: = begins a section, and # a remark, both to the end of the line; E builds tree E
 * unseen; L sets how many bytes of state are lent; Z changes the first of them; B prints those behind the state; F inserts the elements 1
 * to 1,023 and prints how many were granted; M begins and commits a transaction so many times and prints how many were granted; S is TT of
 * 1,024 numbers with their checksum.
 *
 * A line has the call's place in its section, the transaction (0 where none is named), G, W or R, and a number: the node count of load,
 * the count of N, the parent of T, the child of C, the length of R, the count of TT, RR and UU, the set of a wait, the cause of a refusal,
 * else 0. T and C add the kind, a load that is refused its offset. The lent buffers follow, as they are after the call, in hexadecimal, 33
 * bytes to a line; they held 0xff before. An empty line ends a section.
 *
 * State and buffers have exact lengths at guard pages. What should not be is printed too: a state that N or a refused call changed, or one
 * that waits in other bytes than those of its transaction's remembered set, which have to be the set of the wait; and bits of an answer
 * that should be 0.
 */
#include <inttypes.h>
#include <stdio.h>
#include <stdlib.h>
#include <string.h>

#include "../fence.h"
#include "noodlefen.h"

enum { BEHIND = 8, MOST_BUFFERS = 2, MOST_BUFFER = 4096, BYTES_TO_A_LINE = 33 };
enum { SETS = 116752, SET_BYTES = 2 }; /* where the remembered sets are in the state, by transaction; docs/STATE.md */

enum name { START, LOAD, COUNT, BEGIN, COMMIT, ABORT, T, C, R, U, D, I, TT, RR, UU, NAMES };

/* The calls' words, and their arguments in order: t, m, n and k as in noodlefen.h, K the kind, " a text, = the length of a lent buffer. */
static const struct form {
    const char *word, *arguments;
} forms[NAMES] = {
    [START] = {"s", ""}, [LOAD] = {"l", "\""}, [COUNT] = {"N", "n"}, [BEGIN] = {"b", "t"}, [COMMIT] = {"c", "t"}, [ABORT] = {"a", "t"},
    [T] = {"T", "tn"}, [C] = {"C", "tnk"}, [R] = {"R", "tn="}, [U] = {"U", "tn\""}, [D] = {"D", "tn"},
    [I] = {"I", "tmK\"nk"}, [TT] = {"TT", "tn="}, [RR] = {"RR", "tn=="}, [UU] = {"UU", "tn\"\""},
};

struct call {
    enum name what;
    uint32_t t, k, kind;
    noodlefen_node n, m;
    struct slice {
        uint8_t *bytes;
        size_t length;
    } buffers[MOST_BUFFERS];
    unsigned texts, lent; /* how many of the buffers; a call has the one or the other */
};

/* The state and the bytes behind it; the first ones are lent. */
static uint8_t memory[NOODLEFEN_STATE_BYTES + BEHIND];
static size_t lent_state = sizeof memory;
static struct fence state_fence, fences[MOST_BUFFERS];

/* The script, and what of it has not been read yet. */
static char script[1 << 16];
static const char *rest = script;

/* How many calls of the section have been made. */
static unsigned place;

/* The calls ------------------------------------------------------------------------------------------------------------------------- */

static noodlefen_answer made_on(uint8_t *state, size_t length, const struct call *c)
{
    const struct slice a = c->buffers[0], b = c->buffers[1];
    switch (c->what) {
    case START: return noodlefen_start(state, length);
    case LOAD: return noodlefen_load(state, length, a.bytes, a.length);
    case COUNT: return noodlefen_count_of(state, length, c->n);
    case BEGIN: return noodlefen_begin(state, length, c->t);
    case COMMIT: return noodlefen_commit(state, length, c->t);
    case ABORT: return noodlefen_abort(state, length, c->t);
    case T: return noodlefen_test(state, length, c->t, c->n);
    case C: return noodlefen_child(state, length, c->t, c->n, c->k);
    case R: return noodlefen_read(state, length, c->t, c->n, a.bytes, a.length);
    case U: return noodlefen_update(state, length, c->t, c->n, a.bytes, a.length);
    case D: return noodlefen_delete(state, length, c->t, c->n);
    case I: return noodlefen_insert(state, length, c->t, c->m, c->kind, a.bytes, a.length, c->n, c->k);
    case TT: return noodlefen_test_tree(state, length, c->t, c->n, a.bytes, a.length);
    case RR: return noodlefen_read_tree(state, length, c->t, c->n, a.bytes, a.length, b.bytes, b.length);
    case UU: return noodlefen_rename_tree(state, length, c->t, c->n, a.bytes, a.length, b.bytes, b.length);
    case NAMES: break;
    }
    abort();
}

/* What a wait of t changes. */
static void remember(uint32_t t, uint64_t set)
{
    uint8_t *bytes = memory + SETS + SET_BYTES * (t - 1);
    bytes[0] = (uint8_t)(set & 0xFF);
    bytes[1] = (uint8_t)(set >> 8 & 0xFF);
}

/* Makes the call on the lent bytes of the state. */
static noodlefen_answer make(const struct call *c)
{
    uint8_t *state = fence_end(&state_fence, lent_state);
    memcpy(state, memory, lent_state);
    noodlefen_answer answer = made_on(state, lent_state, c);
    if (noodlefen_waits(answer) && c->t >= 1 && c->t <= NOODLEFEN_TRANSACTIONS)
        remember(c->t, noodlefen_value(answer));
    if ((!noodlefen_granted(answer) || c->what == COUNT) && memcmp(state, memory, lent_state) != 0)
        puts("the state has changed");
    memcpy(memory, state, lent_state);
    return answer;
}

static void add_text(struct call *c, const char *text, size_t length)
{
    uint8_t *bytes = fence_end(&fences[c->texts], length);
    memcpy(bytes, text, length);
    c->buffers[c->texts++] = (struct slice){bytes, length};
}

static void add_lent(struct call *c, size_t length)
{
    uint8_t *bytes = fence_end(&fences[c->lent], length);
    memset(bytes, 0xff, length);
    c->buffers[c->lent++] = (struct slice){bytes, length};
}

static int insert_granted(uint32_t t, noodlefen_node m, uint32_t kind, const char *content, noodlefen_node n, uint32_t k)
{
    struct call c = {.what = I, .t = t, .m = m, .kind = kind, .n = n, .k = k};
    add_text(&c, content, strlen(content));
    return noodlefen_granted(make(&c));
}

/* What is printed ------------------------------------------------------------------------------------------------------------------- */

static void print_bytes(const uint8_t *bytes, size_t length)
{
    for (size_t i = 0; i < length; i++) {
        int last = i + 1 == length || (i + 1) % BYTES_TO_A_LINE == 0;
        printf("%s%02x%s", i % BYTES_TO_A_LINE == 0 ? "  " : "", bytes[i], last ? "\n" : "");
    }
}

/* The number of an answer, and the kind if there is one. */
static void print_number(enum name what, noodlefen_answer answer)
{
    uint64_t value = noodlefen_value(answer);
    if (!noodlefen_granted(answer) || (what != T && what != C))
        printf(" %" PRIu64, noodlefen_refused(answer) ? noodlefen_cause(answer) : value);
    else if (noodlefen_kind(answer) == 0)
        printf(" %" PRIu64, value);
    else
        printf(" %" PRIu64 " %u", value & 0xFFFFFFFFu, noodlefen_kind(answer));
}

static void print_line(const struct call *c, noodlefen_answer answer)
{
    char outcome = noodlefen_granted(answer) ? 'G' : noodlefen_waits(answer) ? 'W' : noodlefen_refused(answer) ? 'R' : '?';
    uint64_t besides = noodlefen_refused(answer) ? noodlefen_value(answer) : noodlefen_cause(answer);
    printf("%u %" PRIu32 " %c", ++place, c->t, outcome);
    print_number(c->what, answer);
    if (besides != 0)
        printf(" and %" PRIu64, besides);
    putchar('\n');
}

/* The words of the script ----------------------------------------------------------------------------------------------------------- */

/* Ends the program: the script cannot be read from here on. */
static void stop(const char *wanted)
{
    unsigned line = 1;
    for (const char *at = script; at < rest; at++)
        line += *at == '\n';
    fprintf(stderr, "script, line %u: %s wanted\n", line, wanted);
    exit(2);
}

static void skip_blanks(void) { rest += strspn(rest, " \n"); }
static void skip_line(void) { rest += strcspn(rest, "\n"); }

static uint32_t number_up_to(uint32_t most)
{
    skip_blanks();
    size_t digits = strspn(rest, "0123456789");
    unsigned long long value = strtoull(rest, NULL, 10);
    if (digits == 0 || value > most)
        stop("a number in its range");
    rest += digits;
    return (uint32_t)value;
}

static uint32_t number(void) { return number_up_to(UINT32_MAX); }
static noodlefen_node node(void) { return (noodlefen_node)number_up_to((noodlefen_node)-1); }

static void text(struct call *c)
{
    skip_blanks();
    const char *end = *rest == '"' ? strchr(rest + 1, '"') : NULL;
    if (end == NULL)
        stop("a text");
    add_text(c, rest + 1, (size_t)(end - rest - 1));
    rest = end + 1;
}

static void argument(struct call *c, char what)
{
    switch (what) {
    case 't': c->t = number(); break;
    case 'm': c->m = node(); break;
    case 'n': c->n = node(); break;
    case 'k': c->k = number(); break;
    case 'K': c->kind = number(); break;
    case '"': text(c); break;
    case '=': add_lent(c, number_up_to(MOST_BUFFER)); break;
    default: abort();
    }
}

static void run_call(enum name what)
{
    struct call c = {.what = what};
    for (const char *a = forms[what].arguments; *a != 0; a++)
        argument(&c, *a);
    print_line(&c, make(&c));
    for (unsigned i = 0; i < c.lent; i++)
        print_bytes(c.buffers[i].bytes, c.buffers[i].length);
}

/* Tree E of document 01, committed, with nothing open: <lift rope="2"><speed>6</speed><ramp/></lift>. */
static void build_tree_e(void)
{
    const struct call start = {.what = START}, begin = {.what = BEGIN, .t = 1}, commit = {.what = COMMIT, .t = 1};
    int built = noodlefen_granted(make(&start)) && noodlefen_granted(make(&begin))
        && insert_granted(1, 1, NOODLEFEN_ELEMENT, "lift", 0, 1)
        && insert_granted(1, 2, NOODLEFEN_ATTRIBUTE, "rope", 1, 1)
        && insert_granted(1, 3, NOODLEFEN_TEXT, "2", 2, 1)
        && insert_granted(1, 4, NOODLEFEN_ELEMENT, "speed", 1, 2)
        && insert_granted(1, 5, NOODLEFEN_TEXT, "6", 4, 1)
        && insert_granted(1, 6, NOODLEFEN_ELEMENT, "ramp", 1, 3)
        && noodlefen_granted(make(&commit));
    if (!built)
        puts("tree E could not be built");
}

/* The root is 1, and each other element becomes its last child. */
static void fill(void)
{
    uint32_t t = number();
    unsigned granted = 0;
    for (noodlefen_node m = 1; m < NOODLEFEN_NODES; m++)
        if (insert_granted(t, m, NOODLEFEN_ELEMENT, "a", m == 1 ? 0 : 1, m == 1 ? 1 : m - 1u))
            granted++;
    printf("%u %" PRIu32 " G %u\n", ++place, t, granted);
}

/* The state stays at its guard page meanwhile: to copy it for each call would take most of the time. */
static void commit_often(void)
{
    uint32_t t = number(), times = number(), granted = 0;
    uint8_t *state = fence_end(&state_fence, lent_state);
    memcpy(state, memory, lent_state);
    for (uint32_t i = 0; i < times; i++)
        if (noodlefen_granted(noodlefen_begin(state, lent_state, t)) && noodlefen_granted(noodlefen_commit(state, lent_state, t)))
            granted++;
    memcpy(memory, state, lent_state);
    printf("%u %" PRIu32 " G %" PRIu32 "\n", ++place, t, granted);
}

/* The checksum depends on every byte and its place. */
static void test_all(void)
{
    struct call c = {.what = TT, .t = number()};
    uint32_t sum = 0;
    c.n = node();
    add_lent(&c, NOODLEFEN_NODES * NOODLEFEN_NUMBER_BYTES);
    print_line(&c, make(&c));
    for (size_t i = 0; i < c.buffers[0].length; i++)
        sum = (31 * sum + c.buffers[0].bytes[i]) % 65521;
    printf(" %" PRIu32 "\n", sum);
}

static void begin_section(void)
{
    putchar('\n');
    place = 0;
    skip_line();
}

/* The words that are no calls by themselves. */
static void run_other(char word)
{
    switch (word) {
    case '=': begin_section(); break;
    case '#': skip_line(); break;
    case 'E': build_tree_e(); break;
    case 'F': fill(); break;
    case 'M': commit_often(); break;
    case 'S': test_all(); break;
    case 'L': lent_state = number_up_to(sizeof memory); break;
    case 'Z': memory[0] = 0; break;
    case 'B': print_bytes(memory + NOODLEFEN_STATE_BYTES, BEHIND); break;
    default: stop("a word");
    }
}

static void run_word(void)
{
    const char *word = rest;
    size_t length = strcspn(rest, " \n");
    rest += length;
    for (int i = 0; i < NAMES; i++)
        if (strlen(forms[i].word) == length && memcmp(forms[i].word, word, length) == 0) {
            run_call((enum name)i);
            return;
        }
    run_other(length == 1 ? *word : 0);
}

static void read_script(const char *path)
{
    FILE *file = fopen(path, "r");
    size_t length = file != NULL ? fread(script, 1, sizeof script - 1, file) : 0;
    if (file == NULL || !feof(file) || strlen(script) != length) {
        fprintf(stderr, "%s: cannot be read\n", path);
        exit(2);
    }
    fclose(file);
}

int main(int count, char **arguments)
{
    if (count != 2)
        return 2;
    read_script(arguments[1]);
    memset(memory, 7, sizeof memory);
    state_fence = fence_new(sizeof memory);
    for (int i = 0; i < MOST_BUFFERS; i++)
        fences[i] = fence_new(MOST_BUFFER);
    /* So that the lines before are there if a guard page is touched. */
    setvbuf(stdout, NULL, _IOLBF, BUFSIZ);
    for (skip_blanks(); *rest != 0; skip_blanks())
        run_word();
    return 0;
}
