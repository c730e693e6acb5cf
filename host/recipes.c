/*
 * recipes.c: the recipes of docs/PANEL.md, tried. Each is a function that a panel can copy, and a run of it that is printed.
 *
 *   recipes      prints recipes.txt; recipes_shared.c has those for several processes, handover.c prints a sheet of counts
 */
#include <stdio.h>
#include <stdlib.h>
#include <string.h>

#include "noodlefen.h"

static uint8_t state[NOODLEFEN_STATE_BYTES];
static uint8_t copy[NOODLEFEN_STATE_BYTES];

/* Ends the program where a call that has to be granted is not. */
static noodlefen_answer must(noodlefen_answer answer)
{
    if (!noodlefen_granted(answer)) {
        printf("FAILED: %s\n", noodlefen_waits(answer) ? "a call waits" : noodlefen_cause_text(noodlefen_cause(answer)));
        exit(1);
    }
    return answer;
}

static void print_answer(const char *call, noodlefen_answer answer)
{
    printf("  %s: ", call);
    if (noodlefen_granted(answer))
        printf("granted\n");
    else if (noodlefen_waits(answer))
        printf("waits, set %lu\n", (unsigned long)noodlefen_value(answer));
    else
        printf("refused, cause %u\n", noodlefen_cause(answer));
}

static noodlefen_answer update(uint8_t *bytes, uint32_t t, noodlefen_node n, const char *text)
{
    return noodlefen_update(bytes, NOODLEFEN_STATE_BYTES, t, n, (const uint8_t *)text, strlen(text));
}

static void begin_with(const char *xml)
{
    must(noodlefen_start(state, sizeof state));
    must(noodlefen_load(state, sizeof state, (const uint8_t *)xml, strlen(xml)));
    must(noodlefen_begin(state, sizeof state, 1));
    must(noodlefen_begin(state, sizeof state, 2));
}

/* Prints the settings of a state as they are written, behind the declaration. */
static void print_settings(const uint8_t *bytes)
{
    static uint8_t out[NOODLEFEN_XML_BYTES];
    noodlefen_answer answer = noodlefen_write(bytes, NOODLEFEN_STATE_BYTES, out, sizeof out);
    if (!noodlefen_granted(answer)) {
        print_answer("write", answer);
        return;
    }
    const char *line = (const char *)memchr(out, '\n', (size_t)noodlefen_value(answer));
    printf("  %.*s\n", (int)(noodlefen_value(answer) - (uint64_t)(line + 1 - (const char *)out)), line + 1);
}

/* --- A number that says where a setting belongs: to a device in a cabin of a plant. Cabins, devices and a device's settings have two
 * digits. Load gives numbers below 1,024, so plants count from 1; those up to 2,146 stay below 2^31. */
static noodlefen_node number_of(unsigned plant, unsigned cabin, unsigned device, unsigned setting)
{
    return 1000000 * plant + 10000 * cabin + 100 * device + setting;
}

/* --- A number for a new node that needs none of its own. Those from 2^31 on are shared out, 2^27 to each transaction number, so that two
 * engineers never choose the same. A number that is held is refused for cause 10, also while a deletion of its node is not committed. */
static noodlefen_answer insert_new(uint32_t t, uint32_t kind, const char *content, noodlefen_node n, uint32_t k, noodlefen_node *m)
{
    static const noodlefen_node first = 1u << 31, share = 1u << 27;
    static noodlefen_node tried[NOODLEFEN_TRANSACTIONS + 1]; /* the first for a t that is not 1 to 16, which is refused */
    noodlefen_node *next = &tried[t <= NOODLEFEN_TRANSACTIONS ? t : 0];
    noodlefen_answer answer;
    do {
        *m = first + (t - 1) * share + *next;
        answer = noodlefen_insert(state, sizeof state, t, *m, kind, (const uint8_t *)content, strlen(content), n, k);
        *next = (*next + 1) % share;
    } while (noodlefen_cause(answer) == NOODLEFEN_NUMBER_HELD);
    return answer;
}

static void numbers(void)
{
    noodlefen_node door = number_of(7, 24, 1, 0), first, second, third;
    printf("a number for a new node\n");
    begin_with("<a><b/><c/></a>");
    must(noodlefen_insert(state, sizeof state, 1, door, NOODLEFEN_ELEMENT, (const uint8_t *)"door", 4, 2, 1));
    printf("  plant 7, cabin 24, device 1, setting 0: %u, in node %u\n", (unsigned)door,
           (unsigned)noodlefen_number(must(noodlefen_test(state, sizeof state, 1, door))));
    must(insert_new(1, NOODLEFEN_ELEMENT, "d", door, 1, &first));
    must(noodlefen_insert(state, sizeof state, 2, 2281701377u, NOODLEFEN_ELEMENT, (const uint8_t *)"x", 1, 3, 1));
    must(insert_new(2, NOODLEFEN_ELEMENT, "e", 3, 1, &second));
    must(insert_new(2, NOODLEFEN_ELEMENT, "f", 3, 1, &third));
    printf("  others: %u, %u, %u (2281701377 was held)\n", (unsigned)first, (unsigned)second, (unsigned)third);
}

/* --- The value of an attribute: its only child is a text, and without one the value is empty. */
static noodlefen_answer set_value(uint32_t t, noodlefen_node attribute, const char *value)
{
    noodlefen_node m;
    noodlefen_answer text = noodlefen_child(state, sizeof state, t, attribute, 1);
    if (!noodlefen_granted(text))
        return text;
    if (noodlefen_kind(text) == 0) /* no text: a first value, or empty already */
        return value[0] == 0 ? text : insert_new(t, NOODLEFEN_TEXT, value, attribute, 1, &m);
    if (value[0] == 0)
        return noodlefen_delete(state, sizeof state, t, noodlefen_number(text));
    return update(state, t, noodlefen_number(text), value);
}

static void values(void)
{
    static const char *const values[] = {"7", "", "", "8"};
    printf("the value of an attribute\n");
    begin_with("<a b=\"6\"/>");
    for (size_t i = 0; i < sizeof values / sizeof *values; i++) {
        must(set_value(1, 2, values[i]));
        memcpy(copy, state, sizeof copy);
        must(noodlefen_commit(copy, sizeof copy, 1));
        print_settings(copy);
    }
}

/* --- How many bytes of a text can be held: at most 32, and no character is cut. Bytes behind the first of a character are 0x80 to 0xBF. */
static size_t cut_length(const uint8_t *bytes, size_t length)
{
    size_t cut = length < NOODLEFEN_CONTENT_BYTES ? length : NOODLEFEN_CONTENT_BYTES;
    while (cut > 0 && cut < length && (bytes[cut] & 0xC0) == 0x80)
        cut--;
    return cut;
}

static void cutting(void)
{
    static const uint8_t typed[] = "Bei Wind nur mit halber Kraft f\xC3\xBCr eine Stunde"; /* an u with two dots, U+00FC */
    size_t length = sizeof typed - 1, cut = cut_length(typed, length);
    printf("cutting what is too long\n");
    begin_with("<a>6</a>");
    print_answer("as typed", noodlefen_update(state, sizeof state, 1, 2, typed, length));
    print_answer("cut after 32 bytes", noodlefen_update(state, sizeof state, 1, 2, typed, NOODLEFEN_CONTENT_BYTES));
    printf("  between characters: after %lu bytes\n", (unsigned long)cut);
    print_answer("cut there", noodlefen_update(state, sizeof state, 1, 2, typed, cut));
    must(noodlefen_commit(state, sizeof state, 1));
    print_settings(state);
}

/* --- Whether the settings could be written if t committed now, tried on a copy. Ask right before the commit. */
static noodlefen_answer try_commit(uint32_t t)
{
    static uint8_t out[NOODLEFEN_XML_BYTES];
    memcpy(copy, state, sizeof copy);
    noodlefen_answer answer = noodlefen_commit(copy, sizeof copy, t);
    return noodlefen_granted(answer) ? noodlefen_write(copy, sizeof copy, out, sizeof out) : answer;
}

/* The place k of n among the children of its parent. */
static noodlefen_answer place_of(uint32_t t, noodlefen_node parent, noodlefen_node n, uint32_t *k)
{
    for (*k = 1;; *k += 1) {
        noodlefen_answer child = noodlefen_child(state, sizeof state, t, parent, *k);
        if (!noodlefen_granted(child) || noodlefen_kind(child) == 0 || noodlefen_number(child) == n)
            return child;
    }
}

static int blanks_only(const uint8_t *bytes, size_t length)
{
    for (size_t i = 0; i < length; i++)
        if (bytes[i] > ' ')
            return 0;
    return 1;
}

/* --- Makes one text of two that become neighbours. One of blanks only is deleted, the first if both are. Otherwise the first gets both
 * contents, if they have at most 32 bytes together (otherwise 9). Where it waits in the middle it can be made again, whole: the first U
 * changes nothing but takes the lock, so that the last one cannot wait and nothing is joined twice. */
static noodlefen_answer join_texts(uint32_t t, noodlefen_node first, noodlefen_node second)
{
    uint8_t content[2 * NOODLEFEN_CONTENT_BYTES];
    noodlefen_answer answer = noodlefen_read(state, sizeof state, t, first, content, NOODLEFEN_CONTENT_BYTES);
    size_t length = (size_t)noodlefen_value(answer);
    if (!noodlefen_granted(answer))
        return answer;
    if (blanks_only(content, length))
        return noodlefen_delete(state, sizeof state, t, first);
    answer = noodlefen_read(state, sizeof state, t, second, content + length, NOODLEFEN_CONTENT_BYTES);
    size_t both = length + (size_t)noodlefen_value(answer);
    if (!noodlefen_granted(answer))
        return answer;
    if (blanks_only(content + length, both - length))
        return noodlefen_delete(state, sizeof state, t, second);
    if (both <= NOODLEFEN_CONTENT_BYTES)
        answer = noodlefen_update(state, sizeof state, t, first, content, length);
    if (both <= NOODLEFEN_CONTENT_BYTES && noodlefen_granted(answer))
        answer = noodlefen_delete(state, sizeof state, t, second);
    return noodlefen_granted(answer) ? noodlefen_update(state, sizeof state, t, first, content, both) : answer;
}

/* --- Deletes an element. In an indented file texts of blanks stand before and behind it, and two neighbouring texts cannot be written;
 * so one is made of them. Where it waits in the middle it can be made again, whole. */
static noodlefen_answer delete_element(uint32_t t, noodlefen_node n)
{
    uint32_t k;
    noodlefen_answer answer = noodlefen_test(state, sizeof state, t, n);
    noodlefen_node parent = noodlefen_number(answer);
    if (noodlefen_granted(answer))
        answer = place_of(t, parent, n, &k);
    if (!noodlefen_granted(answer))
        return answer;
    /* The locks of C are the same for every k, and for k = 0 it gives none: these two are granted. */
    noodlefen_answer before = noodlefen_child(state, sizeof state, t, parent, k - 1);
    noodlefen_answer behind = noodlefen_child(state, sizeof state, t, parent, k + 1);
    if (noodlefen_kind(before) == NOODLEFEN_TEXT && noodlefen_kind(behind) == NOODLEFEN_TEXT)
        answer = join_texts(t, noodlefen_number(before), noodlefen_number(behind));
    return noodlefen_granted(answer) ? noodlefen_delete(state, sizeof state, t, n) : answer;
}

static void deletion(void)
{
    static const char indented[] = "<line>\n  <speed>6</speed>\n  <lamp/>\n</line>";
    printf("an element of an indented file deleted\n");
    begin_with(indented);
    must(noodlefen_delete(state, sizeof state, 1, 6));
    print_answer("alone, commit tried on a copy", try_commit(1));
    must(noodlefen_abort(state, sizeof state, 1));
    must(noodlefen_begin(state, sizeof state, 1));
    must(delete_element(1, 6));
    print_answer("with the blanks before it", try_commit(1));
    must(noodlefen_commit(state, sizeof state, 1));
    print_settings(state);
}

/* With words before and behind; the second engineer has read the text behind. */
static void joining(void)
{
    uint8_t content[NOODLEFEN_CONTENT_BYTES];
    printf("an element between words deleted\n");
    begin_with("<a>up<b/> and down</a>");
    must(noodlefen_read(state, sizeof state, 2, 4, content, sizeof content));
    print_answer("while the text is read", delete_element(1, 3));
    must(noodlefen_abort(state, sizeof state, 2));
    print_answer("once more", delete_element(1, 3));
    must(noodlefen_commit(state, sizeof state, 1));
    print_settings(state);
    begin_with("<a>up<b/>\n</a>");
    must(delete_element(1, 3));
    must(noodlefen_commit(state, sizeof state, 1));
    print_settings(state);
    begin_with("<a>more than sixteen<b/>and sixteen more</a>");
    print_answer("over 32 bytes together", delete_element(1, 3));
}

/* Two deletions that are fine by themselves leave neighbouring texts together; the second to commit sees it. */
static void two_deletions(void)
{
    printf("two engineers delete neighbours\n");
    begin_with("<a>x<b/><c/>y</a>");
    must(noodlefen_delete(state, sizeof state, 1, 3));
    must(noodlefen_delete(state, sizeof state, 2, 4));
    print_answer("commit of the first tried", try_commit(1));
    must(noodlefen_commit(state, sizeof state, 1));
    print_answer("commit of the second tried", try_commit(2));
}

/* --- What the settings will be when all that is open has committed, in whatever order: all commit on a copy, and it is written. Refused
 * for cause 18 if not all of them can commit any more. */
static noodlefen_answer preview(uint8_t *out, size_t room)
{
    memcpy(copy, state, sizeof copy);
    for (uint32_t t = 1; t <= NOODLEFEN_TRANSACTIONS; t++) {
        noodlefen_answer answer = noodlefen_commit(copy, sizeof copy, t); /* refused for cause 3 where t is not open */
        if (noodlefen_cause(answer) == NOODLEFEN_NO_MORE_COMMITS)
            return answer;
    }
    return noodlefen_write(copy, sizeof copy, out, room);
}

/* Commits three transactions in this order; whether the settings written then are these. */
static int commits_leave(uint8_t *bytes, const uint32_t order[3], const uint8_t *settings, size_t length)
{
    static uint8_t out[NOODLEFEN_XML_BYTES];
    for (int i = 0; i < 3; i++)
        must(noodlefen_commit(bytes, NOODLEFEN_STATE_BYTES, order[i]));
    noodlefen_answer written = must(noodlefen_write(bytes, NOODLEFEN_STATE_BYTES, out, sizeof out));
    return noodlefen_value(written) == length && memcmp(out, settings, length) == 0;
}

/* Three engineers at settings beside each other: the second inserts between what the others change, and the third deletes the text of an
 * element whose name the first has read. All six orders are tried on copies; then they commit in one of them. */
static void who_first(void)
{
    static const uint32_t orders[6][3] = {{1, 2, 3}, {1, 3, 2}, {2, 1, 3}, {2, 3, 1}, {3, 1, 2}, {3, 2, 1}};
    static uint8_t settings[NOODLEFEN_XML_BYTES];
    uint8_t content[NOODLEFEN_CONTENT_BYTES];
    noodlefen_node m;
    int same = 0;
    printf("who commits first\n");
    begin_with("<line><speed>6</speed><lamp><bulb/><bulb/></lamp><door>shut</door></line>");
    must(noodlefen_begin(state, sizeof state, 3));
    must(update(state, 1, 3, "7"));
    must(noodlefen_read(state, sizeof state, 1, 7, content, sizeof content));
    must(insert_new(2, NOODLEFEN_ELEMENT, "ramp", 1, 2, &m));
    must(noodlefen_rename_tree(state, sizeof state, 3, 4, (const uint8_t *)"bulb", 4, (const uint8_t *)"led", 3));
    must(noodlefen_delete(state, sizeof state, 3, 8));
    print_settings(state);
    size_t length = (size_t)noodlefen_value(must(preview(settings, sizeof settings)));
    printf("  when all have committed:\n");
    print_settings(copy);
    for (int i = 0; i < 6; i++) {
        memcpy(copy, state, sizeof copy);
        same += commits_leave(copy, orders[i], settings, length);
    }
    printf("  the same in %d of 6 orders\n", same);
    printf("  the third, the first, the second: %s\n", commits_leave(state, orders[4], settings, length) ? "the same" : "FAILED");
    print_settings(state);
}

/* --- The committed settings in the copy, with transaction 1 open in it: its steps there wait for nobody and lock nothing in the state. */
static void copy_committed(void)
{
    memcpy(copy, state, sizeof copy);
    for (uint32_t t = 1; t <= NOODLEFEN_TRANSACTIONS; t++)
        noodlefen_abort(copy, sizeof copy, t); /* refused for cause 3 where t is not open */
    must(noodlefen_begin(copy, sizeof copy, 1));
}

static void read_copy(void)
{
    uint8_t content[NOODLEFEN_CONTENT_BYTES];
    printf("reading without locks\n");
    begin_with("<a>6</a>");
    must(update(state, 1, 2, "7"));
    print_answer("read of the state", noodlefen_read(state, sizeof state, 2, 2, content, sizeof content));
    copy_committed();
    noodlefen_answer answer = must(noodlefen_read(copy, sizeof copy, 1, 2, content, sizeof content));
    printf("  read of the copy: \"%.*s\"\n", (int)noodlefen_value(answer), (const char *)content);
    must(update(state, 1, 2, "8"));
}

/* --- What a step would answer, without its locks: the step on a copy. */
static void predict(void)
{
    printf("a wait predicted\n");
    begin_with("<a>6</a>");
    must(update(state, 1, 2, "7"));
    memcpy(copy, state, sizeof copy);
    print_answer("update tried on a copy", update(copy, 2, 2, "8"));
    print_answer("test tried on a copy", noodlefen_test(copy, sizeof copy, 2, 2));
}

/* --- Whom an update that was refused for cause 17 would wait for, as a set, found on a copy: T on the document is always granted, and with
 * it each other transaction waits for nobody there, so that there is no ring. */
static uint64_t would_wait_for(uint32_t t, noodlefen_node n, const char *text)
{
    memcpy(copy, state, sizeof copy);
    for (uint32_t other = 1; other <= NOODLEFEN_TRANSACTIONS; other++)
        if (other != t)
            noodlefen_test(copy, sizeof copy, other, 0); /* refused for cause 3 where it is not open */
    noodlefen_answer answer = update(copy, t, n, text);
    return noodlefen_waits(answer) ? noodlefen_value(answer) : 0;
}

static void print_set(const char *what, uint64_t set)
{
    printf("  %s", what);
    for (uint32_t t = 1; t <= NOODLEFEN_TRANSACTIONS; t++)
        if (set >> (t - 1) & 1)
            printf(" transaction %u", (unsigned)t);
    printf("\n");
}

/* --- Gives way to the others of a ring: t ends, and what it has done is kept or taken back; then it begins anew, without locks. */
static void give_way(uint32_t t, int keep)
{
    must(keep ? noodlefen_commit(state, sizeof state, t) : noodlefen_abort(state, sizeof state, t));
    must(noodlefen_begin(state, sizeof state, t));
}

/* Two engineers read a value, then change it: each would wait for the other's lock of reading. The second has changed something else
 * before, which it keeps or takes back. */
static void ring(int keep)
{
    uint8_t content[NOODLEFEN_CONTENT_BYTES];
    printf("read, then update, by two engineers: the second %s\n", keep ? "commits what it has done" : "aborts");
    begin_with("<a><b>6</b><c>on</c></a>");
    must(update(state, 2, 5, "off"));
    must(noodlefen_read(state, sizeof state, 1, 3, content, sizeof content));
    must(noodlefen_read(state, sizeof state, 2, 3, content, sizeof content));
    print_answer("update by the first", update(state, 1, 3, "7"));
    print_answer("update by the second", update(state, 2, 3, "8"));
    print_answer("the same once more", update(state, 2, 3, "8"));
    print_set("it would wait for", would_wait_for(2, 3, "8"));
    give_way(2, keep);
    print_answer("update by the first", update(state, 1, 3, "7"));
    print_answer("update by the second, begun anew", update(state, 2, 3, "8"));
    must(noodlefen_commit(state, sizeof state, 1));
    print_answer("once the first has committed", update(state, 2, 3, "8"));
    must(noodlefen_commit(state, sizeof state, 2));
    print_settings(state);
}

/* --- Gives up a step that waits and keeps the transaction open: with T on the document, which is always granted and which nobody ever
 * waits for, t waits no more. Without it t is remembered to wait, also if it never asks again. */
static void stop_waiting(uint32_t t)
{
    must(noodlefen_test(state, sizeof state, t, 0));
}

/* The first engineer waits for the second, then changes its mind and goes on thinking. */
static void given_up(void)
{
    printf("a wait given up\n");
    begin_with("<a><b>6</b><c>on</c></a>");
    must(update(state, 1, 3, "7"));
    must(update(state, 2, 5, "off"));
    print_answer("update by the first", update(state, 1, 5, "dim"));
    print_answer("update by the second", update(state, 2, 3, "8"));
    stop_waiting(1);
    print_answer("the first has given up, update by the second", update(state, 2, 3, "8"));
}

/* --- Adds 1 to a number, in one hold of the mutex: what the transaction would read, from a copy, so that no lock of reading stands in
 * anybody's way; then the update. Two engineers who do so never wait in a ring for this node. */
static noodlefen_answer add_one(uint32_t t, noodlefen_node n)
{
    char content[NOODLEFEN_CONTENT_BYTES + 1] = "";
    memcpy(copy, state, sizeof copy);
    noodlefen_answer answer = noodlefen_read(copy, sizeof copy, t, n, (uint8_t *)content, NOODLEFEN_CONTENT_BYTES);
    if (!noodlefen_granted(answer))
        return answer;
    snprintf(content, sizeof content, "%ld", strtol(content, NULL, 10) + 1);
    return update(state, t, n, content);
}

static void no_ring(void)
{
    printf("read a copy, then update, by two engineers\n");
    begin_with("<a>6</a>");
    print_answer("first", add_one(1, 2));
    print_answer("second", add_one(2, 2));
    print_answer("first, once more", add_one(1, 2));
    must(noodlefen_commit(state, sizeof state, 1));
    print_answer("second", add_one(2, 2));
    must(noodlefen_commit(state, sizeof state, 2));
    print_settings(state);
}

/* --- Commits count from 1 again: the committed settings are written and loaded, which numbers all nodes anew. What is open is aborted. */
static noodlefen_answer renew(void)
{
    static uint8_t out[NOODLEFEN_XML_BYTES];
    noodlefen_answer written = noodlefen_write(state, sizeof state, out, sizeof out);
    if (!noodlefen_granted(written))
        return written; /* nothing has changed */
    for (uint32_t t = 1; t <= NOODLEFEN_TRANSACTIONS; t++)
        noodlefen_abort(state, sizeof state, t); /* refused for cause 3 where t is not open */
    return noodlefen_load(state, sizeof state, out, (size_t)noodlefen_value(written));
}

/* The first engineer changes a value while others commit so often that no further commit is granted. */
static void no_more_commits(void)
{
    printf("a commit after 1,000,000 others\n");
    begin_with("<a>6</a>");
    must(update(state, 1, 2, "7"));
    for (int i = 0; i < NOODLEFEN_COMMITS; i++) {
        must(noodlefen_begin(state, sizeof state, 3));
        must(noodlefen_commit(state, sizeof state, 3));
    }
    print_answer("commit", noodlefen_commit(state, sizeof state, 1));
    print_answer("once more", noodlefen_commit(state, sizeof state, 1));
    print_settings(state);
    print_answer("written and loaded", renew());
    must(noodlefen_begin(state, sizeof state, 1));
    must(update(state, 1, 2, "7"));
    print_answer("the change made again, commit", noodlefen_commit(state, sizeof state, 1));
    printf("  its count: %u\n", (unsigned)noodlefen_count(must(noodlefen_count_of(state, sizeof state, 2))));
    print_settings(state);
}

int main(void)
{
    numbers();
    values();
    cutting();
    deletion();
    joining();
    two_deletions();
    who_first();
    read_copy();
    predict();
    ring(0);
    ring(1);
    given_up();
    no_ring();
    no_more_commits();
    return 0;
}
