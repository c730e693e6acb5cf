#include "state.h"

enum mode { LT, LC, LR, LU, LW, LTT, LRR, LUU, LIR, LIU, LIW, LICW };

#define M(mode) (1u << (mode))

/* For each mode the set of modes that clash with it. */
enum clash {
    X_LT = 0x010, X_LC = 0x810, X_LR = 0x098, X_LU = 0x0DC, X_LW = 0xFFF, X_LTT = 0xC10,
    X_LRR = 0xE98, X_LUU = 0xFDC, X_LIR = 0x090, X_LIU = 0x0D0, X_LIW = 0x0F0, X_LICW = 0x0F2
};

/* What a step needs on its node, on the parent and above the parent: modes, and the modes that clash with them. */
struct needs {
    unsigned on, parent, above;
    unsigned on_clash, parent_clash, above_clash;
};

static const struct needs
    needs_t = {M(LT), M(LT), M(LT), X_LT, X_LT, X_LT},
    needs_c = {M(LC), M(LT), M(LT), X_LC, X_LT, X_LT},
    needs_r = {M(LR), M(LIR), M(LIR), X_LR, X_LIR, X_LIR},
    needs_u = {M(LU), M(LIU), M(LIU), X_LU, X_LIU, X_LIU},
    needs_d = {M(LW), M(LICW), M(LIW), X_LW, X_LICW, X_LIW},
    needs_i = {M(LC) | M(LICW), M(LT) | M(LIW), M(LT) | M(LIW), X_LC | X_LICW, X_LT | X_LIW, X_LT | X_LIW},
    needs_tt = {M(LTT), M(LT), M(LT), X_LTT, X_LT, X_LT},
    needs_rr = {M(LRR), M(LIR), M(LIR), X_LRR, X_LIR, X_LIR},
    needs_uu = {M(LUU), M(LIU), M(LIU), X_LUU, X_LIU, X_LIU};

struct path {
    unsigned length;
    uint16_t slots[NODES + 1]; /* of the node and its ancestors, upwards */
};

static void find_path(struct path *path, const uint8_t *s, unsigned row)
{
    unsigned depth = depth_of(s, row);
    path->slots[0] = (uint16_t)slot_of(s, row);
    path->length = 1;
    while (depth > 0) {
        row--;
        if (depth_of(s, row) < depth) {
            depth--;
            path->slots[path->length++] = (uint16_t)slot_of(s, row);
        }
    }
}

static unsigned wait_set(uint8_t *s, unsigned t, const struct path *path, const struct needs *needs)
{
    unsigned set = 0, others = open_set(s) & ~(1u << (t - 1));
    for (unsigned u = 1; others >> (u - 1) != 0; u++) {
        if ((others >> (u - 1) & 1) == 0)
            continue;
        const uint8_t *locks = locks_of(s, u);
        unsigned clash = get16(locks + 2 * path->slots[0]) & needs->on_clash;
        if (path->length > 1)
            clash |= get16(locks + 2 * path->slots[1]) & needs->parent_clash;
        for (unsigned i = 2; i < path->length; i++)
            clash |= get16(locks + 2 * path->slots[i]) & needs->above_clash;
        set |= (unsigned)(clash != 0) << (u - 1);
    }
    return set;
}

/* Whether t reaches itself, each waiting for the next, if it waits for this set. Each round takes one step more on all paths at once. */
static int closes_ring(const uint8_t *s, unsigned t, unsigned set)
{
    unsigned reached = set, before = 0;
    while (reached != before && (reached >> (t - 1) & 1) == 0) {
        before = reached;
        for (unsigned u = 1; before >> (u - 1) != 0; u++)
            reached |= waits_of(s, u) & (0u - (before >> (u - 1) & 1));
    }
    return (int)(reached >> (t - 1) & 1);
}

/* The answer of a step that cannot be granted because of this set: it waits, or it is refused for the ring. */
static noodlefen_answer wait_for(uint8_t *s, unsigned t, unsigned set)
{
    if (closes_ring(s, t, set))
        return refused(17, 0);
    put_waits(s, t, set);
    return waits(set);
}

static void add_modes(uint8_t *locks, unsigned slot, unsigned modes)
{
    put16(locks + 2 * slot, get16(locks + 2 * slot) | modes);
}

/* The locks of a step, and t waits for nobody any more. */
static void grant(uint8_t *s, unsigned t, const struct path *path, const struct needs *needs)
{
    uint8_t *locks = locks_of(s, t);
    put_waits(s, t, 0);
    add_modes(locks, path->slots[0], needs->on);
    if (path->length > 1)
        add_modes(locks, path->slots[1], needs->parent);
    for (unsigned i = 2; i < path->length; i++)
        add_modes(locks, path->slots[i], needs->above);
}

/* The refusals 13 (state), 1, 3 and 7; 0 if there is none. */
static inline unsigned first_causes(const uint8_t *s, size_t length, uint32_t t, noodlefen_node n, unsigned *row)
{
    if (!bench_form(s, length, n, row))
        return 13;
    if (t - 1 >= TRANSACTIONS)
        return 1;
    if ((open_set(s) >> (t - 1) & 1) == 0)
        return 3;
    if (*row == rows_in(s) || s[AT_DELETED + *row] == t)
        return 7;
    return 0;
}

/* The row behind the subtree of this one. */
static unsigned subtree_end(const uint8_t *s, unsigned row)
{
    unsigned count = rows_in(s), depth = depth_of(s, row), end = row + 1;
    while (end < count && depth_of(s, end) > depth)
        end++;
    return end;
}

noodlefen_answer bench_test(uint8_t *s, size_t length, uint32_t t, noodlefen_node n)
{
    unsigned row, set, cause = first_causes(s, length, t, n, &row);
    struct path path;
    if (cause != 0)
        return refused(cause, 0);
    find_path(&path, s, row);
    if ((set = wait_set(s, t, &path, &needs_t)) != 0)
        return wait_for(s, t, set);
    grant(s, t, &path, &needs_t);
    unsigned depth = depth_of(s, row), parent = row;
    while (depth > 0 && depth_of(s, parent) >= depth)
        parent--;
    return granted(number_of(s, parent) + ((uint64_t)s[AT_KIND + row] << 32));
}

noodlefen_answer bench_child(uint8_t *s, size_t length, uint32_t t, noodlefen_node n, uint32_t k)
{
    unsigned row, set, cause = first_causes(s, length, t, n, &row);
    struct path path;
    if (cause != 0)
        return refused(cause, 0);
    find_path(&path, s, row);
    if ((set = wait_set(s, t, &path, &needs_c)) != 0)
        return wait_for(s, t, set);
    grant(s, t, &path, &needs_c);
    unsigned count = rows_in(s), depth = depth_of(s, row);
    for (unsigned child = row + 1; child < count && depth_of(s, child) > depth && k > 0; child++)
        if (depth_of(s, child) == depth + 1 && s[AT_DELETED + child] != t && --k == 0)
            return granted(number_of(s, child) + ((uint64_t)s[AT_KIND + child] << 32));
    return granted(0);
}

noodlefen_answer bench_read(uint8_t *s, size_t length, uint32_t t, noodlefen_node n, uint8_t *out, size_t out_len)
{
    unsigned row, set, cause = first_causes(s, length, t, n, &row);
    struct path path;
    if (cause != 0)
        return refused(cause, 0);
    if (row == 0)
        return refused(8, 0);
    find_path(&path, s, row);
    if ((set = wait_set(s, t, &path, &needs_r)) != 0)
        return wait_for(s, t, set);
    const uint8_t *cell = cell_in(s, row);
    if (out_len < cell[0])
        return refused(13, 0);
    grant(s, t, &path, &needs_r);
    memcpy(out, cell + 1, cell[0]);
    return granted(cell[0]);
}

/* Gives the row a content and keeps the committed one. */
static void change_content(uint8_t *s, unsigned t, unsigned row, const uint8_t *bytes, size_t length)
{
    unsigned slot = slot_of(s, row);
    if (s[AT_INSERTED + row] == 0 && s[AT_CHANGED + row] == 0) {
        memcpy(saved_at(s, slot), cell_at(s, slot), CELL);
        s[AT_CHANGED + row] = (uint8_t)t;
    }
    put_cell(cell_at(s, slot), bytes, length);
}

noodlefen_answer bench_update(uint8_t *s, size_t length, uint32_t t, noodlefen_node n, const uint8_t *bytes, size_t bytes_len)
{
    unsigned row, set, cause = first_causes(s, length, t, n, &row);
    struct path path;
    if (cause != 0)
        return refused(cause, 0);
    if (row == 0)
        return refused(8, 0);
    if (!(s[AT_KIND + row] == 4 ? bench_text(bytes, bytes_len) : bench_name(bytes, bytes_len)))
        return refused(9, 0);
    find_path(&path, s, row);
    if ((set = wait_set(s, t, &path, &needs_u)) != 0)
        return wait_for(s, t, set);
    grant(s, t, &path, &needs_u);
    change_content(s, t, row, bytes, bytes_len);
    return granted(0);
}

noodlefen_answer bench_delete(uint8_t *s, size_t length, uint32_t t, noodlefen_node n)
{
    unsigned row, set, cause = first_causes(s, length, t, n, &row);
    struct path path;
    if (cause != 0)
        return refused(cause, 0);
    if (row == 0)
        return refused(8, 0);
    find_path(&path, s, row);
    if ((set = wait_set(s, t, &path, &needs_d)) != 0)
        return wait_for(s, t, set);
    grant(s, t, &path, &needs_d);
    memset(s + AT_DELETED + row, (int)t, subtree_end(s, row) - row);
    return granted(0);
}

/* The row where a k-th child of the kind goes, or 0 if the place is not allowed. */
static unsigned place_of(const uint8_t *s, unsigned t, unsigned row, unsigned kind, uint32_t k)
{
    unsigned count = rows_in(s), depth = depth_of(s, row), children = 0, place = 0, at = row + 1;
    unsigned before = 3, behind = 4; /* kinds of the neighbours, if there are any */
    for (; at < count && depth_of(s, at) > depth; at++) {
        if (depth_of(s, at) != depth + 1 || s[AT_DELETED + at] == t)
            continue;
        children++;
        if (children + 1 == k)
            before = s[AT_KIND + at];
        if (children == k) {
            place = at;
            behind = s[AT_KIND + at];
        }
    }
    if (k == 0 || k > children + 1 || (s[AT_KIND + row] != 2 && children > 0))
        return 0;
    if (s[AT_KIND + row] == 2 && (kind == 3 ? before != 3 : behind == 3))
        return 0;
    return k == children + 1 ? at : place;
}

static void insert_row(uint8_t *s, unsigned row, uint32_t number, unsigned depth, unsigned kind, unsigned t)
{
    unsigned count = rows_in(s), after = count - row, slot = slot_of(s, count);
    memmove(s + AT_NUMBER + 4 * (row + 1), s + AT_NUMBER + 4 * row, 4 * after);
    memmove(s + AT_SLOT + 2 * (row + 1), s + AT_SLOT + 2 * row, 2 * after);
    memmove(s + AT_DEPTH + 2 * (row + 1), s + AT_DEPTH + 2 * row, 2 * after);
    memmove(s + AT_KIND + row + 1, s + AT_KIND + row, after);
    memmove(s + AT_INSERTED + row + 1, s + AT_INSERTED + row, after);
    memmove(s + AT_DELETED + row + 1, s + AT_DELETED + row, after);
    memmove(s + AT_CHANGED + row + 1, s + AT_CHANGED + row, after);
    put32(s + AT_NUMBER + 4 * row, number);
    put16(s + AT_SLOT + 2 * row, slot);
    put16(s + AT_DEPTH + 2 * row, depth);
    s[AT_KIND + row] = (uint8_t)kind;
    s[AT_INSERTED + row] = (uint8_t)t;
    s[AT_DELETED + row] = 0;
    s[AT_CHANGED + row] = 0;
    put16(s + AT_ROWS, count + 1);
}

static int number_held(const uint8_t *s, uint32_t number)
{
    unsigned count = rows_in(s), found = 0;
    for (unsigned row = 0; row < count; row++)
        found |= number_of(s, row) == number;
    return (int)found;
}

noodlefen_answer bench_insert(uint8_t *s, size_t length, uint32_t t, noodlefen_node m, uint32_t kind,
                              const uint8_t *bytes, size_t bytes_len, noodlefen_node n, uint32_t k)
{
    /* By the parent's kind, the set of kinds that it takes. */
    static const uint8_t takes[5] = {0, M(2), M(2) | M(3) | M(4), M(4), 0};
    unsigned row, set, place, cause = first_causes(s, length, t, n, &row);
    struct path path;
    if (cause != 0)
        return refused(cause, 0);
    if (kind > 4 || (takes[s[AT_KIND + row]] >> kind & 1) == 0)
        return refused(8, 0);
    if (!(kind == 4 ? bench_text(bytes, bytes_len) : bench_name(bytes, bytes_len)))
        return refused(9, 0);
    if (number_held(s, m))
        return refused(10, 0);
    find_path(&path, s, row);
    if ((set = wait_set(s, t, &path, &needs_i)) != 0)
        return wait_for(s, t, set);
    if ((place = place_of(s, t, row, kind, k)) == 0)
        return refused(11, 0);
    if (rows_in(s) == NODES)
        return refused(12, 0);
    grant(s, t, &path, &needs_i);
    insert_row(s, place, m, depth_of(s, row) + 1, kind, t);
    put_cell(cell_at(s, slot_of(s, place)), bytes, bytes_len);
    add_modes(locks_of(s, t), slot_of(s, place), M(LW));
    return granted(0);
}

/* The rows of the subtree that t sees. */
static unsigned list_rows(const uint8_t *s, unsigned t, unsigned row, uint16_t *rows)
{
    unsigned end = subtree_end(s, row), listed = 0;
    for (unsigned at = row; at < end; at++) {
        rows[listed] = (uint16_t)at;
        listed += s[AT_DELETED + at] != t;
    }
    return listed;
}

noodlefen_answer bench_test_tree(uint8_t *s, size_t length, uint32_t t, noodlefen_node n, uint8_t *numbers, size_t numbers_len)
{
    unsigned row, set, cause = first_causes(s, length, t, n, &row);
    struct path path;
    uint16_t rows[NODES];
    if (cause != 0)
        return refused(cause, 0);
    find_path(&path, s, row);
    if ((set = wait_set(s, t, &path, &needs_tt)) != 0)
        return wait_for(s, t, set);
    unsigned listed = list_rows(s, t, row, rows);
    if (numbers_len < 4 * (size_t)listed)
        return refused(13, 0);
    grant(s, t, &path, &needs_tt);
    for (unsigned i = 0; i < listed; i++)
        put32(numbers + 4 * i, number_of(s, rows[i]));
    return granted(listed);
}

noodlefen_answer bench_read_tree(uint8_t *s, size_t length, uint32_t t, noodlefen_node n,
                                 uint8_t *numbers, size_t numbers_len, uint8_t *cells, size_t cells_len)
{
    unsigned row, set, cause = first_causes(s, length, t, n, &row);
    struct path path;
    uint16_t rows[NODES];
    if (cause != 0)
        return refused(cause, 0);
    find_path(&path, s, row);
    if ((set = wait_set(s, t, &path, &needs_rr)) != 0)
        return wait_for(s, t, set);
    unsigned listed = list_rows(s, t, row, rows);
    if (numbers_len < 4 * (size_t)listed || cells_len < CELL * (size_t)listed)
        return refused(13, 0);
    grant(s, t, &path, &needs_rr);
    for (unsigned i = 0; i < listed; i++) {
        put32(numbers + 4 * i, number_of(s, rows[i]));
        memcpy(cells + CELL * (size_t)i, cell_in(s, rows[i]), CELL);
    }
    return granted(listed);
}

noodlefen_answer bench_rename_tree(uint8_t *s, size_t length, uint32_t t, noodlefen_node n,
                                   const uint8_t *from, size_t from_len, const uint8_t *to, size_t to_len)
{
    unsigned row, set, cause = first_causes(s, length, t, n, &row);
    struct path path;
    if (cause != 0)
        return refused(cause, 0);
    if (!bench_name(from, from_len) || !bench_name(to, to_len))
        return refused(9, 0);
    find_path(&path, s, row);
    if ((set = wait_set(s, t, &path, &needs_uu)) != 0)
        return wait_for(s, t, set);
    grant(s, t, &path, &needs_uu);
    unsigned end = subtree_end(s, row), renamed = 0;
    for (unsigned at = row; at < end; at++) {
        const uint8_t *cell = cell_in(s, at);
        if (s[AT_KIND + at] == 2 && s[AT_DELETED + at] != t && cell[0] == from_len && memcmp(cell + 1, from, from_len) == 0) {
            change_content(s, t, at, to, to_len);
            renamed++;
        }
    }
    return granted(renamed);
}
