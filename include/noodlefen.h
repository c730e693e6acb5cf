/*
 * noodlefen.h: the C interface of Noodlefen, a lock engine for shared XML settings.
 *
 * The caller lends all memory. The state is a run of bytes of any alignment: noodlefen_start sets it to
 * the beginning, and every other call wants it as the call before left it. It may be moved between calls, all of it.
 *
 * Slices of one call (state, input, output) must not overlap. A length of 0 wants a pointer that is not
 * NULL; the functions ending in _nullable also take NULL, which means length 0 whatever length is said.
 *
 * A call is granted, waits or is refused. A refused call has changed nothing that was lent; one that waits has
 * changed only what the state remembers of it (below). Bytes of a lent buffer behind the answer keep their values.
 * State bytes that are too short, or not of the form (except at start), refuse any call with cause 13 before all else.
 *
 * Whom a transaction waits for is remembered in the state: the set that its last waiting step answered, until its
 * next step that is granted or waits, or its end; a transaction that ends is struck from the sets of all others. A
 * step whose wait would close a ring of transactions, each waiting for the next, is refused for 17 instead, so
 * while any transaction is open, at least one of them waits for nobody in these sets.
 *
 * Granted commits are counted, from 1 after the last granted start or load. A committed node bears the count of the commit that inserted
 * it or last updated its content, with the same bytes too; the document and loaded nodes bear 0. noodlefen_count_of tells it.
 */
#ifndef NOODLEFEN_H
#define NOODLEFEN_H

#include <stddef.h>
#include <stdint.h>

#ifdef __cplusplus
extern "C" {
#endif

/* The version of this interface. MAJOR grows when a program that was right has to be changed or compiled again, MINOR when calls
 * or causes are added, or when a file is read or written otherwise. NOODLEFEN_VERSION is a number that #if can compare: 1000 for
 * each MAJOR. */
#define NOODLEFEN_VERSION_MAJOR 4
#define NOODLEFEN_VERSION_MINOR 0
#define NOODLEFEN_VERSION (1000 * NOODLEFEN_VERSION_MAJOR + NOODLEFEN_VERSION_MINOR)

/* The format mark: the first bytes of every started state. It changes whenever the form of the state bytes does, and a state with
 * another mark is refused for 13 by every call but start. To change the library, write the settings out with the old one and load
 * them with the new one; do not hand over state bytes. */
#define NOODLEFEN_FORMAT "NFSTATE4"

/* The state's exact need in bytes; 1,048,576 are never too short. */
#define NOODLEFEN_STATE_BYTES 116784

/* A node number, 0 to 4,294,967,295. In a lent list of numbers it takes as many bytes as this type, four. Keep numbers in variables of
 * this type: C cuts a wider number without a word when it is handed over, and an int has no room for the upper half of them. */
typedef uint32_t noodlefen_node;

#define NOODLEFEN_TRANSACTIONS 16  /* transaction numbers are 1 to 16 */
#define NOODLEFEN_NODES 1024       /* nodes held at most, the document included */
#define NOODLEFEN_COMMITS 1000000  /* commits granted at most since the last granted start or load */
#define NOODLEFEN_CONTENT_BYTES 32 /* bytes of a name or text at most, in UTF-8; a character takes one to four */
#define NOODLEFEN_NUMBER_BYTES (sizeof(noodlefen_node)) /* bytes of a node number in a lent list, low byte first */
#define NOODLEFEN_CELL_BYTES 33    /* bytes of a cell of noodlefen_read_tree: length, content, zeros */
#define NOODLEFEN_XML_BYTES 65536  /* bytes of an XML document at most */

/* Kinds of nodes. */
enum noodlefen_kinds {
    NOODLEFEN_DOCUMENT = 1,
    NOODLEFEN_ELEMENT = 2,
    NOODLEFEN_ATTRIBUTE = 3,
    NOODLEFEN_TEXT = 4
};

/* Bits 0 to 7 of an answer. */
enum noodlefen_outcomes {
    NOODLEFEN_GRANTED = 0,
    NOODLEFEN_WAITS = 1,
    NOODLEFEN_REFUSED = 2
};

/* Bits 8 to 15 of an answer: why a call was refused. */
enum noodlefen_causes {
    NOODLEFEN_NO_CAUSE = 0,           /* granted or waits */
    NOODLEFEN_TRANSACTION_NUMBER = 1, /* transaction number not 1 to 16 */
    NOODLEFEN_ALREADY_OPEN = 2,       /* begin of an open transaction */
    NOODLEFEN_NOT_OPEN = 3,           /* other call, transaction not open */
    NOODLEFEN_GRAMMAR = 4,            /* load: not of the grammar; the value is the byte offset */
    NOODLEFEN_LOADED_CONTENT = 5,     /* load: a 33rd content byte; the value is the byte offset */
    NOODLEFEN_LOADED_NODES = 6,       /* load: a 1,025th node; the value is the byte offset */
    NOODLEFEN_NO_NODE = 7,            /* no node so numbered, or the caller deleted it or an ancestor; count_of: no committed node */
    NOODLEFEN_KIND = 8,               /* read, update or delete on the document; insert of a kind that never stands there */
    NOODLEFEN_CONTENT = 9,            /* content or name not allowed: its characters, broken UTF-8, no byte or more than 32 */
    NOODLEFEN_NUMBER_HELD = 10,       /* insert: number held by any node */
    NOODLEFEN_PLACE = 11,             /* insert: k is 0 or past children + 1, or the children rule would break */
    NOODLEFEN_FULL = 12,              /* insert: 1,024 nodes held */
    NOODLEFEN_TOO_SHORT = 13,         /* lent buffer too short for the answer, or state bytes too short or not of the form */
    NOODLEFEN_NOT_EXPRESSIBLE = 14,   /* write: not expressible */
    NOODLEFEN_TRANSACTION_OPEN = 15,  /* load while a transaction is open */
    NOODLEFEN_DEADLOCK = 17,          /* a step that would wait in a ring of transactions, each waiting for the next */
    NOODLEFEN_NO_MORE_COMMITS = 18    /* commit: 1,000,000 were granted since the last granted start or load */
};

/* What a call answers: outcome (bits 0 to 7), cause (8 to 15) and value (16 to 63). Use the functions below. */
typedef uint64_t noodlefen_answer;

/* Whether the call was granted. */
static inline int noodlefen_granted(noodlefen_answer answer) { return (answer & 0xFF) == NOODLEFEN_GRANTED; }

/* Whether the call waits: nothing has changed but that its transaction is remembered as waiting, and it may be made again later.
 * noodlefen_value is the set of transactions that it waits for, bit t-1 for transaction t. */
static inline int noodlefen_waits(noodlefen_answer answer) { return (answer & 0xFF) == NOODLEFEN_WAITS; }

/* Whether the call was refused, for the cause noodlefen_cause. */
static inline int noodlefen_refused(noodlefen_answer answer) { return (answer & 0xFF) == NOODLEFEN_REFUSED; }

/* The cause of a refusal, one of enum noodlefen_causes; otherwise 0. */
static inline unsigned noodlefen_cause(noodlefen_answer answer) { return (unsigned)((answer >> 8) & 0xFF); }

/* The cause in words. */
static inline const char *noodlefen_cause_text(unsigned cause)
{
    switch (cause) {
    case NOODLEFEN_NO_CAUSE: return "not refused";
    case NOODLEFEN_TRANSACTION_NUMBER: return "the transaction number is not 1 to 16";
    case NOODLEFEN_ALREADY_OPEN: return "the transaction is already open";
    case NOODLEFEN_NOT_OPEN: return "the transaction is not open";
    case NOODLEFEN_GRAMMAR: return "the input is not XML as this library reads it";
    case NOODLEFEN_LOADED_CONTENT: return "a name, value or text of the input is longer than 32 bytes";
    case NOODLEFEN_LOADED_NODES: return "the input has more than 1,024 nodes";
    case NOODLEFEN_NO_NODE: return "there is no node of this number";
    case NOODLEFEN_KIND: return "this cannot be done with a node of this kind";
    case NOODLEFEN_CONTENT: return "the content or name is not allowed";
    case NOODLEFEN_NUMBER_HELD: return "a node already holds this number";
    case NOODLEFEN_PLACE: return "a node of this kind cannot be inserted at this place";
    case NOODLEFEN_FULL: return "1,024 nodes are held already";
    case NOODLEFEN_TOO_SHORT: return "a lent buffer is too short, or the state is too short, damaged or never started";
    case NOODLEFEN_NOT_EXPRESSIBLE: return "the settings cannot be written as XML";
    case NOODLEFEN_TRANSACTION_OPEN: return "a transaction is open";
    case NOODLEFEN_DEADLOCK: return "transactions would wait for each other in a ring";
    case NOODLEFEN_NO_MORE_COMMITS: return "1,000,000 transactions were committed since the last start or load";
    default: return "unknown cause";
    }
}

/* The value: what the call's own comment says if granted, the set if it waits, the byte offset if refused for cause 4, 5 or 6,
 * otherwise 0. */
static inline uint64_t noodlefen_value(noodlefen_answer answer) { return answer >> 16; }

/* The kind in a granted answer of noodlefen_test or noodlefen_child; 0 if there is no such child. Ask noodlefen_granted first: an
 * answer that waits or is refused has kind 0 too. */
static inline unsigned noodlefen_kind(noodlefen_answer answer) { return (unsigned)(noodlefen_value(answer) >> 32); }

/* The node number in a granted answer: the parent for noodlefen_test, the child for noodlefen_child. */
static inline noodlefen_node noodlefen_number(noodlefen_answer answer)
{
    return (noodlefen_node)(noodlefen_value(answer) & 0xFFFFFFFFu);
}

/* The count in a granted answer of noodlefen_count_of. */
static inline uint32_t noodlefen_count(noodlefen_answer answer) { return (uint32_t)(noodlefen_value(answer) & 0xFFFFFFFFu); }

/* Whether the call waits for transaction t, perhaps among others. */
static inline int noodlefen_blocked_by(noodlefen_answer answer, uint32_t t)
{
    return noodlefen_waits(answer) && t >= 1 && t <= NOODLEFEN_TRANSACTIONS && (noodlefen_value(answer) >> (t - 1) & 1) != 0;
}

/* Number i, counted from 0, of a list that noodlefen_test_tree or noodlefen_read_tree has written. */
static inline noodlefen_node noodlefen_list_number(const uint8_t *numbers, size_t i)
{
    uint32_t number = 0;
    for (size_t byte = NOODLEFEN_NUMBER_BYTES; byte > 0; byte--)
        number = number << 8 | numbers[i * NOODLEFEN_NUMBER_BYTES + byte - 1];
    return (noodlefen_node)number;
}

/* Length and content of cell i, counted from 0, of those that noodlefen_read_tree has written. */
static inline size_t noodlefen_cell_length(const uint8_t *cells, size_t i) { return cells[i * NOODLEFEN_CELL_BYTES]; }
static inline const uint8_t *noodlefen_cell_content(const uint8_t *cells, size_t i) { return cells + i * NOODLEFEN_CELL_BYTES + 1; }

/* A place in a text: line and column count from 1, and a column is a byte. */
typedef struct noodlefen_position {
    size_t line, column;
} noodlefen_position;

/* The place of a byte offset, counted from 0, such as the value of a refused load. An offset past the input is its end. */
static inline noodlefen_position noodlefen_position_of(const uint8_t *xml, size_t xml_len, uint64_t offset)
{
    noodlefen_position position = {1, 1};
    for (size_t i = 0; i < xml_len && i < offset; i++) {
        position.line += xml[i] == '\n';
        position.column = xml[i] == '\n' ? 1 : position.column + 1;
    }
    return position;
}

/* Sets the state to the beginning: the document node 0 alone, nothing open, nobody waiting, no commit counted. Ends all open transactions
 * without committing them.
 * Refused only if the state is too short (13). */
noodlefen_answer noodlefen_start(uint8_t *state, size_t state_len);

/* Replaces the settings by those of an XML document in UTF-8; nodes are numbered in document order from 0. A tab or line feed that stands in
 * an attribute's value is read as a space; the references &#9; and &#10; give these bytes. Commits count from 1 again. The value is the
 * node count, the document included. Refused for 15, then 4, 5 or 6 at the earliest byte offset. */
noodlefen_answer noodlefen_load(uint8_t *state, size_t state_len, const uint8_t *xml, size_t xml_len);

/* Writes the committed settings as XML, with &#9; and &#10; for tabs and line feeds in attributes' values, so that they are read as the
 * same bytes. The value is the length. It may be called at any time.
 * Refused for 14 or 13. */
noodlefen_answer noodlefen_write(const uint8_t *state, size_t state_len, uint8_t *out, size_t out_len);

/* The count of node n of the committed settings: noodlefen_count. What open transactions have done does not show: nodes that they inserted
 * are refused, and those that they deleted or updated have the count that they had. It takes no lock, never waits and changes nothing.
 * Refused for 7. */
noodlefen_answer noodlefen_count_of(const uint8_t *state, size_t state_len, noodlefen_node n);

/* Opens transaction t, 1 to 16.
 * Refused for 1 or 2. */
noodlefen_answer noodlefen_begin(uint8_t *state, size_t state_len, uint32_t t);

/* Ends transaction t and makes its changes lasting. The nodes that it inserted or updated, and that are still there, bear the count of this
 * commit from now on. Refused for 1, 3 or 18; after 18 t is open as before, and noodlefen_abort is granted. */
noodlefen_answer noodlefen_commit(uint8_t *state, size_t state_len, uint32_t t);

/* Ends transaction t and removes its changes.
 * Refused for 1 or 3. */
noodlefen_answer noodlefen_abort(uint8_t *state, size_t state_len, uint32_t t);

/* The nine steps. Each may wait, or be refused for 17 in the place of a wait. Then nothing has changed and t is still open, with all its
 * locks; the same call gives 17 again until another transaction of the ring ends, is granted a step, or waits for others. So do not
 * simply repeat it: abort t, or commit what it has done, so that the others can go on, and begin anew. */

/* Step T: the kind of node n and its parent's number (0 for the document): noodlefen_kind and noodlefen_number.
 * Refused for 1, 3, 7 or 17; may wait. */
noodlefen_answer noodlefen_test(uint8_t *state, size_t state_len, uint32_t t, noodlefen_node n);

/* Step C: number and kind of the k-th child of n, counted from 1; kind 0 if there is none.
 * Refused for 1, 3, 7 or 17; may wait. */
noodlefen_answer noodlefen_child(uint8_t *state, size_t state_len, uint32_t t, noodlefen_node n, uint32_t k);

/* Step R: writes the content of n to out; the value is its length, at most 32.
 * Refused for 1, 3, 7, 8, 17 or 13; may wait. */
noodlefen_answer noodlefen_read(uint8_t *state, size_t state_len, uint32_t t, noodlefen_node n, uint8_t *out, size_t out_len);

/* Step U: gives n the content bytes: a name for an element or attribute, a text for a text. A name is a Name of XML 1.0, Fifth
 * Edition, without colons, a text has that edition's characters but 13, both in UTF-8 and 1 to 32 bytes long.
 * Refused for 1, 3, 7, 8, 9 or 17; may wait. */
noodlefen_answer noodlefen_update(uint8_t *state, size_t state_len, uint32_t t, noodlefen_node n,
                                  const uint8_t *bytes, size_t bytes_len);

/* Step D: deletes n and all below it. Their numbers stay held until t ends.
 * Refused for 1, 3, 7, 8 or 17; may wait. */
noodlefen_answer noodlefen_delete(uint8_t *state, size_t state_len, uint32_t t, noodlefen_node n);

/* Step I: a new node numbered m of a kind 2 to 4, with the content bytes as for noodlefen_update, becomes the k-th child of n.
 * Refused for 1, 3, 7, 8, 9, 10, 17, 11 or 12; may wait (in the place of 17). */
noodlefen_answer noodlefen_insert(uint8_t *state, size_t state_len, uint32_t t, noodlefen_node m, uint32_t kind,
                                  const uint8_t *bytes, size_t bytes_len, noodlefen_node n, uint32_t k);

/* Step TT: writes the numbers of n and all below it in document order, low byte first; the value is their count.
 * Read them with noodlefen_list_number. Refused for 1, 3, 7, 17 or 13; may wait. */
noodlefen_answer noodlefen_test_tree(uint8_t *state, size_t state_len, uint32_t t, noodlefen_node n,
                                     uint8_t *numbers, size_t numbers_len);

/* Step RR: as noodlefen_test_tree, and a cell of 33 bytes for each node: length, content, zeros.
 * Read them with noodlefen_cell_length and noodlefen_cell_content. Refused for 1, 3, 7, 17 or 13 (either buffer);
 * may wait. */
noodlefen_answer noodlefen_read_tree(uint8_t *state, size_t state_len, uint32_t t, noodlefen_node n,
                                     uint8_t *numbers, size_t numbers_len, uint8_t *cells, size_t cells_len);

/* Step UU: each element in the subtree of n (n too) that is named from is named to; the value is how many.
 * Refused for 1, 3, 7, 9 or 17; may wait. */
noodlefen_answer noodlefen_rename_tree(uint8_t *state, size_t state_len, uint32_t t, noodlefen_node n,
                                       const uint8_t *from, size_t from_len, const uint8_t *to, size_t to_len);

/* A byte that nobody reads or writes: what a slice of length 0 points to where the caller has NULL. */
static inline uint8_t *noodlefen_nothing(void)
{
    static uint8_t nothing;
    return &nothing;
}

/* The calls that take a buffer, as functions that also take NULL for any slice, the state too: noodlefen_load_nullable and so on. */
#define NOODLEFEN_NULLABLE(call, parameters, arguments) \
    static inline noodlefen_answer noodlefen_##call##_nullable parameters { return noodlefen_##call arguments; }
#define NOODLEFEN_SLICE(bytes) bytes != NULL ? bytes : noodlefen_nothing(), bytes != NULL ? bytes##_len : 0

NOODLEFEN_NULLABLE(load, (uint8_t *state, size_t state_len, const uint8_t *xml, size_t xml_len),
                   (NOODLEFEN_SLICE(state), NOODLEFEN_SLICE(xml)))
NOODLEFEN_NULLABLE(write, (const uint8_t *state, size_t state_len, uint8_t *out, size_t out_len),
                   (NOODLEFEN_SLICE(state), NOODLEFEN_SLICE(out)))
NOODLEFEN_NULLABLE(read, (uint8_t *state, size_t state_len, uint32_t t, noodlefen_node n, uint8_t *out, size_t out_len),
                   (NOODLEFEN_SLICE(state), t, n, NOODLEFEN_SLICE(out)))
NOODLEFEN_NULLABLE(update, (uint8_t *state, size_t state_len, uint32_t t, noodlefen_node n, const uint8_t *bytes, size_t bytes_len),
                   (NOODLEFEN_SLICE(state), t, n, NOODLEFEN_SLICE(bytes)))
NOODLEFEN_NULLABLE(insert, (uint8_t *state, size_t state_len, uint32_t t, noodlefen_node m, uint32_t kind,
                            const uint8_t *bytes, size_t bytes_len, noodlefen_node n, uint32_t k),
                   (NOODLEFEN_SLICE(state), t, m, kind, NOODLEFEN_SLICE(bytes), n, k))
NOODLEFEN_NULLABLE(test_tree, (uint8_t *state, size_t state_len, uint32_t t, noodlefen_node n, uint8_t *numbers, size_t numbers_len),
                   (NOODLEFEN_SLICE(state), t, n, NOODLEFEN_SLICE(numbers)))
NOODLEFEN_NULLABLE(read_tree, (uint8_t *state, size_t state_len, uint32_t t, noodlefen_node n,
                               uint8_t *numbers, size_t numbers_len, uint8_t *cells, size_t cells_len),
                   (NOODLEFEN_SLICE(state), t, n, NOODLEFEN_SLICE(numbers), NOODLEFEN_SLICE(cells)))
NOODLEFEN_NULLABLE(rename_tree, (uint8_t *state, size_t state_len, uint32_t t, noodlefen_node n,
                                 const uint8_t *from, size_t from_len, const uint8_t *to, size_t to_len),
                   (NOODLEFEN_SLICE(state), t, n, NOODLEFEN_SLICE(from), NOODLEFEN_SLICE(to)))

#undef NOODLEFEN_NULLABLE
#undef NOODLEFEN_SLICE

#ifdef __cplusplus
}
#endif

#endif
