/*
 * Florinwick: an append-only tree for trade fills in which no repeat passes in silence. For C and C++17; link libflorinwick.a.
 *
 * The tree lives in a slice of memory that the caller lends: the store. It is cut into pages of one size, and the first `page_count`
 * of them are in use. Long values lie in a second slice, the heap, of which the first `heap_length` bytes are in use. Page size, page
 * count, heap length and the order of the datoms are the store's record, which is lent too. The library keeps nothing between calls,
 * allocates nothing, opens nothing and calls nothing back: a caller that holds the record, the root and the bytes of both slices holds the
 * tree. After a call that is Done the caller adds the pages written to its page count and keeps the new root; after an append that is Done
 * it adds the bytes appended to its heap length. Older roots go on listing what they listed, as pages and constants are only ever appended.
 *
 * A byte slice is a pointer and then a length. No pointer to bytes needs an alignment. Slices that one call may write must not overlap any
 * other slice of that call. A slice of length 0 is still given by a pointer that is not null. Calls on one store or heap that only read may
 * run at the same time; a call that writes must be alone with what it writes. One heap may serve several stores.
 *
 * A datom is 32 bytes: entity, attribute, value, transaction_operation, each 8 bytes little-endian.
 *   value                  top bits 00 an integer below 2^62; 10 a string of at most 7 bytes: its length in bits 56 to 61, its first byte
 *                          lowest, unused bytes zero; 01 an integer of 2^62 or more, and 11 a string of 8 bytes or more, both a constant
 *                          on the heap, at the offset in the other 62 bits; 2^64-1 is max, which a bound may have and a stored datom may not
 *   transaction_operation  an even transaction, plus 1 for assert, 0 for retract
 * A constant lies at an offset that is a multiple of 8, whole below the heap length: an integer as one word of 8 bytes, little-endian; a
 * string as its length, such a word, its bytes, and zeros to a multiple of 8. What has an inline form is no constant, so content never has
 * two forms; but it may lie on the heap at two offsets.
 * Datoms are ordered as the record's order says: by entity, attribute, value, transaction_operation (0); by attribute, entity, value,
 * transaction_operation (1); by attribute, value, entity, transaction_operation (2). In each of them integers come before strings, these
 * before max, and values are compared by content wherever they lie, strings by their bytes with a prefix first: datoms that name two
 * constants of equal content are equal. Batches, pages, bounds and listings all go by this one order; the layout of a datom and of a page is
 * the same in all three.
 *
 * A root carries no mark of its order. Every call at a root, or at one that grew from it, listings too, has to be given the order that the
 * tree was written in, so a store has one order, and a tree in another order a store of its own. A tree that is read in another order is
 * answered by the rules as its pages are met, by Damaged with the fault Order or by a listing of what can be read so; nothing is promised of
 * that answer.
 *
 * Every call but florinwick_scratch_need takes an answer area of 32 bytes, writes four little-endian words into it, and returns the first:
 *   word 0   the number below, 0 for Done
 *   word 1   the root; a refused call gives back the one it was given, initialise none; calls with no root to give have 0 here. Of an append
 *            the value that names the constant; 0 if refused
 *   word 2   pages written, of an append bytes appended; 0 if refused; of list_start, list_step, held and insert_named at 7 and of check
 *            at 33 the fault's number
 *   word 3   the index or page that the number carries; 0 if it carries none
 * An answer area of any other length is answered by BadStore before all else, and stays as it was.
 *
 * What a call leaves in the store and on the heap:
 *   Done                     bytes below the old page count, and those past the new one, are as they were; so with the heap length and an
 *                            append
 *   1 to 6, 10 to 13, 16     no byte is changed
 *   7, 8, 9                  root and page count stay; pages past the count may hold what was written before the refusal, every other
 *                            byte is as it was. The call may be made again: with more room after NoRoom
 * Calls whose store is const change no byte of it. The two appends alone write to a heap, and to nothing else.
 */
#ifndef FLORINWICK_H
#define FLORINWICK_H

/*
 * The version of this interface. As long as its first number is 0, the second one is raised by a call or a page size that is added, by a word
 * that comes to say something where it was always 0, and by a call that changes: in 0.5 all that take a store take the record, and those
 * that compare datoms the heap; in 0.6 the record has the order and is 32 bytes long, so that one of 0.5 is answered by BadStore and never
 * in a wrong order.
 */
#define FLORINWICK_VERSION_MAJOR 0
#define FLORINWICK_VERSION_MINOR 6
#define FLORINWICK_VERSION_PATCH 0
#define FLORINWICK_VERSION "0.6.0"

#include <stddef.h>
#include <stdint.h>

#ifdef __cplusplus
extern "C" {
#endif

/*
 * Numbers that a call may give. Within a call they are tested in this order, but for these: 13 comes straight after 1; 11 comes straight
 * after 3, and each of the two is tested of the whole batch; 10 comes before 5; 6 and 7, or 16 and 7, come as the lookup meets them, datom
 * by datom, and 7, 8 and 9 as they are met once writing has begun, 8 before 9 at one page.
 */
enum florinwick_number {
    FLORINWICK_DONE = 0,          /* done; the batch is held; a datom was listed; the tree is sound */
    FLORINWICK_BAD_STORE = 1,     /* record of another length than 32, page size unknown, page count times page size exceeds the store, heap
                                     length over the heap or no multiple of 8, or scratch too short */
    FLORINWICK_TOO_MANY = 2,      /* the batch has over 128 datoms, or its bytes are no multiple of 32 */
    FLORINWICK_BAD_DATOM = 3,     /* index: the first datom whose value is max, or a word that is no value whatever the heap holds */
    FLORINWICK_OUT_OF_ORDER = 4,  /* index: the first datom not above the one before; for initialise, the first equal to an earlier one */
    FLORINWICK_NO_PAGE = 5,       /* the root is neither none nor below the page count */
    FLORINWICK_REPEATED = 6,      /* index: the first datom of the batch that the tree holds already; it does not say that the tree holds
                                     the others: ask florinwick_held */
    FLORINWICK_DAMAGED = 7,       /* page: it has the fault in word 2, where the call gives one: enum florinwick_fault */
    FLORINWICK_TOO_TALL = 8,      /* the next page to write would have level 8 */
    FLORINWICK_NO_ROOM = 9,       /* the next page to write does not fit into the store */
    FLORINWICK_BAD_BOUND = 10,    /* a bound of a listing is malformed, or names no constant */
    FLORINWICK_BAD_CONSTANT = 11, /* index: the first datom whose value names no constant: its offset is no multiple of 8, the constant is
                                     not whole below the heap length, its padding not zero, or its content has an inline form. Of an
                                     append, with index 0: the content has an inline form */
    FLORINWICK_HEAP_FULL = 12,    /* the constant does not fit into the heap, or its offset not into a value */
    FLORINWICK_BAD_ORDER = 13,    /* the record's order is none of enum florinwick_order. Every call that takes heap and record gives it,
                                     straight after 1; fetch and the two appends do not look at the order */
    FLORINWICK_NOT_HELD = 16,     /* index: the first datom of the batch that the tree does not hold */
    FLORINWICK_ENDED = 32,        /* the listing has ended; no refusal */
    FLORINWICK_UNSOUND = 33       /* page: where the check met its first fault, which is in word 2; no refusal */
};

/*
 * Which rule a page broke, or what else is wrong where it was read. A page is read before its level is asked, and of the reader's rules, 1
 * to 7, the first broken one is given. A later version may give numbers over 14.
 */
enum florinwick_fault {
    FLORINWICK_FAULT_LEVEL = 1,           /* its level is over 7 */
    FLORINWICK_FAULT_COUNT = 2,           /* it counts more datoms than a page of its size holds */
    FLORINWICK_FAULT_FORM = 3,            /* a datom in it is malformed, has the value max, or names no constant */
    FLORINWICK_FAULT_ORDER = 4,           /* its datoms do not rise */
    FLORINWICK_FAULT_LEAF_CHILD = 5,      /* its level is 0, and one of its children is not none */
    FLORINWICK_FAULT_LAST_CHILD = 6,      /* its level is above 0, and its last child is none */
    FLORINWICK_FAULT_CHILD_ID = 7,        /* a child's id is not below its own */
    FLORINWICK_FAULT_MISSING = 8,         /* there is no such page below the page count */
    FLORINWICK_FAULT_WRONG_LEVEL = 9,     /* it can be read, and its level is not the one that its place in the tree asks for */
    FLORINWICK_FAULT_EQUAL_DATOMS = 10,   /* it holds a datom that is merged into it, or listed beside it, from another page */
    FLORINWICK_FAULT_OUT_OF_BOUNDS = 11,  /* a datom in it is not between the bounds that the pages above it set */
    FLORINWICK_FAULT_PAST_COUNT = 12,     /* the cursor's index is past its count */
    FLORINWICK_FAULT_TOO_HIGH = 13,       /* the cursor's height is over 8; the page is none */
    FLORINWICK_FAULT_NOTHING_LEFT = 14    /* the cursor has not ended, and no datom is left under it; the page is none */
};

#define FLORINWICK_NONE UINT64_MAX   /* the page id and the root that mean "none" */
#define FLORINWICK_MAX UINT64_MAX    /* the value max, for bounds */
#define FLORINWICK_DATOM_BYTES 32
#define FLORINWICK_RECORD_BYTES 32
#define FLORINWICK_ANSWER_BYTES 32
#define FLORINWICK_CURSOR_BYTES 264
#define FLORINWICK_BATCH_MAX 128     /* datoms in one batch */
#define FLORINWICK_LEVELS 8          /* a tree is at most so high */

/* The orders that a store's datoms may be in, each named by the first letters of entity, attribute, value and transaction_operation. */
enum florinwick_order {
    FLORINWICK_EAVT = 0,   /* entity, attribute, value, transaction_operation */
    FLORINWICK_AEVT = 1,   /* attribute, entity, value, transaction_operation */
    FLORINWICK_AVET = 2    /* attribute, value, entity, transaction_operation */
};

/*
 * The store's record, as the calls take it: four words of 8 bytes, little-endian, which on such a machine are the bytes of this struct. It is
 * lent for reading. The library has none of its own, so the caller makes the next one: page_count grows by the pages written, heap_length
 * by the bytes appended, and a refused call leaves both. page_size and order stay what they were when the store was begun.
 */
struct florinwick_record {
    uint64_t page_size;
    uint64_t page_count;
    uint64_t heap_length;   /* bytes of the heap in use, a multiple of 8; 0 where there are no long values */
    uint64_t order;         /* enum florinwick_order; 0 is the order of every store made before 0.6 */
};

/*
 * How much scratch insert and initialise need with pages of this size: 62016 bytes for 256, 81728 for 568, 332352 for 4096 and, since
 * 0.4, 619584 for 8192. 0 for a page size that is not known. What scratch holds before a call is of no matter, and what it holds
 * afterwards is unsaid.
 */
uint64_t florinwick_scratch_need(uint64_t page_size);

/*
 * Makes a new tree of one batch, which may be in any order, behind the pages in use. It reads no page. An empty batch gives root
 * none and writes nothing. Numbers: 1, 13, 2, 3, 11, 4, 9.
 */
uint64_t florinwick_initialise(uint8_t *store, size_t store_len, const uint8_t *heap, size_t heap_len,
                               const uint8_t *record, size_t record_len, const uint8_t *batch, size_t batch_len,
                               uint8_t *scratch, size_t scratch_len, uint8_t *answer, size_t answer_len);

/*
 * Inserts an ascending batch into the tree at a root, whole or not at all. At root none it begins a tree. An empty batch writes the
 * root page anew; at root none it writes nothing and the root stays none. A datom keeps the value word that it came with, so which of two
 * equal constants it names is the caller's choice. Where it answers 7 word 2 is 0: florinwick_insert_named gives the fault. Numbers: 1,
 * 13, 2, 3, 11, 4 to 9.
 */
uint64_t florinwick_insert(uint8_t *store, size_t store_len, const uint8_t *heap, size_t heap_len,
                           const uint8_t *record, size_t record_len, uint64_t root, const uint8_t *batch, size_t batch_len,
                           uint8_t *scratch, size_t scratch_len, uint8_t *answer, size_t answer_len);

/*
 * The same insert, with the same answer and the same store after it, but where it answers 7 word 2 is the fault's number: 1 to 7, 9 or 10.
 * Numbers: 1, 13, 2, 3, 11, 4 to 9.
 */
uint64_t florinwick_insert_named(uint8_t *store, size_t store_len, const uint8_t *heap, size_t heap_len,
                                 const uint8_t *record, size_t record_len, uint64_t root, const uint8_t *batch, size_t batch_len,
                                 uint8_t *scratch, size_t scratch_len, uint8_t *answer, size_t answer_len);

/* A datom as a record: its four words as the machine has them, which on a little-endian machine are the 32 bytes. */
struct florinwick_datom {
    uint64_t entity;
    uint64_t attribute;
    uint64_t value;
    uint64_t transaction_operation;
};

/*
 * The same insert, of an array of records: `batch_count` of them, at the alignment of a uint64_t. It answers as florinwick_insert does
 * of their bytes, word 2 too, and leaves the store so. Numbers: 1, 13, 2, 3, 11, 4 to 9.
 */
uint64_t florinwick_insert_records(uint8_t *store, size_t store_len, const uint8_t *heap, size_t heap_len,
                                   const uint8_t *record, size_t record_len, uint64_t root,
                                   const struct florinwick_datom *batch, size_t batch_count,
                                   uint8_t *scratch, size_t scratch_len, uint8_t *answer, size_t answer_len);

/*
 * Whether the tree at a root holds all datoms of an ascending batch: 0, or 16 with the index of the first that it does not hold. A page
 * that a datom's path comes to and that cannot be read is 7, so 16 and 7 come in whichever order they are met. An empty batch is held at
 * every root, none too; at root none any other batch is 16 with index 0. A batch that was accepted is held at the root that it led to
 * and at every root that grew from that one; so is one that names other constants of the same content. It takes no scratch. Numbers: 1,
 * 13, 2, 3, 11, 4, 5, 7, 16; faults at 7: 1 to 7, 9.
 */
uint64_t florinwick_held(const uint8_t *store, size_t store_len, const uint8_t *heap, size_t heap_len,
                         const uint8_t *record, size_t record_len, uint64_t root, const uint8_t *batch, size_t batch_len,
                         uint8_t *answer, size_t answer_len);

/*
 * Appends an integer to the heap: one word at byte heap_length, 8 bytes little-endian. It takes the length as a number and no record, as a
 * heap may serve several stores. Bytes below heap_length are not changed. Word 1 is the value that names the constant: top bits 01, and the
 * offset heap_length below them. Word 2 is the bytes appended, which the caller adds to its heap length. Both are 0 if refused, and then no
 * byte is changed. It does not look for equal content. 1 is a heap length over heap_len or one that is no multiple of 8; 11, with index 0,
 * an integer below 2^62, which has an inline form; 12 no room, or a heap length of 2^62 or more. Numbers: 1, 11, 12.
 */
uint64_t florinwick_append_u64(uint8_t *heap, size_t heap_len, uint64_t heap_length, uint64_t value,
                               uint8_t *answer, size_t answer_len);

/*
 * Appends a byte string: its length as a word, its bytes, and zeros to a multiple of 8. Word 1 is the value that names it: top bits 11, and
 * the offset below them. 11 is a string of under 8 bytes. For the rest it is as florinwick_append_u64 is. Numbers: 1, 11, 12.
 */
uint64_t florinwick_append_bytes(uint8_t *heap, size_t heap_len, uint64_t heap_length, const uint8_t *bytes, size_t bytes_len,
                                 uint8_t *answer, size_t answer_len);

/*
 * Why a page cannot be fetched, or 0: the page is then the part of the store at page * page_size, page_size bytes long. It says
 * nothing of what the page holds, and as it takes no heap 1 says nothing of the heap length, and the order is not looked at. Numbers: 1, 5
 * (also for none).
 */
uint64_t florinwick_fetch(const uint8_t *store, size_t store_len, const uint8_t *record, size_t record_len, uint64_t page,
                          uint8_t *answer, size_t answer_len);

/*
 * Walks the whole tree at a root and tests the rules of every page, the constants that its datoms name, the levels and the bounds between
 * pages. 0 for Sound, 33 for Unsound. Root none is sound. Numbers: 1, 13, 5, 33; never 7. Faults at 33: 1 to 7, 9, 11.
 */
uint64_t florinwick_check(const uint8_t *store, size_t store_len, const uint8_t *heap, size_t heap_len,
                          const uint8_t *record, size_t record_len, uint64_t root, uint8_t *answer, size_t answer_len);

/*
 * Puts a cursor at the first datom that is not below `lower`; the listing ends before the first that is not below `upper`. Each bound
 * is a datom of 32 bytes in the usual layout, compared in the record's order: with order 1 or 2 all datoms of an attribute a lie from
 * (0, a, 0, 0) to (0, a + 1, 0, 0). Any other length is BadBound, and so is one whose value names no constant: a long value has to be on
 * the heap to be a bound. A lower bound at or above the upper, and root none, give a listing that has ended. A refused start leaves the
 * cursor as it was. A cursor is 264 bytes, else BadStore. Numbers: 1, 13, 10, 5, 7; faults at 7: 1 to 7, 9.
 *
 * A cursor is a value: 33 little-endian words, the height, then by level 0 to 7 the indices and the pages where the listing stands,
 * and the indices and the pages where it ends. It may be copied, kept and used again, as long as the pages in use stay.
 */
uint64_t florinwick_list_start(const uint8_t *store, size_t store_len, const uint8_t *heap, size_t heap_len,
                               const uint8_t *record, size_t record_len, uint64_t root,
                               const uint8_t *lower, size_t lower_len, const uint8_t *upper, size_t upper_len,
                               uint8_t *cursor, size_t cursor_len, uint8_t *answer, size_t answer_len);

/*
 * Writes the next datom, of 32 bytes, and moves the cursor on: 0. At the end 32, and if refused its number; then cursor and datom stay
 * as they were. A datom area of another length is BadStore. Any cursor is answered, also one that no call made. Numbers: 1, 13, 7, 32;
 * faults at 7: 1 to 10 and 12 to 14, of which 8, 12, 13 and 14 come of a cursor that no call made, or of a store that was changed since.
 */
uint64_t florinwick_list_step(const uint8_t *store, size_t store_len, const uint8_t *heap, size_t heap_len,
                              const uint8_t *record, size_t record_len, uint8_t *cursor, size_t cursor_len,
                              uint8_t *datom, size_t datom_len, uint8_t *answer, size_t answer_len);

#ifdef __cplusplus
}
#endif

#endif
