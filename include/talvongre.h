/* Talvongre's cell heap, for a host in C: cells of Scheme data in memory that the host lends.
 *
 * THE LENT LISTS. A heap of n slots, at most b bytes of text and e vector elements lives in four lists:
 *
 *   words   uint64_t, 8 + 8n of them exactly     n from 4 to 4,096
 *   map     bytes, (n + 3) / 4 exactly           rounded down
 *   bytes   bytes, b                             b from 0 to 65,536
 *   elems   uint64_t, 3e of them exactly         e from 0 to 16,384
 *
 * Each list is passed as a pointer and the number of its members (of words, of bytes; never a size in bytes of a list of
 * words). An empty list may be passed as any pointer and 0. No two lists of one call, nor a number that it writes, may share
 * memory, and nothing else may write to them while the call runs. The heap is in the lists alone: they may be kept, copied
 * and moved between calls, and calls on different heaps may run side by side.
 *
 * SCRATCH. Put, read, equal and the collection take a list of words to work in: at capacity c at least 8c + 128 words,
 * TALVONGRE_SCRATCH_WORDS(c). On return all of it is zero, whatever it held; only after 19 and 20 it is as it was.
 *
 * ANSWERS. Each call answers TALVONGRE_OK or the number of a refusal. Every call but setup first sees whether the lists are a
 * sound heap, whatever they hold, and answers 20 where they are not; then where several refusals apply the first in the order
 * below is answered. After a refusal the lists are as they were, and what a call would have written through its last
 * parameters, which may not be NULL, is not written.
 *
 * THE STACK. A put or a read goes as deep as its datum, which is at most 4,095 vectors or labels in one another: give a thread that
 * calls 2 MiB of stack. host/run.sh measures what is used of it.
 */
#ifndef TALVONGRE_H
#define TALVONGRE_H

#include <stddef.h>
#include <stdint.h>

#ifdef __cplusplus
extern "C" {
#endif

#define TALVONGRE_OK 0

/* The refusals, in the order in which they are given. */
#define TALVONGRE_BAD_SETUP 10     /* setup: chunk, lent slots or an arena outside their numbers */
#define TALVONGRE_UNSOUND 20       /* the lent lists are not a sound heap */
#define TALVONGRE_SHORT_SCRATCH 19 /* scratch shorter than the formula */
#define TALVONGRE_MALFORMED 11     /* datum or given value: unknown kind, cut short, nodes left over, Bool not 0 or 1, Char or UTF-8 not allowed */
#define TALVONGRE_OVER_LIMIT 12    /* datum, given or to be read: over 4,096 nodes, 64 labels, 1,024 elements, 4,096 bytes of a string, 255 of a name */
#define TALVONGRE_EARLY_LABEL 13   /* a label is referred to before a definition of it has begun */
#define TALVONGRE_NO_SUCH_SLOT 14  /* a slot given is past the capacity or Free */
#define TALVONGRE_WRONG_CELL 15    /* text: neither string nor symbol; cell store: the slot holds a symbol; element store: no vector, no such element */
#define TALVONGRE_NO_SLOTS 16      /* the slots needed exceed the free ones plus all growth that fits */
#define TALVONGRE_NO_ROOM 17       /* an arena has less room than needed */
#define TALVONGRE_SHORT_OUTPUT 18  /* output shorter than the answer */

/* Lengths of the lent lists for n slots and e elements, and of the scratch at capacity c (at most n), in members. */
#define TALVONGRE_WORDS(n) (8 + 8 * (size_t)(n))
#define TALVONGRE_MAP_BYTES(n) (((size_t)(n) + 3) / 4)
#define TALVONGRE_ELEMENT_WORDS(e) (3 * (size_t)(e))
#define TALVONGRE_SCRATCH_WORDS(c) (8 * (size_t)(c) + 128)

/* Makes a fresh heap in the lent lists, whatever they held: all of them are written. It begins with `chunk` slots, all free,
 * and grows as puts need more, from m chunks to m * 3 / 2 rounded up, while that many slots are lent. chunk is a multiple of
 * 4, from 4 to 4,096, and not above the lent slots.
 * Answers 0 or 10. */
uint32_t talvongre_setup(uint64_t *words, size_t words_len, uint8_t *map, size_t map_len, uint8_t *bytes, size_t bytes_len,
                         uint64_t *elems, size_t elems_len, uint64_t chunk);

/* Puts a datum, and writes the slot that holds it to *slot. The datum is bytes: its nodes in prefix order, each its kind's
 * number and then its fields, lowest byte first.
 *
 *   0 undefined   1 nil   2 eof   3 void        nothing
 *   4 Bool        5 Char                        4 bytes: 0 or 1; a Unicode scalar value
 *   6 Number                                    8 bytes: a signed 64-bit number; given in a, its 64 bits as they are
 *   7 String      8 Symbol                      4 bytes: the length of a text; its UTF-8
 *   9 Pair                                      nothing; the car and the cdr follow
 *  10 Vector                                    4 bytes: how many data follow
 *  11 Identifier                                4 bytes: the scope; 4 bytes: the length of the name; its UTF-8
 *  12 label definition                          4 bytes: the label; one datum follows
 *  13 label reference                           4 bytes: the label
 *
 * Answers 0, 20, 19, 11, 12, 13, 16 or 17. */
uint32_t talvongre_put(uint64_t *words, size_t words_len, uint8_t *map, size_t map_len, uint8_t *bytes, size_t bytes_len,
                       uint64_t *elems, size_t elems_len, uint64_t *scratch, size_t scratch_len, const uint8_t *datum,
                       size_t datum_len, uint64_t *slot);

/* Reads a value, a slot (kind 15, the slot in a) or a scalar (kinds 0 to 6, its field in a), into `out` as the bytes of a datum that
 * put takes, and writes their number to *length. A slot met again on its own path is a label's definition at first meeting and a
 * reference later, numbered from 0; what is shared without a cycle is written out again in full; identifiers are read as symbols.
 * Past the answer `out` stays as it was, and after a refusal all of it.
 * Answers 0, 20, 19, 11, 12, 14 or 18. */
uint32_t talvongre_read(const uint64_t *words, size_t words_len, const uint8_t *map, size_t map_len, const uint8_t *bytes,
                        size_t bytes_len, const uint64_t *elems, size_t elems_len, uint64_t *scratch, size_t scratch_len,
                        uint8_t *out, size_t out_len, uint64_t kind, uint64_t a, uint64_t *length);

/* Collects: keeps what the roots reach and frees the rest, in rising order; packs both arenas by lowest slot, each block once, and
 * clears what is behind them. The roots are slots; there may be none, and one may be named twice. A pair leads to its car and cdr, a
 * vector to each element that is a slot. Kept cells stay in their slots; the place of a text or a vector may change. A slot that is
 * freed is given again by later puts: a host that still holds its number is told 14 only while the slot is free, and afterwards reads
 * what stands there then. So drop the numbers of what no root reaches.
 * Answers 0, 20, 19 or 14, which is found before anything is changed. */
uint32_t talvongre_collect(uint64_t *words, size_t words_len, uint8_t *map, size_t map_len, uint8_t *bytes, size_t bytes_len,
                           uint64_t *elems, size_t elems_len, uint64_t *scratch, size_t scratch_len, const uint64_t *roots,
                           size_t roots_len);

/* Stores a scalar (kinds 0 to 6, with its field in a) or a pair (kind 9, car in a and cdr in b) into a slot that holds no symbol.
 * Fields that a kind does not have are not looked at. A text or vector that the slot held keeps its room until a collection.
 * Answers 0, 20, 11, 14 or 15. */
uint32_t talvongre_cell_store(uint64_t *words, size_t words_len, const uint8_t *map, size_t map_len, const uint8_t *bytes,
                              size_t bytes_len, const uint64_t *elems, size_t elems_len, uint64_t slot, uint64_t kind, uint64_t a,
                              uint64_t b);

/* Stores a scalar (kinds 0 to 6) or a slot (kind 15, the slot in a) as element k of the vector in a slot. It shows through every slot
 * that shows the same block.
 * Answers 0, 20, 11, 14 or 15. */
uint32_t talvongre_element_store(const uint64_t *words, size_t words_len, const uint8_t *map, size_t map_len, const uint8_t *bytes,
                                 size_t bytes_len, uint64_t *elems, size_t elems_len, uint64_t slot, uint64_t k, uint64_t kind,
                                 uint64_t a);

/* Compares two values by eqv: each a scalar (kinds 0 to 6) or a slot (kind 15). The same slot is eqv to itself; else Bool, Char and
 * Number by value, Nil with Nil, Eof with Eof, strings by content, pairs of the same two slots; nothing else is, Void and Undefined
 * too. Writes 1 or 0 to *truth.
 * Answers 0, 20, 11 or 14. */
uint32_t talvongre_eqv(const uint64_t *words, size_t words_len, const uint8_t *map, size_t map_len, const uint8_t *bytes,
                       size_t bytes_len, const uint64_t *elems, size_t elems_len, uint64_t kind, uint64_t a, uint64_t kind2,
                       uint64_t a2, uint64_t *truth);

/* Compares two values by equal: each a scalar (kinds 0 to 6) or a slot (kind 15). What is eqv is equal; besides pairs whose cars are
 * equal and whose cdrs are pairs of which the same holds, or are eqv by their cells; and vectors of one length, element by element.
 * So two lists that end in a symbol or a vector, as (1 . foo), are equal only if they are eqv. Cycles are no hindrance. Writes 1 or
 * 0 to *truth.
 * Answers 0, 20, 19, 11 or 14. */
uint32_t talvongre_equal(const uint64_t *words, size_t words_len, const uint8_t *map, size_t map_len, const uint8_t *bytes,
                         size_t bytes_len, const uint64_t *elems, size_t elems_len, uint64_t *scratch, size_t scratch_len,
                         uint64_t kind, uint64_t a, uint64_t kind2, uint64_t a2, uint64_t *truth);

/* Finds the text of the string or symbol in a slot: it is the part of `bytes` that begins at *place and has *size bytes.
 * Answers 0, 20, 14 or 15. */
uint32_t talvongre_text(const uint64_t *words, size_t words_len, const uint8_t *map, size_t map_len, const uint8_t *bytes,
                        size_t bytes_len, const uint64_t *elems, size_t elems_len, uint64_t slot, uint64_t *place,
                        uint64_t *size);

/* Writes the capacity to *count: the slots that growth has come to.
 * Answers 0 or 20. */
uint32_t talvongre_capacity(const uint64_t *words, size_t words_len, const uint8_t *map, size_t map_len, const uint8_t *bytes,
                            size_t bytes_len, const uint64_t *elems, size_t elems_len, uint64_t *count);

/* Writes the free count to *count: the length of the free list.
 * Answers 0 or 20. */
uint32_t talvongre_free(const uint64_t *words, size_t words_len, const uint8_t *map, size_t map_len, const uint8_t *bytes,
                        size_t bytes_len, const uint64_t *elems, size_t elems_len, uint64_t *count);

/* Writes the used count to *count: the slots in use, which are the capacity less the free count.
 * Answers 0 or 20. */
uint32_t talvongre_used(const uint64_t *words, size_t words_len, const uint8_t *map, size_t map_len, const uint8_t *bytes,
                        size_t bytes_len, const uint64_t *elems, size_t elems_len, uint64_t *count);

#ifdef __cplusplus
}
#endif

#endif
