/* vorruda_list.h - calls of the proved library libvorruda_list.a: the pendant's block list.
 *
 * It stands by itself: a loom box links it without the checker. A host may include vorruda.h too;
 * what both define is the same.
 *
 * A buffer is a pointer and a length; NULL with length 0 is an empty buffer. What the caller owes:
 * each pointer is valid for its length, and the buffers of a call don't overlap. There is no other
 * condition. Nothing is allocated and nothing is kept between calls; calls on different buffers may
 * run at the same time.
 *
 * Every call returns a number: 0 is success, any other a refusal, and then heap and values stay as
 * they are.
 */
#ifndef VORRUDA_LIST_H
#define VORRUDA_LIST_H

#include <stddef.h>
#include <stdint.h>

#define VORRUDA_VERSION "0.1.0" /* as pkg-config --modversion vorruda_list tells it */

#define VORRUDA_LIST_COUNT_OUT 1 /* how many entries of `out` vorruda_list_count tells */

#ifdef __cplusplus
extern "C" {
#endif

/* ---- Heap -------------------------------------------------------------------------------------
 *
 * A heap has 64 cells with one link each, and 1 to 8 variables. In bytes:
 *
 *   heap[0]            how many variables there are, V
 *   heap[1 .. 8]       where variable 1 to 8 stands; 0 for variables above V
 *   heap[9 .. 72]      1 where cell 0 to 63 is used, 0 where it isn't
 *   heap[73 .. 136]    where the link of cell 0 to 63 stands; 0 where the cell is unused
 *
 * A variable, or the link of a used cell, stands at # (null), at * (dangling) or at a used cell.
 * A used cell may have a value, from 0 to 65,535. Values stand beside the bytes, as 64 numbers:
 *
 *   values[0 .. 63]    v + 1 where cell 0 to 63 has the value v, 0 where it has none
 *
 * An empty list: V is 3 to 8, every variable at #, and zeros behind them. */

#define VORRUDA_HEAP_BYTES     137
#define VORRUDA_HEAP_CELLS     64
#define VORRUDA_HEAP_VARIABLES 1  /* where the slot of variable 1 is */
#define VORRUDA_HEAP_MARKS     9  /* where the mark of cell 0 is */
#define VORRUDA_HEAP_LINKS     73 /* where the link of cell 0 is */

/* Codes of places. 0, nowhere, is no place of a variable or of a used link. */
#define VORRUDA_NULL     1
#define VORRUDA_DANGLING 2
#define VORRUDA_CELL(i)  (3 + (i))

/* ---- Block list -------------------------------------------------------------------------------
 *
 * The blocks are the cells met by following links from variable 1, the head, up to #; the n-th is
 * counted from 1. Variables 2 and 3 are used to walk and end at #. A call that returns 0 leaves all
 * else as it was: other cells with their links and values, and variables above 3; but what stands at
 * a removed cell stands at * afterwards.
 *
 * The refusals, in the order in which they are tried: */

#define VORRUDA_BAD_HEAP  13 /* not 137 bytes, not 64 values, not a heap as above, or V below 3 */
#define VORRUDA_NO_LIST   29 /* # isn't met from the head: it is at *, or a link is, or there is a ring */
#define VORRUDA_PAST_LIST 28 /* n is more than there are blocks, or 0 in a remove */
#define VORRUDA_HEAP_FULL 15 /* an insert with all 64 cells used */

/* A call needs less than 8 KiB of stack. */

/* Inserts a block after the n-th, in front for 0. It is the lowest unused cell and has no value; the
 * other blocks keep their order and their values.
 *   0: inserted.
 *   VORRUDA_BAD_HEAP, VORRUDA_NO_LIST, VORRUDA_PAST_LIST, VORRUDA_HEAP_FULL: by the first that
 *      applies. */
uint32_t vorruda_list_insert(uint8_t *heap, size_t heap_len, uint32_t *values, size_t values_len,
                             uint32_t n);

/* Removes the n-th block, from 1. Its cell is unused again; the other blocks keep their order and
 * their values.
 *   0: removed.
 *   VORRUDA_BAD_HEAP, VORRUDA_NO_LIST, VORRUDA_PAST_LIST: by the first that applies. */
uint32_t vorruda_list_remove(uint8_t *heap, size_t heap_len, uint32_t *values, size_t values_len,
                             uint32_t n);

/* Counts the blocks.
 *   0: out[0] is how many there are, 0 to 64; variables 2 and 3 are at #, all else is as it was.
 *   VORRUDA_BAD_HEAP, VORRUDA_NO_LIST: out[0] is 0.
 * Where `out_len` is 0 nothing of `out` is written, and all else is the same. */
uint32_t vorruda_list_count(uint8_t *heap, size_t heap_len, uint32_t *values, size_t values_len,
                            uint64_t *out, size_t out_len);

#ifdef __cplusplus
}
#endif

#endif
