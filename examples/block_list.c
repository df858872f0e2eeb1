/* A loom box: keeps pattern blocks in a list with the proved library, puts blocks in, takes them out
 * and prints them. It links no checker.
 *
 *   gcc -std=c11 -Wall -Wextra -Werror -Iinclude examples/block_list.c target/staticlib/libvorruda_list.a
 *
 * or, where the library is installed,
 *
 *   gcc -std=c11 -Wall -Wextra -Werror examples/block_list.c $(pkg-config --cflags --libs vorruda_list)
 */
#include <stdio.h>
#include <string.h>

#include "vorruda_list.h"

/* The blocks of a loom: a heap of three variables, and the pick number of each block. */
struct blocks {
    uint8_t heap[VORRUDA_HEAP_BYTES];
    uint32_t picks[VORRUDA_HEAP_CELLS];
};

static int surprises = 0;

/* Notes where an answer isn't the one a host may count on. */
static void expect(const char *what, uint32_t got, uint32_t wanted)
{
    if (got != wanted) {
        printf("  UNEXPECTED: %s gives %u, wanted %u\n", what, got, wanted);
        surprises++;
    }
}

/* No blocks: three variables, all at #. */
static void clear(struct blocks *blocks)
{
    memset(blocks, 0, sizeof *blocks);
    blocks->heap[0] = 3;
    memset(blocks->heap + VORRUDA_HEAP_VARIABLES, VORRUDA_NULL, 3);
}

/* The cell after a place, from 0; -1 at the end. */
static int cell_at(uint8_t place)
{
    return place == VORRUDA_NULL ? -1 : place - VORRUDA_CELL(0);
}

static int next_cell(const struct blocks *blocks, int cell)
{
    return cell_at(blocks->heap[VORRUDA_HEAP_LINKS + cell]);
}

static int first_cell(const struct blocks *blocks)
{
    return cell_at(blocks->heap[VORRUDA_HEAP_VARIABLES]);
}

/* Inserts a block with a pick number after the n-th. */
static uint32_t insert(struct blocks *blocks, uint32_t n, uint16_t pick)
{
    const uint32_t answer = vorruda_list_insert(blocks->heap, sizeof blocks->heap, blocks->picks,
                                                VORRUDA_HEAP_CELLS, n);
    if (answer == 0) {
        int cell = first_cell(blocks);
        while (n-- > 0)
            cell = next_cell(blocks, cell);
        blocks->picks[cell] = (uint32_t)pick + 1;
    }
    return answer;
}

static uint32_t remove_block(struct blocks *blocks, uint32_t n)
{
    return vorruda_list_remove(blocks->heap, sizeof blocks->heap, blocks->picks, VORRUDA_HEAP_CELLS, n);
}

static uint32_t count(struct blocks *blocks, uint64_t *number)
{
    return vorruda_list_count(blocks->heap, sizeof blocks->heap, blocks->picks, VORRUDA_HEAP_CELLS,
                              number, 1);
}

static void print(struct blocks *blocks, const char *what, uint64_t wanted)
{
    uint64_t number = 0;
    expect("count", count(blocks, &number), 0);
    expect("blocks", (uint32_t)number, (uint32_t)wanted);
    printf("%-34s %2llu blocks:", what, (unsigned long long)number);
    for (int cell = first_cell(blocks); cell >= 0; cell = next_cell(blocks, cell))
        printf(" %u", blocks->picks[cell] - 1);
    printf("\n");
}

int main(void)
{
    struct blocks blocks;
    clear(&blocks);
    print(&blocks, "an empty list", 0);

    expect("in front", insert(&blocks, 0, 10), 0);
    expect("behind the first", insert(&blocks, 1, 30), 0);
    expect("between", insert(&blocks, 1, 20), 0);
    print(&blocks, "10 in front, 30 behind, 20 between", 3);

    expect("past the list", insert(&blocks, 4, 99), VORRUDA_PAST_LIST);
    expect("the 0th", remove_block(&blocks, 0), VORRUDA_PAST_LIST);
    print(&blocks, "two refusals, nothing changed", 3);

    expect("the second", remove_block(&blocks, 2), 0);
    print(&blocks, "the second removed", 2);
    expect("the first", remove_block(&blocks, 1), 0);
    print(&blocks, "and the first", 1);

    for (uint16_t pick = 0; pick < 63; pick++)
        expect("to the last cell", insert(&blocks, pick + 1u, pick), 0);
    expect("a full heap", insert(&blocks, 0, 99), VORRUDA_HEAP_FULL);
    print(&blocks, "63 more, and no room for another", 64);

    /* A ring, made by hand: the last block is linked to the first. */
    struct blocks ring = blocks;
    uint64_t number = 1;
    for (int cell = 0; cell < VORRUDA_HEAP_CELLS; cell++)
        if (ring.heap[VORRUDA_HEAP_LINKS + cell] == VORRUDA_NULL)
            ring.heap[VORRUDA_HEAP_LINKS + cell] = ring.heap[VORRUDA_HEAP_VARIABLES];
    expect("a ring counted", count(&ring, &number), VORRUDA_NO_LIST);
    expect("a ring", insert(&ring, 0, 99), VORRUDA_NO_LIST);

    printf(surprises == 0 ? "As expected.\n" : "Not as expected.\n");
    return surprises != 0;
}
