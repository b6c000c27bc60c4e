/*
 * Smooths a ring of 256 cells ten times: each cell becomes the mean of itself, weighed twice, and its two neighbours.
 * Each node has some of the 32 blocks of cells, and reads beyond them only the one cell on either side. At the end node 0
 * prints all cells added up, and the first and the last one; the text is the same for any number of nodes.
 *
 * Where a block is read by one node and written by another in turns, the directory has to call copies back, which traps.
 * The annotations avoid that: a block that another node reads is checked in when it is written, the reader checks it in
 * when it has read it, and the writer checks it out before it writes. Compiled with -DPLAIN the program has none of them,
 * and prints the same. What they save is told by the counters traps, trap_cycles and invs, and by the clocks.
 */
#include "text.h"

#define STEPS 10
#define BLOCKS 32
#define CELLS 8

/* Cells that fill a block of shared memory. */
struct block {
    uint32_t cell[CELLS];
} WWT_ALIGNED;

WWT_SHARED static struct block first[BLOCKS] = {{{0}}};
WWT_SHARED static struct block second[BLOCKS] = {{{0}}};

/* The blocks of a node: from begin on, up to the one before end. */
struct part {
    uint32_t begin;
    uint32_t end;
};

static void take_for_writing(const struct block *block)
{
#ifndef PLAIN
    wwt_check_out_x(block);
#else
    (void)block;
#endif
}

static void give_back(const struct block *block)
{
#ifndef PLAIN
    wwt_check_in(block);
#else
    (void)block;
#endif
}

static uint32_t smooth(uint32_t left, uint32_t middle, uint32_t right)
{
    return (left + 2 * middle + right) / 4;
}

/* Writes a block of the next step, from the same block of this step and the cells beside it. */
static void smooth_block(struct block *to, const struct block *from, uint32_t left, uint32_t right)
{
    take_for_writing(to);
    to->cell[0] = smooth(left, from->cell[0], from->cell[1]);
    for (uint32_t at = 1; at < CELLS - 1; at++)
        to->cell[at] = smooth(from->cell[at - 1], from->cell[at], from->cell[at + 1]);
    to->cell[CELLS - 1] = smooth(from->cell[CELLS - 2], from->cell[CELLS - 1], right);
}

/* Does a step for a node's blocks. */
static void step(struct block *to, const struct block *from, struct part own)
{
    const struct block *before = &from[(own.begin + BLOCKS - 1) % BLOCKS];
    const struct block *after = &from[own.end % BLOCKS];
    uint32_t outer_left = before->cell[CELLS - 1];
    uint32_t outer_right = after->cell[0];
    give_back(before);
    give_back(after);
    for (uint32_t at = own.begin; at < own.end; at++) {
        uint32_t left = at == own.begin ? outer_left : from[at - 1].cell[CELLS - 1];
        uint32_t right = at + 1 == own.end ? outer_right : from[at + 1].cell[0];
        smooth_block(&to[at], &from[at], left, right);
    }
    give_back(&to[own.begin]);
    give_back(&to[own.end - 1]);
}

/* Gives the cells of a node's blocks their first values: one high cell in each block. */
static void begin(struct part own)
{
    for (uint32_t at = own.begin; at < own.end; at++) {
        take_for_writing(&first[at]);
        first[at].cell[at % CELLS] = 1000 * (at + 1);
    }
    give_back(&first[own.begin]);
    give_back(&first[own.end - 1]);
}

static void print(const struct block *blocks)
{
    uint32_t sum = 0;
    for (uint32_t at = 0; at < BLOCKS; at++)
        for (uint32_t place = 0; place < CELLS; place++)
            sum += blocks[at].cell[place];
    put_text("sum ");
    put_decimal(sum);
    put_text(" first ");
    put_decimal(blocks[0].cell[0]);
    put_text(" last ");
    put_decimal(blocks[BLOCKS - 1].cell[CELLS - 1]);
    put_text("\n");
}

int main(void)
{
    uint32_t node = wwt_node();
    uint32_t nodes = wwt_nodes();
    struct part own = {node * BLOCKS / nodes, (node + 1) * BLOCKS / nodes};
    struct block *from = first;
    struct block *to = second;
    begin(own);
    wwt_barrier();
    for (uint32_t count = 0; count < STEPS; count++) {
        step(to, from, own);
        wwt_barrier();
        struct block *written = to;
        to = from;
        from = written;
    }
    if (node == 0)
        print(from);
    return 0;
}
