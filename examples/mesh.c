/*
 * Shows what distance costs on a mesh. In each of ten rounds every node writes a number into a block of its own, whose
 * home it is, and then reads its partner's. The partner is the node beside it, or with -DFAR the one at the opposite
 * corner of the mesh. At the end node 0 prints how many numbers were right; the text is the same in both cases.
 *
 * A block is checked in when it is written and when it is read, so nothing traps. How long each node waited for its
 * partner's blocks is told by the column `waited` of report.py, and by misses.py.
 */
#define WWT_MOST_NODES 256
#include "text.h"

#define ROUNDS 10

/* A number in a block of its own. */
struct cell {
    volatile uint32_t value;
} WWT_ALIGNED;

/* (alone in shared memory, so that the block of this number has its home at the node of this number) */
WWT_SHARED static struct cell cells[WWT_MOST_NODES] = {{0}};

static uint32_t partner_of(uint32_t node, uint32_t nodes)
{
#ifdef FAR
    return nodes - 1 - node;
#else
    uint32_t beside = node ^ 1;
    return beside < nodes ? beside : node;
#endif
}

static void write(uint32_t node, uint32_t number)
{
    wwt_check_out_x(&cells[node]);
    cells[node].value = number;
    wwt_check_in(&cells[node]);
}

static uint32_t read(uint32_t node)
{
    uint32_t number = cells[node].value;
    wwt_check_in(&cells[node]);
    return number;
}

int main(void)
{
    uint32_t node = wwt_node();
    uint32_t nodes = wwt_nodes();
    uint32_t partner = partner_of(node, nodes);
    uint32_t right = 0;
    for (uint32_t round = 0; round < ROUNDS; round++) {
        write(node, node + round);
        wwt_barrier();
        if (read(partner) == partner + round)
            right++;
        wwt_barrier();
    }
    write(node, right);
    wwt_barrier();

    if (node == 0) {
        uint32_t whole = 0;
        for (uint32_t other = 0; other < nodes; other++)
            whole += read(other);
        put_decimal(whole);
        put_text(" numbers read by ");
        put_decimal(nodes);
        put_text("\n");
    }
    return 0;
}
