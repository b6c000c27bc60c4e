/*
 * Adds up the numbers from 1 to 1024 on all nodes. Each node writes a part of them into shared memory, then adds up the
 * part that the next node wrote, and at last node 0 adds up the sums of the parts and prints the whole. Barriers stand
 * between, since nobody may read what isn't written yet. The text is the same for any number of nodes.
 */
#include "text.h"

#define COUNT 1024

/* A sum in a block of its own, so that no two nodes write the same block. */
struct sum {
    uint32_t value;
} WWT_ALIGNED;

WWT_SHARED static uint32_t numbers[COUNT] = {0};
WWT_SHARED static struct sum sums[WWT_MOST_NODES] = {{0}};

/* The place where the part of a node begins. The part of a node after the last would begin at COUNT. */
static uint32_t begin_of(uint32_t node, uint32_t nodes)
{
    return node * COUNT / nodes;
}

int main(void)
{
    uint32_t node = wwt_node();
    uint32_t nodes = wwt_nodes();
    for (uint32_t at = begin_of(node, nodes); at < begin_of(node + 1, nodes); at++)
        numbers[at] = at + 1;
    wwt_barrier();

    uint32_t next = node + 1 == nodes ? 0 : node + 1;
    uint32_t sum = 0;
    for (uint32_t at = begin_of(next, nodes); at < begin_of(next + 1, nodes); at++)
        sum += numbers[at];
    sums[node].value = sum;
    wwt_barrier();

    if (node == 0) {
        uint32_t whole = 0;
        for (uint32_t other = 0; other < nodes; other++)
            whole += sums[other].value;
        put_text("sum ");
        put_decimal(whole);
        put_text("\n");
    }
    return 0;
}
