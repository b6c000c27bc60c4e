/*
 * Passes a token round the ring of all nodes ten times. A node waits for its turn, counts the token up, and gives the
 * turn to the next node. At the end node 0 prints how often the token was passed: ten times the number of nodes.
 *
 * No barrier is needed for the turns. The one who waits reads the turn again and again; its own copy of the block serves
 * these reads until the writer's request takes it away.
 */
#include "text.h"

#define ROUNDS 10

/* The turn and the token, each in a block of its own. */
struct cell {
    volatile uint32_t value;
} WWT_ALIGNED;

WWT_SHARED static struct cell turn = {0};
WWT_SHARED static struct cell token = {0};

int main(void)
{
    uint32_t node = wwt_node();
    uint32_t nodes = wwt_nodes();
    uint32_t next = node + 1 == nodes ? 0 : node + 1;
    for (int round = 0; round < ROUNDS; round++) {
        while (turn.value != node)
            continue;
        token.value = token.value + 1;
        turn.value = next;
    }
    wwt_barrier();

    if (node == 0) {
        put_text("passed ");
        put_decimal(token.value);
        put_text(" times by ");
        put_decimal(nodes);
        put_text("\n");
    }
    return 0;
}
