/*
 * Each node counts a number of its own up, 100 times. No node ever touches the number of another. But compiled with
 * -DPACKED the numbers lie side by side, eight in a block of 32 bytes, and so the block goes from node to node, though
 * nothing in it is shared: false sharing. Else each number has a block of its own.
 *
 * At the end node 0 prints how far each counted; the text is the same for any number of nodes.
 */
#include "lock.h"
#include "text.h"

#define ROUNDS 100

#ifdef PACKED
struct number {
    volatile uint32_t value;
};
#else
struct number {
    volatile uint32_t value;
} WWT_ALIGNED;
#endif

WWT_SHARED static struct number numbers[WWT_MOST_NODES] WWT_ALIGNED = {{0}};
WWT_SHARED static struct wwt_sum sum = {{{0}}};

int main(void)
{
    uint32_t node = wwt_node();
    for (uint32_t round = 0; round < ROUNDS; round++)
        numbers[node].value++;
    uint32_t whole = wwt_sum(&sum, numbers[node].value);
    if (node == 0) {
        put_text("each counted ");
        put_decimal(whole / wwt_nodes());
        put_text("\n");
    }
    return 0;
}
