/*
 * All nodes count one number up, 25 times each. Counting up is a load, an addition and a store, and between the load and
 * the store of one node another may load, too: then one of the two steps is lost. The lock of lock.h lets one node at a
 * time do it. Compiled with -DNO_LOCK nothing does, and steps get lost; compiled with -DSUM each node counts for itself,
 * and the numbers are added up at the end, which is right and by far the fastest.
 *
 * At the end node 0 prints the number, and what it should be.
 */
#include "lock.h"
#include "text.h"

#define ROUNDS 25

#ifdef SUM

WWT_SHARED static struct wwt_sum sum = {{{0}}};

static uint32_t count(void)
{
    uint32_t counted = 0;
    for (uint32_t round = 0; round < ROUNDS; round++)
        counted++;
    return wwt_sum(&sum, counted);
}

#else

WWT_SHARED static struct wwt_lock lock = {{{0}}};
WWT_SHARED static struct wwt_place total = {0};

static void acquire(void)
{
#ifndef NO_LOCK
    wwt_acquire(&lock);
#endif
}

static void release(void)
{
#ifndef NO_LOCK
    wwt_release(&lock);
#else
    (void)lock;
#endif
}

static uint32_t count(void)
{
    for (uint32_t round = 0; round < ROUNDS; round++) {
        acquire();
        wwt_put_place(&total, total.number + 1);
        release();
    }
    wwt_barrier();
    return total.number;
}

#endif

int main(void)
{
    uint32_t counted = count();
    if (wwt_node() == 0) {
        put_text("counted ");
        put_decimal(counted);
        put_text(" of ");
        put_decimal(ROUNDS * wwt_nodes());
        put_text("\n");
    }
    return 0;
}
