/*
 * A lock, and a sum over all nodes, from plain loads and stores: RV32I has no atomic instruction.
 *
 * The lock is Lamport's bakery (A New Solution of Dijkstra's Concurrent Programming Problem, 1974). Who comes draws a
 * number above all that are out, and waits for those with a lesser one; of two with the same number the lesser node goes
 * first. It needs that a load sees what was stored last, and that a node's accesses take place in its order. Both hold
 * here: a node waits for each block, and a block that one node may write has no other copy.
 *
 * Each node writes its own place, in a block of its own, and the others read it. A place that was written is checked in,
 * so that its readers are served by its home at once. What was protected is checked in by whoever used it, before the
 * lock is given back.
 */
#ifndef LOCK_H
#define LOCK_H

#include "wwt.h"

#define WWT_OUT 0       /* neither has the lock nor wants it */
#define WWT_DRAWING 1   /* draws a number, which will be above this */

struct wwt_place {
    volatile uint32_t number;
} WWT_ALIGNED;

/* Declare it with WWT_SHARED, and all zero. */
struct wwt_lock {
    struct wwt_place places[WWT_MOST_NODES];
};

/* Writes a place, and gives its block back. */
static inline void wwt_put_place(struct wwt_place *place, uint32_t number)
{
    place->number = number;
    wwt_check_in(place);
}

/* Reads another node's place, and gives the copy back, so that its owner can write without a trap. */
static inline uint32_t wwt_get_place(const struct wwt_place *place)
{
    uint32_t number = place->number;
    wwt_check_in(place);
    return number;
}

/* Takes the lock, as soon as nobody before this node has it or wants it. */
static inline void wwt_acquire(struct wwt_lock *lock)
{
    uint32_t node = wwt_node();
    uint32_t nodes = wwt_nodes();
    uint32_t own = WWT_DRAWING;
    wwt_put_place(&lock->places[node], WWT_DRAWING);
    for (uint32_t other = 0; other < nodes; other++) {
        uint32_t number = other == node ? WWT_OUT : wwt_get_place(&lock->places[other]);
        if (number > own)
            own = number;
    }
    own++;
    wwt_put_place(&lock->places[node], own);
    for (uint32_t other = 0; other < nodes; other++) {
        uint32_t number;
        if (other == node)
            continue;
        /* (who is drawing has less than any number, so it is waited for, too) */
        do
            number = wwt_get_place(&lock->places[other]);
        while (number != WWT_OUT && (number < own || (number == own && other < node)));
    }
}

/* Gives the lock back. */
static inline void wwt_release(struct wwt_lock *lock)
{
    wwt_put_place(&lock->places[wwt_node()], WWT_OUT);
}

/* Where a sum over all nodes is made. Declare it with WWT_SHARED. */
struct wwt_sum {
    struct wwt_place parts[WWT_MOST_NODES];
};

/* Adds up what all nodes give, and returns the sum on each of them. All have to call it; it has two barriers in it. */
static inline uint32_t wwt_sum(struct wwt_sum *sum, uint32_t part)
{
    uint32_t nodes = wwt_nodes();
    uint32_t whole = 0;
    wwt_put_place(&sum->parts[wwt_node()], part);
    wwt_barrier();
    for (uint32_t node = 0; node < nodes; node++)
        whole += wwt_get_place(&sum->parts[node]);
    wwt_barrier();
    return whole;
}

#endif
