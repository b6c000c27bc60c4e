/*
 * Sorts 2048 numbers of 16 bits by radix, four bits at a time. In each of the four passes each node counts the digits in
 * its part, reads what all others counted, and so knows where each of its numbers goes. Numbers go anywhere, so nearly
 * every block is written by one node and then read by another.
 *
 * The annotations check a block in as soon as a node is through with it: what it has read, what it has counted, and what
 * it has written. Compiled with -DPLAIN the program has none, and the directory has to call the blocks back, which traps.
 * At the end node 0 prints whether the numbers are sorted, and a sum that depends on their places; the text is the same for
 * any number of nodes.
 */
#include "lock.h"
#include "text.h"

#define COUNT 2048
#define BITS 4
#define PASSES 4
#define DIGITS (1 << BITS)

/* Numbers that fill a block. */
#define CELLS (WWT_BLOCK / 4)

/* How often a node has each digit, in blocks of its own. */
struct digits {
    uint32_t count[DIGITS];
} WWT_ALIGNED;

WWT_SHARED static uint32_t first[COUNT] WWT_ALIGNED = {0};
WWT_SHARED static uint32_t second[COUNT] WWT_ALIGNED = {0};
WWT_SHARED static struct digits counted[WWT_MOST_NODES] = {{{0}}};
WWT_SHARED static struct wwt_sum sum = {{{0}}};

/* The numbers of a node: from begin on, up to the one before end. */
struct part {
    uint32_t begin;
    uint32_t end;
};

static void give_back(const void *block)
{
#ifndef PLAIN
    wwt_check_in(block);
#else
    (void)block;
#endif
}

/* Gives back the block of a number where the one after it lies in another block. */
static void give_back_last(const uint32_t *numbers, uint32_t at)
{
    if (at % CELLS == CELLS - 1)
        give_back(&numbers[at]);
}

/* The next number of a xorshift generator, from the last one. */
static uint32_t next_random(uint32_t state)
{
    state ^= state << 13;
    state ^= state >> 17;
    state ^= state << 5;
    return state;
}

static uint32_t digit_of(uint32_t number, uint32_t shift)
{
    return number >> shift & (DIGITS - 1);
}

static void begin(uint32_t *to, struct part own)
{
    for (uint32_t at = own.begin; at < own.end; at++) {
        to[at] = next_random(2463534242u + at) & 0xffff;
        give_back_last(to, at);
    }
}

/* Counts the digits of a node's part. */
static void count(const uint32_t *from, struct part own, uint32_t shift, struct digits *to)
{
    uint32_t here[DIGITS];
    for (uint32_t digit = 0; digit < DIGITS; digit++)
        here[digit] = 0;
    for (uint32_t at = own.begin; at < own.end; at++)
        here[digit_of(from[at], shift)]++;
    for (uint32_t digit = 0; digit < DIGITS; digit++) {
        to->count[digit] = here[digit];
        give_back_last(to->count, digit);
    }
}

/* Where a node's first number of each digit goes: after all lesser digits, and after the same digit of the nodes before. */
static void place(uint32_t node, uint32_t nodes, uint32_t *places)
{
    uint32_t all[DIGITS];
    for (uint32_t digit = 0; digit < DIGITS; digit++) {
        all[digit] = 0;
        places[digit] = 0;
    }
    for (uint32_t other = 0; other < nodes; other++)
        for (uint32_t digit = 0; digit < DIGITS; digit++) {
            uint32_t found = counted[other].count[digit];
            give_back_last(counted[other].count, digit);
            all[digit] += found;
            if (other < node)
                places[digit] += found;
        }
    uint32_t before = 0;
    for (uint32_t digit = 0; digit < DIGITS; digit++) {
        places[digit] += before;
        before += all[digit];
    }
}

/* Puts a node's numbers into their places. */
static void move(uint32_t *to, const uint32_t *from, struct part own, uint32_t shift, uint32_t *places)
{
    for (uint32_t at = own.begin; at < own.end; at++) {
        uint32_t number = from[at];
        uint32_t digit = digit_of(number, shift);
        give_back_last(from, at);
        to[places[digit]] = number;
        give_back_last(to, places[digit]);
        places[digit]++;
    }
    for (uint32_t digit = 0; digit < DIGITS; digit++)
        give_back(&to[places[digit] == 0 ? 0 : places[digit] - 1]);
}

/* Whether a node's part is in order, up to the number after it. */
static uint32_t is_sorted(const uint32_t *numbers, struct part own)
{
    for (uint32_t at = own.begin; at < own.end && at + 1 < COUNT; at++)
        if (numbers[at] > numbers[at + 1])
            return 0;
    return 1;
}

/* A sum that other places of the same numbers would change. */
static uint32_t weigh(const uint32_t *numbers, struct part own)
{
    uint32_t whole = 0;
    for (uint32_t at = own.begin; at < own.end; at++)
        whole += numbers[at] << (at & 7);
    return whole;
}

int main(void)
{
    uint32_t node = wwt_node();
    uint32_t nodes = wwt_nodes();
    struct part own = {node * COUNT / nodes, (node + 1) * COUNT / nodes};
    uint32_t *from = first;
    uint32_t *to = second;
    begin(from, own);
    wwt_barrier();
    for (uint32_t pass = 0; pass < PASSES; pass++) {
        uint32_t places[DIGITS];
        count(from, own, BITS * pass, &counted[node]);
        wwt_barrier();
        place(node, nodes, places);
        move(to, from, own, BITS * pass, places);
        wwt_barrier();
        uint32_t *moved = to;
        to = from;
        from = moved;
    }
    uint32_t sorted = wwt_sum(&sum, is_sorted(from, own));
    uint32_t weight = wwt_sum(&sum, weigh(from, own));
    if (node == 0) {
        put_text(sorted == nodes ? "sorted" : "not sorted");
        put_text(" weight ");
        put_decimal(weight);
        put_text("\n");
    }
    return sorted == nodes ? 0 : 1;
}
