/*
 * Multiplies two matrices of 32 times 32 numbers. Each node has some of the rows, of all three matrices: it writes those of
 * the two that are multiplied, and computes those of the product, for which it reads the whole second matrix. RV32I has
 * no multiplication, so each product is a call of the compiler's helper. That is much work for each block, and so the
 * nodes gain: this is the example that gets faster with more of them.
 *
 * What other nodes will read is checked in when it is written. At the end node 0 prints all numbers of the product added
 * up; the text is the same for any number of nodes.
 */
#include "lock.h"
#include "text.h"

#define SIZE 32

/* A row fills whole blocks, so no block has two writers. */
struct row {
    uint32_t cell[SIZE];
} WWT_ALIGNED;

WWT_SHARED static struct row left[SIZE] = {{{0}}};
WWT_SHARED static struct row right[SIZE] = {{{0}}};
WWT_SHARED static struct row product[SIZE] = {{{0}}};
WWT_SHARED static struct wwt_sum sum = {{{0}}};

static void check_in_row(const struct row *row)
{
    for (uint32_t at = 0; at < sizeof *row; at += WWT_BLOCK)
        wwt_check_in((const char *)row + at);
}

/* Gives a row its first values, numbers of up to eight bits. */
static void begin_row(uint32_t row)
{
    for (uint32_t column = 0; column < SIZE; column++) {
        left[row].cell[column] = (7 * row + column) & 255;
        right[row].cell[column] = (row + 5 * column) & 255;
    }
    check_in_row(&right[row]);
}

/* Computes a row of the product, and returns its numbers added up. */
static uint32_t multiply_row(uint32_t row)
{
    uint32_t whole = 0;
    for (uint32_t column = 0; column < SIZE; column++) {
        uint32_t cell = 0;
        for (uint32_t at = 0; at < SIZE; at++)
            cell += left[row].cell[at] * right[at].cell[column];
        product[row].cell[column] = cell;
        whole += cell;
    }
    return whole;
}

int main(void)
{
    uint32_t node = wwt_node();
    uint32_t nodes = wwt_nodes();
    uint32_t begin = node * SIZE / nodes;
    uint32_t end = (node + 1) * SIZE / nodes;
    for (uint32_t row = begin; row < end; row++)
        begin_row(row);
    wwt_barrier();

    uint32_t part = 0;
    for (uint32_t row = begin; row < end; row++)
        part += multiply_row(row);
    uint32_t whole = wwt_sum(&sum, part);
    if (node == 0) {
        put_text("sum ");
        put_decimal(whole);
        put_text("\n");
    }
    return 0;
}
