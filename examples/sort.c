/*
 * Sorts a hundred numbers by heap sort, and prints them before and after. The numbers come from a xorshift generator,
 * so they are the same in each run and on each machine.
 */
#include "text.h"

#define COUNT 100

static uint32_t numbers[COUNT];

/* The next number of the generator. */
static uint32_t next_random(void)
{
    static uint32_t state = 2463534242u;
    state ^= state << 13;
    state ^= state >> 17;
    state ^= state << 5;
    return state;
}

/*
 * Lets the number at a place sink until neither of its children, at twice the place and 1 or 2 more, is greater.
 * The numbers from the end on are no part of the heap.
 */
static void sink(uint32_t place, uint32_t end)
{
    uint32_t number = numbers[place];
    for (;;) {
        uint32_t child = 2 * place + 1;
        if (child >= end)
            break;
        if (child + 1 < end && numbers[child + 1] > numbers[child])
            child++;
        if (numbers[child] <= number)
            break;
        numbers[place] = numbers[child];
        place = child;
    }
    numbers[place] = number;
}

static void sort(void)
{
    for (uint32_t place = COUNT / 2; place > 0; place--)
        sink(place - 1, COUNT);
    for (uint32_t end = COUNT - 1; end > 0; end--) {
        uint32_t greatest = numbers[0];
        numbers[0] = numbers[end];
        numbers[end] = greatest;
        sink(0, end);
    }
}

static int is_sorted(void)
{
    for (uint32_t place = 1; place < COUNT; place++)
        if (numbers[place - 1] > numbers[place])
            return 0;
    return 1;
}

/* Prints the numbers, ten on a line. */
static void put_numbers(void)
{
    for (uint32_t place = 0; place < COUNT; place++) {
        put_decimal(numbers[place]);
        put_text(place % 10 == 9 ? "\n" : " ");
    }
}

int main(void)
{
    for (uint32_t place = 0; place < COUNT; place++)
        numbers[place] = next_random() % 1000;
    put_text("before\n");
    put_numbers();
    sort();
    put_text("after\n");
    put_numbers();
    return is_sorted() ? 0 : 1;
}
