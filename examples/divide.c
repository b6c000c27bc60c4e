/*
 * Divides numbers of 64 bits, with signs and without, and prints what comes out. RV32I has neither 64-bit numbers nor a
 * division: the compiler calls its helpers __udivdi3, __umoddi3, __divdi3 and __moddi3 for them, and __muldi3 for the
 * product by which each answer is tried.
 */
#include "text.h"

struct unsigned_case {
    uint64_t number, divisor;
};

struct signed_case {
    int64_t number, divisor;
};

/* These are volatile so that no compiler divides ahead of the run. */
static const volatile struct unsigned_case unsigned_cases[] = {
    {0, 1},
    {1, 18446744073709551615u},
    {1000000000000u, 7},
    {18446744073709551615u, 1},
    {18446744073709551615u, 4294967295u},
    {18446744073709551615u, 4294967296u},
    {18446744073709551615u, 4294967297u},
    {18446744073709551614u, 18446744073709551615u},
    {9223372036854775808u, 3000000019u},
    {1311768467463790320u, 81985529216486895u},
};

static const volatile struct signed_case signed_cases[] = {
    {7, 2},
    {-7, 2},
    {7, -2},
    {-7, -2},
    {-1000000000000, 999999999989},
    {INT64_MIN, 10},
    {INT64_MIN, INT64_MAX},
    {INT64_MAX, INT64_MIN},
};

static void put_signed(int64_t number)
{
    if (number < 0)
        put_text("-");
    put_decimal_64(number < 0 ? 0 - (uint64_t)number : (uint64_t)number);
}

/*
 * Divides a number, prints the answer, and returns whether it multiplies back to the number. The answer is volatile
 * since a compiler knows that it does, and would leave the product out.
 */
static int divide_unsigned(uint64_t number, uint64_t divisor)
{
    volatile uint64_t quotient = number / divisor;
    volatile uint64_t rest = number % divisor;
    put_decimal_64(number);
    put_text(" / ");
    put_decimal_64(divisor);
    put_text(" = ");
    put_decimal_64(quotient);
    put_text(" rest ");
    put_decimal_64(rest);
    put_text("\n");
    return rest < divisor && quotient * divisor + rest == number;
}

/* The same with signs. */
static int divide_signed(int64_t number, int64_t divisor)
{
    volatile int64_t quotient = number / divisor;
    volatile int64_t rest = number % divisor;
    put_signed(number);
    put_text(" / ");
    put_signed(divisor);
    put_text(" = ");
    put_signed(quotient);
    put_text(" rest ");
    put_signed(rest);
    put_text("\n");
    return quotient * divisor + rest == number;
}

int main(void)
{
    uint32_t wrong = 0;
    for (uint32_t at = 0; at < sizeof unsigned_cases / sizeof unsigned_cases[0]; at++)
        if (!divide_unsigned(unsigned_cases[at].number, unsigned_cases[at].divisor))
            wrong++;
    for (uint32_t at = 0; at < sizeof signed_cases / sizeof signed_cases[0]; at++)
        if (!divide_signed(signed_cases[at].number, signed_cases[at].divisor))
            wrong++;
    return wrong == 0 ? 0 : 1;
}
