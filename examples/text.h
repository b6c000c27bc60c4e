/*
 * Text and numbers, printed by the call that puts a byte out.
 *
 * RV32I has no division, so each digit of a decimal number costs a call of one of the compiler's helpers: about a
 * hundred instructions where the number has 32 bits, and several hundred where it has 64. Hexadecimal digits need none.
 */
#ifndef TEXT_H
#define TEXT_H

#include "wwt.h"

static inline void put_text(const char *text)
{
    while (*text != 0)
        wwt_put_byte((uint8_t)*text++);
}

/* Prints a number by its decimal digits. */
static inline void put_decimal(uint32_t number)
{
    uint8_t digits[10];
    int count = 0;
    do {
        uint32_t tenth = number / 10;
        digits[count++] = (uint8_t)('0' + (number - 10 * tenth));
        number = tenth;
    } while (number != 0);
    while (count > 0)
        wwt_put_byte(digits[--count]);
}

/* Prints a number of 64 bits by its decimal digits. */
static inline void put_decimal_64(uint64_t number)
{
    uint8_t digits[20];
    int count = 0;
    do {
        uint64_t tenth = number / 10;
        digits[count++] = (uint8_t)('0' + (number - 10 * tenth));
        number = tenth;
    } while (number != 0);
    while (count > 0)
        wwt_put_byte(digits[--count]);
}

/* Prints a number by its eight hexadecimal digits. */
static inline void put_hex(uint32_t number)
{
    for (int shift = 28; shift >= 0; shift -= 4)
        wwt_put_byte((uint8_t)"0123456789abcdef"[number >> shift & 15]);
}

#endif
