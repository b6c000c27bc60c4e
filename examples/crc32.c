/*
 * Prints the CRC-32 of three runs of bytes: of none, of the digits 1 to 9, for which it is known to be cbf43926, and of
 * 4096 bytes that count up from 0 again and again. The sum is that of Ethernet, gzip and PNG, taken by a table of 256
 * words that the program makes first.
 */
#include "text.h"

#define SIZE 4096

static uint32_t table[256];
static uint8_t counting[SIZE];

/* Makes the table: the rest that each value of a byte leaves, lowest bit first, by the reversed polynomial edb88320. */
static void make_table(void)
{
    for (uint32_t byte = 0; byte < 256; byte++) {
        uint32_t rest = byte;
        for (int bit = 0; bit < 8; bit++)
            rest = rest & 1 ? rest >> 1 ^ 0xedb88320u : rest >> 1;
        table[byte] = rest;
    }
}

static uint32_t crc32(const uint8_t *bytes, uint32_t size)
{
    uint32_t sum = 0xffffffffu;
    for (uint32_t at = 0; at < size; at++)
        sum = table[(sum ^ bytes[at]) & 255] ^ sum >> 8;
    return ~sum;
}

static void put_sum(const char *name, uint32_t sum)
{
    put_text(name);
    put_text(" ");
    put_hex(sum);
    put_text("\n");
}

int main(void)
{
    static const uint8_t digits[9] = {'1', '2', '3', '4', '5', '6', '7', '8', '9'};
    make_table();
    for (uint32_t at = 0; at < SIZE; at++)
        counting[at] = (uint8_t)at;
    put_sum("nothing", crc32(digits, 0));
    put_sum("digits", crc32(digits, 9));
    put_sum("counting", crc32(counting, SIZE));
    return crc32(digits, 9) == 0xcbf43926u ? 0 : 1;
}
