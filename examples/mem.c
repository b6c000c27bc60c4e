/*
 * The four functions that the compiler calls by itself, for large assignments and arrays with first values. They go byte
 * by byte, so a program that moves much has its own. Private and shared memory may be mixed.
 */
#include <stddef.h>

/* (else the compiler would make each of these loops a call of the function that it stands in) */
#pragma GCC optimize("no-tree-loop-distribute-patterns")

void *memset(void *to, int byte, size_t count)
{
    unsigned char *at = to;
    while (count-- > 0)
        *at++ = (unsigned char)byte;
    return to;
}

void *memcpy(void *restrict to, const void *restrict from, size_t count)
{
    unsigned char *at = to;
    const unsigned char *next = from;
    while (count-- > 0)
        *at++ = *next++;
    return to;
}

/* The two places may overlap. */
void *memmove(void *to, const void *from, size_t count)
{
    unsigned char *at = to;
    const unsigned char *next = from;
    if (at <= next) {
        while (count-- > 0)
            *at++ = *next++;
    } else {
        while (count-- > 0)
            at[count] = next[count];
    }
    return to;
}

int memcmp(const void *left, const void *right, size_t count)
{
    const unsigned char *a = left;
    const unsigned char *b = right;
    for (size_t at = 0; at < count; at++)
        if (a[at] != b[at])
            return a[at] < b[at] ? -1 : 1;
    return 0;
}
