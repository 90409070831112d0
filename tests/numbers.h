/* Pseudo-random numbers and bytes for the tests in C, from a fixed seed. */
#ifndef NUMBERS_H
#define NUMBERS_H

#include <stddef.h>
#include <stdint.h>

/* The next number of the sequence xorshift64. */
static inline uint64_t next_number(void)
{
    static uint64_t x = 88172645463325252u;
    x ^= x << 13;
    x ^= x >> 7;
    x ^= x << 17;
    return x;
}

/* n pseudo-random bytes. */
static inline void fill(uint8_t *out, size_t n)
{
    for (size_t i = 0; i < n; i++)
        out[i] = (uint8_t)(next_number() >> 32);
}

#endif
