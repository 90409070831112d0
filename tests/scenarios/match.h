/* Texts against patterns, with the numbers that they give. */
#ifndef SCENARIOS_MATCH_H
#define SCENARIOS_MATCH_H

#include <stdbool.h>
#include <stdint.h>

/* The numbers that a text gave, in turn, and what stood behind the pattern. */
struct found {
    uint64_t numbers[4];
    const char *rest;
};

/* Whether a text is a pattern's: # stands for a number (decimal, with 0x, or behind a minus modulo 2^64), * at the end for any text. */
bool matches(const char *text, const char *pattern, struct found *found);

#endif
