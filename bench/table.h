/* A table of times: pieces of work, each by this house, by nettle and by plain C. */
#ifndef TABLE_H
#define TABLE_H

#include <stddef.h>
#include <stdint.h>

/* A piece of work: how many units one call does, and how each of the three does it; NULL where one does not. */
struct row {
    const char *what;
    int units;
    void (*run[3])(void);
};

/* Measures all rows, interleaved, and prints the best time of each for one unit in Markdown. */
void print_table(const struct row *rows, int count);

/* Ends the run where n bytes differ. */
void expect_same(const uint8_t *a, const uint8_t *b, size_t n);

#endif
