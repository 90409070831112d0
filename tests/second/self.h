/* What the self-tests of the second model share: one counter of failures. */
#ifndef SECOND_SELF_H
#define SECOND_SELF_H

#include <stdbool.h>

/* Counts a check, and says which one failed where it did. */
void expect(bool holds, const char *what);

/* Demand 3 at random: the machine with a cache and the one without agree after each operation, over all cache sizes. */
void try_demand_3(void);

#endif
