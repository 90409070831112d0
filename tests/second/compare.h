/* What an adapter provides so that its machine is compared with the second model: one table of calls. */
#ifndef SECOND_COMPARE_H
#define SECOND_COMPARE_H

#include "board.h"

/*
 * The machine under test. Each call gets pointers and lengths as the host lends them (a length of 0 comes with a pointer that may be used),
 * any record (R0 and a mode up to 255 included) and any number; it gives its answer, steps and counts, and changes what it was lent.
 */
extern const struct board_calls machine_under_test;

#endif
