/* What a line of the text says behind its name. */
#ifndef SCENARIOS_TELLING_H
#define SCENARIOS_TELLING_H

#include "host.h"

/* Writes what changed from one board to the next, and what the last call gave. What is not named did not change. */
void tell(const struct board *before, const struct board *after);

/* Writes the value that stands between < and > in a text. */
void write_value(const struct board *b, const char *name);

#endif
