/* A stub in place of the adapter: the second model a second time, so that the comparison itself can be tried on planted differences. */
#include "compare.h"

#define model_calls machine_under_test
#include "model.c"
