/* The second model of document 01, written from the document alone: the machine with a cache and the machine without one. */
#ifndef SECOND_MODEL_H
#define SECOND_MODEL_H

#include "board.h"

/*
 * The machine with a cache; where the lent directory is NULL, the machine without one: then cache bytes and their refusals don't matter, all
 * counts are 0 and a listing does nothing.
 */
extern const struct board_calls model_calls;

#endif
