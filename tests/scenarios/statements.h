/* What a script can ask for: changes of the board by its host, and calls. */
#ifndef SCENARIOS_STATEMENTS_H
#define SCENARIOS_STATEMENTS_H

#include "host.h"

enum { KEPT_AT_MOST = 16, NAME_ROOM = 24 };

/* The board that the script is at, and the boards that it keeps under names. */
struct play {
    struct board now;
    struct board before; /* as the last call was lent it */
    size_t calls;        /* that the line has made */
    size_t kept_count;
    struct {
        char name[NAME_ROOM];
        struct board board;
    } kept[KEPT_AT_MOST];
};

/* Does what a statement says. */
void perform(struct play *p, const char *statement);

/* Keeps the board under a name, and finds a kept one. */
void keep(struct play *p, const char *name);
const struct board *recall(const struct play *p, const char *name);

#endif
