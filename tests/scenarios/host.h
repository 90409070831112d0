/* A board as its host holds it: the record, everything that is lent with its length, and what the last call gave. */
#ifndef SCENARIOS_HOST_H
#define SCENARIOS_HOST_H

#include <stdbool.h>

#include "compare.h"
#include "scenarios.h"

/* What is lent beside the record. */
enum part { MEMORY, MACS, CACHE, DIRECTORY, TRANSFER, MAC, ROW, PARTS };

struct board {
    struct board_record record;
    uint8_t memory[MEMORY_ROOM + SLACK];
    uint8_t macs[MACS_ROOM + SLACK];
    uint8_t cache[SLOTS_ROOM * LINE_BYTES + SLACK];
    uint32_t directory[SLOTS_ROOM + SLACK / 4];
    uint8_t transfer[TRANSFER_ROOM];
    uint8_t mac[MAC_ROOM];
    struct line_record row[SLOTS_ROOM];
    size_t lengths[PARTS]; /* as lent: bytes, numbers of the directory, records of the row */
    uint64_t depot_drk[2]; /* what the depot signs, seals and opens with */
    uint32_t word;         /* the instruction that was laid last */
    bool by_the_buffer;    /* whether each buffer is told as a whole */
    enum call_kind kind;   /* of the last call */
    struct outcome out;    /* what it gave */
};

/* The bytes of a part, and how many there are with the room behind what is lent. */
uint8_t *bytes_of(struct board *b, enum part part);
size_t room_of(enum part part);

/* Lends so many elements of a part. */
void lend(struct board *b, enum part part, uint64_t length);

/* Whether a part is the same on two boards, the room behind what is lent included. */
bool same_part(const struct board *a, const struct board *b, enum part part);

/* A number in bytes, the lowest first, and the word that eight such bytes give. */
void put_low_first(uint8_t *bytes, uint64_t number, size_t length);
uint64_t word_at(const uint8_t *bytes);

/* Whether a call is one of the depot's. */
bool of_depot(enum call_kind kind);

/* Makes a call with a number (n, the line, the depot's address); `before` is the board as it was lent. */
void make_call(struct board *now, struct board *before, enum call_kind kind, uint64_t number);

/* Ends the program, which stands at a line of the script. */
_Noreturn void stop(const char *why, const char *text);

#endif
