/* Pseudo-random scenarios for a board: sizes, first contents, and a list of calls with their arguments, all from a seed and a number. */
#ifndef SECOND_SCENARIOS_H
#define SECOND_SCENARIOS_H

#include "board.h"

enum {
    SLACK = 64, /* bytes behind each lent buffer, which no call may change */
    MEMORY_ROOM = 65536 + 128,
    MACS_ROOM = MEMORY_ROOM / 4 + 32,
    SLOTS_ROOM = SLOTS_AT_MOST + 4,
    CALLS_AT_MOST = 24,
    TRANSFER_ROOM = 192,
    MAC_ROOM = 160
};

enum call_kind {
    CALL_RUN, CALL_INTERRUPT, CALL_BUS_READ, CALL_BUS_WRITE, CALL_BUS_WRITE_MAC, CALL_EVICT_LINE, CALL_WRITE_BACK,
    CALL_REBOOT, CALL_POWER_CUT, CALL_LIST_SLOTS, CALL_SIGN, CALL_SEAL, CALL_OPEN, CALL_KINDS
};

/* The names of the calls, in the order of their kinds. */
extern const char *const call_names[CALL_KINDS];

/* The lengths of the four buffers as lent. */
struct lengths {
    size_t memory;
    size_t macs;
    size_t cache;
    size_t directory;
};

enum place { IN_RECORD, IN_MEMORY, IN_MACS, IN_CACHE, IN_DIRECTORY };

/* What the host itself changes before a call: `size` bytes at `offset` of a part (0: nothing), taken back where the call is refused. */
struct change {
    enum place place;
    size_t offset;
    size_t size;
    uint8_t bytes[sizeof(struct board_record)];
};

/* One call with everything that it is lent beside the board. */
struct call {
    enum call_kind kind;
    struct change change;
    struct lengths lengths;
    uint64_t number; /* n, the line, or the depot's address */
    uint64_t drk[2];
    size_t length;     /* of the transfer buffer, or of the listing's row */
    size_t mac_length;
    uint8_t transfer[TRANSFER_ROOM];
    uint8_t mac[MAC_ROOM];
};

/* The first state of a board, and the calls in turn; the rooms hold SLACK bytes behind the lengths. */
struct scenario {
    struct board_record record;
    struct lengths lengths;
    uint8_t memory[MEMORY_ROOM + SLACK];
    uint8_t macs[MACS_ROOM + SLACK];
    uint8_t cache[SLOTS_ROOM * LINE_BYTES + SLACK];
    uint32_t directory[SLOTS_ROOM + SLACK / 4];
    size_t call_count;
    struct call calls[CALLS_AT_MOST];
};

/* Makes the scenario of a seed and a number; the same two give the same scenario, whatever the compiler. */
void make_scenario(struct scenario *s, uint64_t seed, uint64_t number);

/* A sequence of pseudo-random numbers (splitmix64). */
struct chance {
    uint64_t state;
};

/* The next number of 64 bits. */
uint64_t any(struct chance *c);

/* A number below a bound that is not 0. */
uint64_t below(struct chance *c, uint64_t bound);

#endif
