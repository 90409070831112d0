/* The plain C types of a board and of its calls, shared by the second model and by any machine that is compared with it. */
#ifndef SECOND_BOARD_H
#define SECOND_BOARD_H

#include <stddef.h>
#include <stdint.h>

enum { LINE_BYTES = 64, MAC_BYTES = 16, SLOTS_AT_MOST = 64, RUN_AT_MOST = 10000 };
enum { NORMAL = 0, ACTIVE = 1, SUSPENDED = 2 };
enum { TAG_NONE = 0, TAG_CODE = 1, TAG_DATA = 2 };

/* The registers of 'The machine's parts', without padding, so that two records are compared byte by byte. */
struct board_record {
    uint64_t r[32];
    uint64_t pc;
    uint64_t epc;
    uint64_t drk[2];            /* the high word first */
    uint64_t srh[4];            /* word 0 lowest, as in CEM_Buffer */
    uint64_t cem_buffer[4];     /* word 0 lowest */
    uint64_t interrupt_hash[2]; /* the high word first */
    uint64_t interrupt_address;
    uint32_t cause;
    uint32_t pid;
    uint32_t saved_pid;
    uint32_t mode;
    uint32_t drk_lock;          /* 0 or 1 */
    uint16_t cid;
    uint16_t saved_cid;
};
_Static_assert(sizeof(struct board_record) == 47 * 8 + 24, "a record has no padding");

/* What the host lends to a machine call beside the record; lengths count bytes, the directory's counts its numbers. */
struct lent {
    uint8_t *memory;
    size_t memory_length;
    uint8_t *macs;
    size_t macs_length;
    uint8_t *cache;
    size_t cache_length;
    uint32_t *directory;
    size_t directory_length;
};

/* The four counts that a machine call gives. */
struct counts {
    uint64_t filled;
    uint64_t written;
    uint64_t checked;
    uint64_t made;
};

/* What a machine call gives beside the record and the buffers; steps is 0 but for run. */
struct outcome {
    uint64_t answer;
    uint64_t steps;
    struct counts counts;
};

/* One record of the listing's row. */
struct line_record {
    uint32_t used;
    uint32_t line;
    uint32_t tag;
    uint32_t dirty;
};

/* Every machine call and the depot's three; the DRK of a depot call is two words, the high one first. */
struct board_calls {
    struct outcome (*run)(struct board_record *record, const struct lent *lent, uint64_t n);
    struct outcome (*interrupt)(struct board_record *record, const struct lent *lent);
    struct outcome (*bus_read)(struct board_record *record, const struct lent *lent, uint64_t line, uint8_t *transfer, size_t length);
    struct outcome (*bus_write)(struct board_record *record, const struct lent *lent, uint64_t line, const uint8_t *transfer, size_t length);
    struct outcome (*bus_write_mac)(struct board_record *record, const struct lent *lent, uint64_t line, const uint8_t *mac, size_t length);
    struct outcome (*evict_line)(struct board_record *record, const struct lent *lent, uint64_t line);
    struct outcome (*write_back)(struct board_record *record, const struct lent *lent);
    struct outcome (*reboot)(struct board_record *record, const struct lent *lent);
    struct outcome (*power_cut)(struct board_record *record, const struct lent *lent);
    struct outcome (*list_slots)(struct board_record *record, const struct lent *lent, struct line_record *row, size_t length);
    uint64_t (*sign)(const uint64_t drk[2], uint64_t address, uint8_t *line, size_t length);
    uint64_t (*seal)(const uint64_t drk[2], uint64_t address, uint8_t *line, size_t length, uint8_t *mac, size_t mac_length);
    uint64_t (*open)(const uint64_t drk[2], uint64_t address, uint8_t *line, size_t length, const uint8_t *mac, size_t mac_length);
};

#endif
