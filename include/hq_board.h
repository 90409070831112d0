/* The SP board for programs in C: the functions of the crate board, in crates/board/out/libboard.a (x86-64 Linux; of the C library it needs memcpy, memmove and memset).
 *
 * What is lent
 * - The host owns one processor record and every buffer. A call borrows them until it returns, keeps no pointer, allocates nothing and has no state of its own,
 *   so calls on different records and buffers may run in different threads.
 * - Memory: M bytes, a multiple of 64, 128 <= M <= 65,536. Line n is the 64 bytes from 64 n on.
 * - MAC area: M / 4 bytes, 16 for each line of memory.
 * - Cache: 64 C bytes, 1 <= C <= 64. Line n may sit only in slot n mod C.
 * - Directory: C numbers, one for each slot: 0 for empty; otherwise bit 0 is 1, bits 1-2 are the tag (0 none, 1 Secure Instruction, 2 Secure Data), bit 3 is
 *   dirty, bits 4-13 are the line's number and all others 0. A new board starts with a cache and a directory of zeros.
 *
 * What C cannot check, and the caller must keep
 * - No pointer is NULL, not even where its length is 0 (hand over the address of any object then), each is aligned for its type, and behind it lie as many
 *   elements as the length says.
 * - What a call may write, the record and every buffer that is not const, overlaps nothing else that is passed to the same call.
 * - `lock` is a bool: its byte holds 0 or 1. memset to 0 makes a fine record (R0 is zero, the mode is normal, DRK is zero and not locked).
 * Everything else is checked: any lengths, any numbers, any bytes, any other record.
 *
 * What every call answers
 * - 0 when done; run also a fault. Otherwise a refusal, the lowest that applies, and then nothing was done: the record and all buffers keep their bytes, the
 *   steps and all counts are 0.
 * - Which refusals a call can give: 101 to 105 every call that takes a record; the others are named with each call.
 * Each call is proved to give, for every input, exactly the answer, the record, the counts and the later bytes of each buffer that the rules of the board say. */
#ifndef HQ_BOARD_H
#define HQ_BOARD_H

#include <stdbool.h>
#include <stddef.h>
#include <stdint.h>

#ifdef __cplusplus
extern "C" {
#endif

enum {
    HQ_LINE_BYTES = 64,
    HQ_MAC_BYTES = 16,
    HQ_RUN_AT_MOST = 10000
};

/* CEM_Mode */
enum {
    HQ_NORMAL = 0,
    HQ_ACTIVE = 1,
    HQ_SUSPENDED = 2
};

/* A line's tag in the cache. */
enum {
    HQ_TAG_NONE = 0,
    HQ_TAG_SECURE_INSTRUCTION = 1,
    HQ_TAG_SECURE_DATA = 2
};

/* What run answers where an instruction faulted; the record's cause has the same number, or 32 after an interrupt. */
enum {
    HQ_FAULT_LOCKED = 1,        /* drk.set while DRK is locked */
    HQ_FAULT_NOT_ACTIVE = 2,    /* active mode needed */
    HQ_FAULT_NOT_NORMAL = 3,    /* begin_cem.a outside normal mode */
    HQ_FAULT_CODE_MAC = 4,      /* the code line's MAC fails, or pc stands in a MAC */
    HQ_FAULT_DATA_MAC = 5,      /* the data line's MAC fails */
    HQ_FAULT_HASH = 6,          /* the registers' hash fails at rfi */
    HQ_FAULT_INVALID = 7,       /* begin_cem.u, or a sel that is not listed */
    HQ_FAULT_ALIGNMENT = 9,     /* pc not a multiple of 4, or a data address not of 8 */
    HQ_FAULT_BEYOND = 10,       /* an address beyond memory */
    HQ_FAULT_OPCODE = 11,       /* undefined opcode */
    HQ_CAUSE_INTERRUPT = 32
};

enum {
    HQ_REFUSED_MEMORY = 101,    /* the memory's length is not as above */
    HQ_REFUSED_MACS = 102,      /* the MAC area is not M / 4 bytes */
    HQ_REFUSED_CACHE = 103,     /* the directory has no or more than 64 numbers, or the cache is not 64 bytes for each */
    HQ_REFUSED_DIRECTORY = 104, /* a directory number is not as above, its line belongs to another slot or not to memory, or it is a dirty Secure Instruction */
    HQ_REFUSED_RECORD = 105,    /* R0 is not zero, or the mode is above 2 */
    HQ_REFUSED_LINE = 106,      /* no such line; of the depot: the address is not a multiple of 64 */
    HQ_REFUSED_BUFFER = 107,    /* the call's own buffer is not 64 bytes, or a MAC not 16 */
    HQ_REFUSED_STEPS = 108,     /* n above 10,000 */
    HQ_REFUSED_MAC = 109,       /* of the depot's open: the MAC is wrong */
    HQ_REFUSED_ROW = 110        /* the row has not as many records as there are slots */
};

/* All registers but R0 to R31. The high word of DRK and the high bytes of the hash come first; SRH and CEM_Buffer have word 0 lowest. */
struct hq_special {
    uint64_t pc;
    uint64_t epc;
    uint64_t cause;
    uint64_t drkhi;
    uint64_t drklo;
    uint64_t srh0;
    uint64_t srh1;
    uint64_t srh2;
    uint64_t srh3;
    uint64_t word0;    /* CEM_Buffer */
    uint64_t word1;
    uint64_t word2;
    uint64_t word3;
    uint8_t hash[16];  /* Interrupt_Hash */
    uint64_t address;  /* Interrupt_Address */
    uint32_t pid;
    uint32_t savedpid;
    uint16_t cid;
    uint16_t savedcid;
    uint8_t mode;      /* CEM_Mode; above 2 it is refused with 105 */
    bool lock;         /* DRK_Lock; 0 or 1, and nothing else may stand here */
};

/* The processor's record. It holds keys: whoever can read it can read DRK. */
struct hq_processor {
    uint64_t r[32];    /* R0 is zero, or the record is refused with 105 */
    struct hq_special special;
};

/* The work of a call: lines filled (also those whose MAC failed), dirty lines written, MACs checked, MACs made for lines. */
struct hq_counts {
    uint64_t filled;
    uint64_t written;
    uint64_t checked;
    uint64_t made;
};

/* What a machine call gives beside the record and the buffers; steps is 0 but for hq_run. */
struct hq_report {
    uint64_t answer;
    uint64_t steps;
    struct hq_counts counts;
};

/* One slot in the listing: used or empty, line, tag, dirty; the four fields of an empty slot are zero. */
struct hq_line_record {
    uint32_t used;     /* 1 or 0 */
    uint32_t line;
    uint32_t tag;
    uint32_t dirty;    /* 1 or 0 */
};

/* ---- the machine. Lengths are in bytes, the directory's and the row's in elements. */

/* Runs at most n instructions, n <= 10,000 (108). It stops behind the first that faults, which counts as a step, and answers that fault; otherwise it answers 0
 * after n steps. A single step is n = 1. A fault leaves undone what its instruction would have done, suspends an active thread (its registers are encrypted), and goes
 * on at address 64 with epc and cause set, so that a program that handles its faults is run on by the next call. */
struct hq_report hq_run(struct hq_processor *p, uint8_t *mem, size_t mem_length, uint8_t *macs, size_t macs_length, uint8_t *cache, size_t cache_length, uint32_t *dir,
                        size_t dir_length, uint64_t n);

/* An interrupt: as a fault with cause 32, between two instructions. */
struct hq_report hq_interrupt(struct hq_processor *p, uint8_t *mem, size_t mem_length, uint8_t *macs, size_t macs_length, uint8_t *cache, size_t cache_length, uint32_t *dir,
                              size_t dir_length);

/* The bus reads line n of memory into a buffer of 64 bytes, after evicting that line. Refused: no such line (106), another length (107). */
struct hq_report hq_bus_read(struct hq_processor *p, uint8_t *mem, size_t mem_length, uint8_t *macs, size_t macs_length, uint8_t *cache, size_t cache_length, uint32_t *dir,
                             size_t dir_length, uint8_t *line, size_t line_length, uint64_t n);

/* The bus writes a buffer of 64 bytes to line n of memory, after evicting that line. Refused: 106, 107. */
struct hq_report hq_bus_write(struct hq_processor *p, uint8_t *mem, size_t mem_length, uint8_t *macs, size_t macs_length, uint8_t *cache, size_t cache_length, uint32_t *dir,
                              size_t dir_length, const uint8_t *line, size_t line_length, uint64_t n);

/* The bus writes a buffer of 16 bytes to line n's entry in the MAC area, after evicting that line. Refused: 106, 107. */
struct hq_report hq_bus_write_mac(struct hq_processor *p, uint8_t *mem, size_t mem_length, uint8_t *macs, size_t macs_length, uint8_t *cache, size_t cache_length, uint32_t *dir,
                                  size_t dir_length, const uint8_t *mac, size_t mac_length, uint64_t n);

/* Evicts line n where its slot holds it: dirty, it is written back, a Secure Data line sealed and with its MAC. Refused: 106. */
struct hq_report hq_evict_line(struct hq_processor *p, uint8_t *mem, size_t mem_length, uint8_t *macs, size_t macs_length, uint8_t *cache, size_t cache_length, uint32_t *dir,
                               size_t dir_length, uint64_t n);

/* Writes everything back and empties every slot. */
struct hq_report hq_write_back(struct hq_processor *p, uint8_t *mem, size_t mem_length, uint8_t *macs, size_t macs_length, uint8_t *cache, size_t cache_length, uint32_t *dir,
                               size_t dir_length);

/* Writes everything back and empties every slot; then the record is zero but for DRK and SRH. */
struct hq_report hq_reboot(struct hq_processor *p, uint8_t *mem, size_t mem_length, uint8_t *macs, size_t macs_length, uint8_t *cache, size_t cache_length, uint32_t *dir,
                           size_t dir_length);

/* The same without writing back: what only the cache held is lost. */
struct hq_report hq_power_cut(struct hq_processor *p, uint8_t *mem, size_t mem_length, uint8_t *macs, size_t macs_length, uint8_t *cache, size_t cache_length, uint32_t *dir,
                              size_t dir_length);

/* Lists the slots: record i of the row says what slot i holds. Nothing but the row is written. Refused: a row of another length than the directory's (110). */
struct hq_report hq_list_slots(const struct hq_processor *p, const uint8_t *mem, size_t mem_length, const uint8_t *macs, size_t macs_length, const uint8_t *cache,
                               size_t cache_length, const uint32_t *dir, size_t dir_length, struct hq_line_record *rows, size_t rows_length);

/* ---- the depot, which prepares lines under a DRK of two words, the high one first, for an address in memory. Each answers 0 or its lowest refusal:
 * the address is not a multiple of 64 (106), the line is not 64 bytes or the MAC not 16 (107). A refusal writes nothing. */

/* Signs a code line: the MAC of its first 48 bytes goes into its last 16. */
uint32_t hq_depot_sign(uint64_t hi, uint64_t lo, uint64_t address, uint8_t *line, size_t line_length);

/* Seals a data line in its buffer, and puts the MAC of its encrypted bytes into mac. */
uint32_t hq_depot_seal(uint64_t hi, uint64_t lo, uint64_t address, uint8_t *line, size_t line_length, uint8_t *mac, size_t mac_length);

/* Opens a sealed data line in its buffer where its MAC is right, and is refused otherwise (109). */
uint32_t hq_depot_open(uint64_t hi, uint64_t lo, uint64_t address, uint8_t *line, size_t line_length, const uint8_t *mac, size_t mac_length);

#ifdef __cplusplus
}
#endif

#endif
