/* Holds include/hq_board.h to the library: every field of every struct is found where the header says, by what the calls do with it, and each call is tried once and refused once. */
#include "hq_board.h"

#include <stdio.h>
#include <string.h>

enum { LINES = 16, MEMORY = 64 * LINES, SLOTS = 8, GUARD = 0x5C };

/* A board between guards: nothing may be written outside what is lent. */
static struct {
    uint8_t before[64];
    struct hq_processor p;
    uint8_t between[64];
    uint8_t mem[MEMORY];
    uint8_t macs[MEMORY / 4];
    uint8_t cache[64 * SLOTS];
    uint32_t dir[SLOTS];
    struct hq_line_record rows[SLOTS];
    uint8_t line[64];
    uint8_t mac[16];
    uint8_t after[64];
} b;

static int failures;

static void expect(int holds, const char *what, int at) {
    if (!holds) {
        printf("header: line %d: %s\n", at, what);
        failures++;
    }
}

#define EXPECT(holds) expect((holds), #holds, __LINE__)
#define LENT b.mem, sizeof b.mem, b.macs, sizeof b.macs, b.cache, sizeof b.cache, b.dir, SLOTS

_Static_assert(sizeof(struct hq_processor) == 400 && offsetof(struct hq_processor, special) == 256, "the record");
_Static_assert(offsetof(struct hq_special, hash) == 104 && offsetof(struct hq_special, pid) == 128 && offsetof(struct hq_special, lock) == 141, "its registers");
_Static_assert(sizeof(struct hq_report) == 48 && sizeof(struct hq_counts) == 32 && sizeof(struct hq_line_record) == 16, "the others");

static uint32_t word(unsigned op, unsigned ra, unsigned rb, unsigned low) { return op << 26 | ra << 21 | rb << 16 | (low & 0xFFFF); }

static void put_word(size_t address, uint32_t w) {
    for (size_t i = 0; i < 4; i++)
        b.mem[address + i] = (uint8_t)(w >> 8 * i);
}

static uint64_t double_at(const uint8_t *bytes) {
    uint64_t n = 0;
    for (size_t i = 8; i-- > 0;)
        n = n << 8 | bytes[i];
    return n;
}

static int is_report(struct hq_report x, uint64_t answer, uint64_t steps, uint64_t filled, uint64_t written, uint64_t checked, uint64_t made) {
    int same = x.answer == answer && x.steps == steps && x.counts.filled == filled && x.counts.written == written && x.counts.checked == checked && x.counts.made == made;
    if (!same)
        printf("header: answer %llu steps %llu filled %llu written %llu checked %llu made %llu\n", (unsigned long long)x.answer, (unsigned long long)x.steps,
               (unsigned long long)x.counts.filled, (unsigned long long)x.counts.written, (unsigned long long)x.counts.checked, (unsigned long long)x.counts.made);
    return same;
}

static struct hq_report run_at(uint64_t pc, uint64_t n) {
    b.p.special.pc = pc;
    return hq_run(&b.p, LENT, n);
}

static void fresh_board(void) {
    memset(&b, 0, sizeof b);
    memset(b.before, GUARD, sizeof b.before);
    memset(b.between, GUARD, sizeof b.between);
    memset(b.after, GUARD, sizeof b.after);
}

static void guards_stand(void) {
    for (size_t i = 0; i < sizeof b.before; i++)
        EXPECT(b.before[i] == GUARD && b.between[i] == GUARD && b.after[i] == GUARD);
}

/* R1 to R31, pc, EPC, PID, CID, DRK and DRK_Lock, each by an instruction that sets it. */
static void registers_of_normal_mode(void) {
    fresh_board();
    for (unsigned i = 1; i < 32; i++)
        put_word(4 * i - 4, word(6, i, 0, 100 + i));
    EXPECT(is_report(run_at(0, 31), 0, 31, 2, 0, 0, 0));
    EXPECT(b.p.r[0] == 0 && b.p.special.pc == 124);
    for (unsigned i = 1; i < 32; i++)
        EXPECT(b.p.r[i] == 100 + i);
    put_word(128, word(13, 1, 0, 0));
    put_word(132, word(15, 2, 3, 0));
    put_word(136, word(32, 4, 5, 0));
    put_word(140, word(33, 0, 0, 0));
    put_word(144, word(32, 4, 5, 0));
    EXPECT(is_report(run_at(128, 4), 0, 4, 2, 0, 0, 0));
    EXPECT(b.p.special.epc == 101 && b.p.special.pid == 102 && b.p.special.cid == 103 && b.p.special.drkhi == 104 && b.p.special.drklo == 105);
    EXPECT(b.p.special.lock && b.p.special.cause == 0);
    EXPECT(is_report(run_at(144, 9), HQ_FAULT_LOCKED, 1, 0, 0, 0, 0));
    EXPECT(b.p.special.cause == HQ_FAULT_LOCKED && b.p.special.epc == 144 && b.p.special.pc == 64);
}

/* A signed line that begins concealed execution, fills CEM_Buffer and SRH, and stores a protected word. */
static void sign_and_seal(void) {
    put_word(192, word(39, 0, 0, 0));
    put_word(196, word(37, 11, 10, 0));
    put_word(200, word(37, 13, 12, 2));
    put_word(204, word(36, 0, 0, 0));
    put_word(208, word(42, 20, 0, 320));
    put_word(64, word(16, 0, 0, 0));
    EXPECT(hq_depot_sign(104, 105, 192, b.mem + 192, 64) == 0);
    EXPECT(hq_depot_seal(104, 105, 320, b.mem + 320, 64, b.macs + 80, 16) == 0);
}

/* CEM_Buffer, SRH and the mode; the listing; and the bus, which reads the line sealed. */
static void registers_of_active_mode(void) {
    sign_and_seal();
    EXPECT(is_report(run_at(192, 5), 0, 5, 3, 0, 2, 0));
    EXPECT(b.p.special.mode == HQ_ACTIVE && b.p.special.pc == 212);
    EXPECT(b.p.special.word0 == 110 && b.p.special.word1 == 111 && b.p.special.word2 == 112 && b.p.special.word3 == 113);
    EXPECT(b.p.special.srh0 == 110 && b.p.special.srh1 == 111 && b.p.special.srh2 == 112 && b.p.special.srh3 == 113);
    EXPECT(is_report(hq_list_slots(&b.p, LENT, b.rows, SLOTS), 0, 0, 0, 0, 0, 0));
    EXPECT(b.rows[5].used == 1 && b.rows[5].line == 5 && b.rows[5].tag == HQ_TAG_SECURE_DATA && b.rows[5].dirty == 1);
    EXPECT(b.rows[3].used == 1 && b.rows[3].line == 3 && b.rows[3].tag == HQ_TAG_SECURE_INSTRUCTION && b.rows[3].dirty == 0);
    EXPECT(b.rows[7].used == 0 && b.rows[7].line == 0 && b.rows[7].tag == 0 && b.rows[7].dirty == 0);
    EXPECT(is_report(hq_bus_read(&b.p, LENT, b.line, 64, 5), 0, 0, 0, 1, 0, 1));
    EXPECT(memcmp(b.line, b.mem + 320, 64) == 0 && b.dir[5] == 0);
    memcpy(b.mac, b.macs + 80, 16);
    EXPECT(hq_depot_open(104, 105, 320, b.line, 64, b.mac, 16) == 0 && double_at(b.line) == 120);
}

/* Interrupt_Hash, Interrupt_Address and the saved thread: the thread resumes with them, and with no byte of the hash changed. */
static void suspended_thread(void) {
    uint64_t r1 = b.p.r[1];
    EXPECT(is_report(hq_interrupt(&b.p, LENT), 0, 0, 0, 0, 0, 0));
    EXPECT(b.p.special.mode == HQ_SUSPENDED && b.p.special.address == 212 && b.p.special.epc == 212 && b.p.special.cause == HQ_CAUSE_INTERRUPT && b.p.special.pc == 64);
    EXPECT(b.p.special.savedpid == 102 && b.p.special.savedcid == 103 && b.p.r[1] != r1);
    for (size_t i = 0; i < 16; i++) {
        struct hq_processor kept = b.p;
        b.p.special.hash[i] ^= 1;
        EXPECT(run_at(64, 1).answer == HQ_FAULT_HASH && b.p.special.mode == HQ_SUSPENDED);
        b.p = kept;
    }
    EXPECT(run_at(64, 1).answer == 0 && b.p.special.mode == HQ_ACTIVE && b.p.special.pc == 212 && b.p.r[1] == r1);
}

/* The calls on lines, with one plain line made dirty by a store. */
static void calls_on_lines(void) {
    fresh_board();
    put_word(0, word(6, 1, 0, 77));
    put_word(4, word(11, 1, 0, 384));
    EXPECT(is_report(run_at(0, 2), 0, 2, 2, 0, 0, 0) && double_at(b.mem + 384) == 0);
    EXPECT(is_report(hq_evict_line(&b.p, LENT, 6), 0, 0, 0, 1, 0, 0) && double_at(b.mem + 384) == 77);
    b.p.r[1] = 78;
    EXPECT(is_report(run_at(4, 1), 0, 1, 1, 0, 0, 0) && is_report(hq_write_back(&b.p, LENT), 0, 0, 0, 1, 0, 0));
    EXPECT(double_at(b.mem + 384) == 78 && b.dir[0] == 0 && b.dir[6] == 0);
    memset(b.line, 7, sizeof b.line);
    memset(b.mac, 9, sizeof b.mac);
    EXPECT(is_report(hq_bus_write(&b.p, LENT, b.line, 64, 7), 0, 0, 0, 0, 0, 0) && memcmp(b.mem + 448, b.line, 64) == 0);
    EXPECT(is_report(hq_bus_write_mac(&b.p, LENT, b.mac, 16, 7), 0, 0, 0, 0, 0, 0) && memcmp(b.macs + 112, b.mac, 16) == 0);
    b.p.r[1] = 79;
    EXPECT(is_report(run_at(4, 1), 0, 1, 2, 0, 0, 0) && is_report(hq_power_cut(&b.p, LENT), 0, 0, 0, 0, 0, 0));
    EXPECT(double_at(b.mem + 384) == 78 && b.p.r[1] == 0 && b.dir[6] == 0);
}

/* A reboot clears every byte of the record but those of DRK and SRH, and none behind it. */
static void reboot_clears(void) {
    size_t first = offsetof(struct hq_processor, special.drkhi), last = offsetof(struct hq_processor, special.word0);
    fresh_board();
    memset(&b.p, 0xA5, sizeof b.p);
    b.p.r[0] = 0;
    b.p.special.mode = HQ_SUSPENDED;
    b.p.special.lock = true;
    EXPECT(is_report(hq_reboot(&b.p, LENT), 0, 0, 0, 0, 0, 0));
    for (size_t i = 0; i <= offsetof(struct hq_processor, special.lock); i++)
        EXPECT(((const uint8_t *)&b.p)[i] == (i >= first && i < last ? 0xA5 : 0));
}

/* Each number once, from the call that has it; nothing changes. */
static void refusals(void) {
    fresh_board();
    b.p.r[1] = 1;
    uint8_t kept[sizeof b];
    memcpy(kept, &b, sizeof b);
    EXPECT(is_report(hq_run(&b.p, b.mem, 64, b.macs, sizeof b.macs, b.cache, sizeof b.cache, b.dir, SLOTS, 1), HQ_REFUSED_MEMORY, 0, 0, 0, 0, 0));
    EXPECT(is_report(hq_interrupt(&b.p, b.mem, sizeof b.mem, b.macs, 0, b.cache, sizeof b.cache, b.dir, SLOTS), HQ_REFUSED_MACS, 0, 0, 0, 0, 0));
    EXPECT(is_report(hq_write_back(&b.p, b.mem, sizeof b.mem, b.macs, sizeof b.macs, b.cache, sizeof b.cache, b.dir, 7), HQ_REFUSED_CACHE, 0, 0, 0, 0, 0));
    EXPECT(is_report(hq_run(&b.p, LENT, HQ_RUN_AT_MOST + 1), HQ_REFUSED_STEPS, 0, 0, 0, 0, 0));
    EXPECT(is_report(hq_evict_line(&b.p, LENT, LINES), HQ_REFUSED_LINE, 0, 0, 0, 0, 0));
    EXPECT(is_report(hq_bus_read(&b.p, LENT, b.line, 63, 0), HQ_REFUSED_BUFFER, 0, 0, 0, 0, 0));
    EXPECT(is_report(hq_bus_write(&b.p, LENT, b.line, 63, 0), HQ_REFUSED_BUFFER, 0, 0, 0, 0, 0));
    EXPECT(is_report(hq_bus_write_mac(&b.p, LENT, b.mac, 15, 0), HQ_REFUSED_BUFFER, 0, 0, 0, 0, 0));
    EXPECT(is_report(hq_list_slots(&b.p, LENT, b.rows, 7), HQ_REFUSED_ROW, 0, 0, 0, 0, 0));
    EXPECT(hq_depot_sign(0, 0, 1, b.line, 64) == HQ_REFUSED_LINE && hq_depot_seal(0, 0, 0, b.line, 64, b.mac, 15) == HQ_REFUSED_BUFFER);
    EXPECT(hq_depot_open(0, 0, 0, b.line, 64, b.mac, 16) == HQ_REFUSED_MAC);
    EXPECT(memcmp(kept, &b, sizeof b) == 0);
    b.dir[1] = 1;
    EXPECT(is_report(hq_reboot(&b.p, LENT), HQ_REFUSED_DIRECTORY, 0, 0, 0, 0, 0));
    b.dir[1] = 0;
    b.p.special.mode = 3;
    EXPECT(is_report(hq_power_cut(&b.p, LENT), HQ_REFUSED_RECORD, 0, 0, 0, 0, 0) && b.p.r[1] == 1);
}

int main(void) {
    registers_of_normal_mode();
    registers_of_active_mode();
    suspended_thread();
    guards_stand();
    calls_on_lines();
    guards_stand();
    reboot_clears();
    refusals();
    guards_stand();
    printf("header: %s\n", failures ? "FAILED" : "every field and every call as the header says");
    return failures != 0;
}
