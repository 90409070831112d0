/* Self-tests of the second model: marked cases, every opcode, fault, refusal and trap of document 01 by hand, and demand 3 at random. */
#include "self.h"

#include <stdio.h>
#include <string.h>

#include "lines.h"
#include "model.h"

static unsigned checks, failures;

void expect(bool holds, const char *what)
{
    checks++;
    if (holds)
        return;
    failures++;
    printf("second model, self-test: %s\n", what);
}

/* A board with M = 256 and C = 4. */
struct trial {
    struct board_record r;
    uint8_t memory[256], macs[64], cache[256];
    uint32_t directory[4];
    struct lent lent;
    struct outcome out;
};

static const uint64_t key_a[2] = {0x2b7e151628aed2a6, 0xabf7158809cf4f3c};
static const uint64_t key_b[2] = {0x0123456789abcdef, 0xfedcba9876543210};

/* An empty board in a mode, pc 128, under key A. */
static void fresh(struct trial *t, uint32_t mode)
{
    memset(t, 0, sizeof *t);
    t->r.mode = mode;
    t->r.pc = 128;
    memcpy(t->r.drk, key_a, sizeof t->r.drk);
    t->lent = (struct lent){t->memory, 256, t->macs, 64, t->cache, 256, t->directory, 4};
}

static uint32_t word(uint32_t op, uint32_t a, uint32_t b, uint32_t low)
{
    return op << 26 | a << 21 | b << 16 | (low & 0xffff);
}

/* Puts an instruction word to an address and signs its line under key A where the mode is active. */
static void put(struct trial *t, uint64_t address, uint32_t w)
{
    uint8_t *line = t->memory + address / 64 * 64;
    for (int i = 0; i < 4; i++)
        t->memory[address + i] = (uint8_t)(w >> 8 * i);
    if (t->r.mode == ACTIVE && address % 64 < 48)
        code_mac(key_a, address / 64 * 64, line, line + 48);
}

/* Seals line 3 under key A with 0x11 in all bytes. */
static void seal_line_3(struct trial *t)
{
    memset(t->memory + 192, 0x11, 64);
    seal_line(key_a, 192, t->memory + 192, t->memory + 192, t->macs + 48);
}

static uint64_t run(struct trial *t, uint64_t n)
{
    t->out = model_calls.run(&t->r, &t->lent, n);
    return t->out.answer;
}

/* Puts one instruction to pc, past the cache, and runs it. */
static uint64_t one(struct trial *t, uint32_t w)
{
    model_calls.evict_line(&t->r, &t->lent, t->r.pc / 64);
    put(t, t->r.pc, w);
    return run(t, 1);
}

/* One instruction on a fresh board in a mode; the fault. */
static uint64_t fault_of(uint32_t mode, uint32_t w)
{
    struct trial t;
    fresh(&t, mode);
    return one(&t, w);
}

static void counts_are(const struct trial *t, uint64_t filled, uint64_t written, uint64_t checked, uint64_t made, const char *what)
{
    const struct counts *c = &t->out.counts;
    expect(c->filled == filled && c->written == written && c->checked == checked && c->made == made, what);
}

/* Whether CMAC under key A of the first bytes of RFC 4493's message begins so. */
static void cmac_begins(size_t length, uint64_t high, const char *what)
{
    static const uint64_t message[8] = {
        0x6bc1bee22e409f96, 0xe93d7e117393172a, 0xae2d8a571e03ac9c, 0x9eb76fac45af8e51,
        0x30c81c46a35ce411, 0xe5fbc1191a0a52ef, 0xf69f2445df4f9b17, 0xad2b417be66c3710,
    };
    uint8_t bytes[64], mac[16];
    for (int i = 0; i < 8; i++)
        put_high_first(bytes + 8 * i, message[i]);
    drk_cmac(key_a, bytes, length, mac);
    expect(get_high_first(mac) == high, what);
}

static void try_cipher(void)
{
    cmac_begins(0, 0xbb1d6929e9593728, "RFC 4493, example 1");
    cmac_begins(16, 0x070a16b46b4d4144, "RFC 4493, example 2");
    cmac_begins(40, 0xdfa66747de9ae630, "RFC 4493, example 3");
    cmac_begins(64, 0x51f0bebf7e3b9d92, "RFC 4493, example 4");
    cmac_begins(16, 0x070a16b46b4d4144, "RFC 4493, example 2 once more");
}

/* The value of R3 after one instruction on R1 and R2 in normal mode. */
static uint64_t computes(uint32_t w, uint64_t r1, uint64_t r2)
{
    struct trial t;
    fresh(&t, NORMAL);
    t.r.r[1] = r1;
    t.r.r[2] = r2;
    expect(one(&t, w) == 0 && t.out.steps == 1 && t.r.pc == 132, "an instruction without fault goes to pc + 4");
    return t.r.r[3];
}

/* The next pc of add at 44 of line 2. */
static uint64_t behind_44(uint32_t mode, uint32_t w)
{
    struct trial t;
    fresh(&t, mode);
    t.r.pc = 128 + 44;
    expect(one(&t, w) == 0, "an instruction at offset 44 is done");
    return t.r.pc;
}

static void try_marked_cases(void)
{
    struct trial t;
    expect(computes(0x04611000, ~(uint64_t)0, 1) == 0, "P1");
    fresh(&t, NORMAL);
    expect(one(&t, word(6, 0, 0, 5)) == 0 && t.r.r[0] == 0, "P2");
    expect(computes(word(7, 3, 1, 0), 0, 0) == 64, "P3");
    expect(computes(word(7, 3, 1, 0), 1, 0) == 63, "P4");
    expect(computes(0x04611000, 40, 2) == 42, "P5");
    fresh(&t, NORMAL);
    t.r.drk_lock = 1;
    expect(one(&t, word(32, 1, 2, 2)) == 1, "P6");
    expect(fault_of(SUSPENDED, word(39, 0, 0, 0)) == 3, "P7");
    expect(fault_of(NORMAL, word(40, 0, 0, 0)) == 2, "P8");
    fresh(&t, ACTIVE);
    t.r.pc = 48;
    expect(run(&t, 1) == 4, "P9");
    counts_are(&t, 0, 0, 0, 0, "P9 touches no slot");
    expect(fault_of(NORMAL, word(10, 3, 0, 252)) == 9, "P10");
    expect(fault_of(NORMAL, word(10, 3, 0, 256)) == 10, "P11, load at 256");
    expect(fault_of(NORMAL, word(10, 3, 0, 248)) == 0, "P11, load at 248");
    expect(behind_44(ACTIVE, 0x04611000) == 192, "P12, active");
    expect(behind_44(NORMAL, 0x04611000) == 176, "P12, normal");
}

static void try_base_instructions(void)
{
    struct trial t;
    expect(computes(word(2, 3, 1, 2 << 11), 1, 2) == ~(uint64_t)0, "sub");
    expect(computes(word(3, 3, 1, 2 << 11), 12, 10) == 8, "and");
    expect(computes(word(4, 3, 1, 2 << 11), 12, 10) == 14, "or");
    expect(computes(word(5, 3, 1, 2 << 11), 12, 10) == 6, "xor");
    expect(computes(word(6, 3, 1, 0xffff), 7, 0) == 6, "addi");
    expect(computes(word(8, 1, 2, 5), 7, 8) == 0, "beq, not taken");
    fresh(&t, NORMAL);
    expect(one(&t, word(8, 1, 2, 0xfffe)) == 0 && t.r.pc == 120, "beq, taken from its own pc");
    t.r.pc = 128;
    t.r.r[5] = 0x123456789abcdef1;
    expect(one(&t, word(9, 5, 0, 0)) == 0 && t.r.pc == 0x123456789abcdef1, "jr takes any target");
    expect(run(&t, 3) == 9 && t.out.steps == 1 && t.r.epc == 0x123456789abcdef1 && t.r.pc == 64, "the next fetch faults");
    expect(one(&t, word(12, 6, 0, 0)) == 0 && t.r.r[6] == 0x123456789abcdef1, "epc.get");
    expect(one(&t, word(14, 7, 0, 0)) == 0 && t.r.r[7] == 9, "cause.get");
    expect(one(&t, word(13, 7, 0, 0)) == 0 && t.r.epc == 9, "epc.set");
    expect(one(&t, word(15, 5, 6, 0)) == 0 && t.r.pid == 0x9abcdef1 && t.r.cid == 0xdef1, "ctx.set");
    expect(one(&t, word(16, 0, 0, 0)) == 0 && t.r.pc == 9 && t.r.mode == NORMAL, "rfi in normal mode");
    fresh(&t, NORMAL);
    t.r.r[1] = 0x1122334455667788;
    t.r.r[2] = 260;
    expect(one(&t, word(11, 1, 2, (uint32_t)-4)) == 10 && one(&t, word(11, 1, 2, (uint32_t)-68)) == 0, "store at 256 and at 192");
    counts_are(&t, 2, 0, 0, 0, "a store and its fetch fill a line each");
    expect(t.directory[3] == (1 | 8 | 3 << 4) && t.cache[192] == 0x88 && t.memory[192] == 0, "a store changes the slot alone");
    expect(one(&t, word(10, 4, 0, 192)) == 0 && t.r.r[4] == t.r.r[1], "load sees the store");
}

/* One SP instruction in active mode on R1 = 1, R2 = 2 and words 10 to 13. */
static void active_one(struct trial *t, uint32_t w, const char *what)
{
    fresh(t, ACTIVE);
    t->r.r[1] = 1;
    t->r.r[2] = 2;
    for (int i = 0; i < 4; i++)
        t->r.cem_buffer[i] = 10 + (uint64_t)i;
    t->r.srh[3] = 99;
    expect(one(t, w) == 0 && t->r.pc == 132, what);
    counts_are(t, 1, 0, 1, 0, "an active fetch fills and checks one line");
}

static void try_sp_instructions(void)
{
    struct trial t;
    uint8_t nonce[16] = {0, 0, 0, 0, 0, 0, 0, 1, 0, 0, 0, 0, 0, 0, 0, 2}, mac[16];
    active_one(&t, word(32, 1, 2, 8), "drk.set");
    expect(t.r.drk[0] == 1 && t.r.drk[1] == 2, "drk.set: Ra is high");
    expect(t.directory[2] == 0 && t.cache[128] == 0, "drk.set evicts its own line too");
    active_one(&t, word(33, 1, 2, 0), "drk.lock");
    expect(t.r.drk_lock == 1, "drk.lock locks");
    active_one(&t, word(34, 1, 2, 0), "drk.derive");
    drk_cmac(key_a, nonce, 16, mac);
    expect(t.r.cem_buffer[1] == get_high_first(mac) && t.r.cem_buffer[0] == get_high_first(mac + 8), "drk.derive, words 1 and 0");
    expect(t.r.cem_buffer[2] == 0 && t.r.cem_buffer[3] == 0, "drk.derive, words 3 and 2");
    active_one(&t, word(35, 1, 2, 0), "srh.get");
    expect(t.r.cem_buffer[3] == 99 && t.r.cem_buffer[0] == 0, "srh.get copies to the buffer");
    active_one(&t, word(36, 1, 2, 0), "srh.set");
    expect(t.r.srh[3] == 13 && t.r.srh[0] == 10, "srh.set copies to SRH");
    active_one(&t, word(37, 1, 2, 2), "gr.get");
    expect(t.r.cem_buffer[3] == 1 && t.r.cem_buffer[2] == 2 && t.r.cem_buffer[1] == 11, "gr.get: Ra to sel + 1, Rb to sel");
    active_one(&t, word(38, 5, 0, 3), "gr.set");
    expect(t.r.r[5] == 13, "gr.set takes word sel");
    active_one(&t, word(40, 0, 0, 0), "end_cem");
    expect(t.r.mode == NORMAL, "end_cem ends");
    fresh(&t, NORMAL);
    expect(one(&t, word(39, 0, 0, 0)) == 0 && t.r.mode == ACTIVE && t.r.pc == 132, "begin_cem.a");
    expect(behind_44(NORMAL, word(39, 0, 0, 0)) == 192, "begin_cem.a at 44 goes to the next line");
}

static void try_secure_memory(void)
{
    struct trial t;
    uint8_t plain[64];
    fresh(&t, ACTIVE);
    seal_line_3(&t);
    t.r.r[1] = 77;
    put(&t, 128, word(41, 2, 0, 200));
    put(&t, 132, word(42, 1, 0, 208));
    put(&t, 136, word(10, 3, 0, 208));
    expect(run(&t, 1) == 0 && t.r.r[2] == 0x1111111111111111, "secure_load");
    counts_are(&t, 2, 0, 2, 0, "secure_load and its fetch fill and check");
    expect(run(&t, 1) == 0 && t.directory[3] == (1 | 2 << 1 | 8 | 3 << 4), "secure_store makes its line dirty");
    counts_are(&t, 0, 0, 0, 0, "secure_store on a held line");
    expect(run(&t, 1) == 0 && t.r.r[3] != 77 && t.directory[3] == (1 | 3 << 4), "a load sees the sealed bytes");
    counts_are(&t, 1, 1, 0, 1, "a load evicts a Secure Data line, sealed");
    expect(open_line(key_a, 192, t.memory + 192, t.macs + 48, plain) && plain[16] == 77 && plain[15] == 0x11, "the line was sealed and signed");
}

static void try_faults(void)
{
    struct trial t;
    fresh(&t, NORMAL);
    t.r.drk_lock = 1;
    expect(one(&t, word(32, 1, 2, 0)) == 1 && t.r.epc == 128 && t.r.cause == 1 && t.r.pc == 64, "fault 1");
    for (uint32_t op = 34; op <= 42; op++)
        expect(op == 39 || fault_of(NORMAL, word(op, 0, 0, 7)) == 2, "fault 2 comes before 7");
    expect(fault_of(ACTIVE, word(39, 0, 0, 0)) == 3, "fault 3");
    fresh(&t, ACTIVE);
    put(&t, 128, word(1, 1, 1, 0));
    t.memory[150] ^= 1;
    expect(run(&t, 1) == 4 && t.r.mode == SUSPENDED && t.directory[2] == 0, "fault 4 by a MAC");
    counts_are(&t, 1, 0, 1, 0, "a failed fill is counted and checked");
    fresh(&t, ACTIVE);
    seal_line_3(&t);
    t.macs[48] ^= 1;
    expect(one(&t, word(41, 1, 0, 192)) == 5 && t.r.r[1] != 0x1111111111111111, "fault 5");
    fresh(&t, SUSPENDED);
    t.r.pid = 1;
    expect(one(&t, word(16, 0, 0, 0)) == 0 && t.r.pc == 0 && t.r.mode == SUSPENDED, "rfi in mode 2 with another PID");
}

static void try_more_faults(void)
{
    struct trial t;
    fresh(&t, SUSPENDED);
    t.r.interrupt_address = t.r.epc = 192;
    t.r.r[9] = 3;
    expect(one(&t, word(16, 0, 0, 0)) == 6 && t.r.r[9] == 3 && t.r.mode == SUSPENDED && t.r.epc == 128, "fault 6");
    expect(fault_of(NORMAL, word(43, 0, 0, 0)) == 7 && fault_of(ACTIVE, word(43, 0, 0, 0)) == 7, "fault 7, opcode 43");
    expect(fault_of(NORMAL, word(32, 1, 2, 1)) == 7 && fault_of(ACTIVE, word(37, 1, 2, 1)) == 7, "fault 7, sel of drk.set and gr.get");
    expect(fault_of(ACTIVE, word(38, 1, 2, 4)) == 7 && fault_of(ACTIVE, word(34, 1, 2, 7)) == 0, "fault 7, sel of gr.set alone");
    for (uint32_t op = 0; op < 64; op++)
        expect((fault_of(ACTIVE, word(op, 0, 0, 0)) == 11) == (op == 0 || (op > 16 && op < 32) || op > 43), "fault 11");
    fresh(&t, NORMAL);
    t.r.pc = 258;
    expect(run(&t, 1) == 9, "fault 9 at the fetch");
    t.r.pc = 256;
    expect(run(&t, 1) == 10, "fault 10 at the fetch");
    t.r.pc = 252;
    expect(run(&t, 1) == 11, "the last word of memory is fetched");
    expect(fault_of(NORMAL, word(11, 1, 0, (uint32_t)-8)) == 10, "an address is reduced modulo 2^64 and then judged");
}

static void try_suspension(void)
{
    struct trial t;
    struct board_record before;
    uint64_t zero[32] = {0}, hash[2];
    fresh(&t, ACTIVE);
    put(&t, 128, word(6, 1, 1, 1));
    put(&t, 132, word(6, 2, 2, 2));
    t.r.pid = 5;
    t.r.cid = 6;
    run(&t, 1);
    before = t.r;
    t.out = model_calls.interrupt(&t.r, &t.lent);
    expect(t.out.answer == 0 && t.r.mode == SUSPENDED && t.r.pc == 64 && t.r.cause == 32 && t.r.epc == 132, "an interrupt");
    expect(t.r.interrupt_address == 132 && t.r.saved_pid == 5 && t.r.saved_cid == 6, "address, PID and CID are saved");
    register_hash(key_a, before.r, hash);
    xor_key_stream(key_a, hash, zero);
    expect(t.r.r[0] == 0 && t.r.r[1] == (1 ^ zero[1]) && t.r.r[31] == zero[31], "registers are xored with the stream, R0 is not (trap 3)");
    t.out = model_calls.interrupt(&t.r, &t.lent);
    expect(t.r.epc == 64 && t.r.interrupt_address == 132, "an interrupt in mode 2 leaves the saved thread");
    t.r.epc = 132;
    t.r.pc = 68;
    expect(one(&t, word(16, 0, 0, 0)) == 0 && t.r.mode == ACTIVE && t.r.pc == 132, "rfi resumes");
    expect(memcmp(t.r.r, before.r, sizeof before.r) == 0, "the registers are back");
    expect(run(&t, 1) == 0 && t.r.r[2] == 2, "the thread goes on");
}

/* The traps of document 01 that are not tried elsewhere: the first two, the fourth and the fifth. */
static void try_traps(void)
{
    struct trial t;
    uint8_t plain[64], old_line[64], old_mac[16];
    fresh(&t, ACTIVE);
    seal_line_3(&t);
    memcpy(&t.r.r[4], key_b, 16);
    put(&t, 128, word(42, 4, 0, 192));
    put(&t, 132, word(32, 4, 5, 0));
    memcpy(old_line, t.memory + 192, 64);
    memcpy(old_mac, t.macs + 48, 16);
    expect(run(&t, 2) == 0 && memcmp(t.r.drk, key_b, 16) == 0, "drk.set with a dirty line");
    counts_are(&t, 2, 1, 2, 1, "drk.set seals the dirty line");
    expect(open_line(key_a, 192, t.memory + 192, t.macs + 48, plain), "trap 1: dirty lines belong to the old key");
    expect(get_high_first(plain) == 0xefcdab8967452301, "trap 1: the word that was stored");
    fresh(&t, ACTIVE);
    put(&t, 128, word(1, 1, 1, 0));
    expect(run(&t, 1) == 0 && t.directory[2] != 0, "a signed line runs");
    memset(plain, 0, 64);
    t.out = model_calls.bus_write(&t.r, &t.lent, 2, plain, 64);
    expect(t.out.answer == 0 && t.directory[2] == 0 && run(&t, 1) == 4, "trap 2: a bus write evicts the line first");
    expect(behind_44(ACTIVE, word(40, 0, 0, 0)) == 192, "trap 4: end_cem at 44 goes to the next line");
    fresh(&t, ACTIVE);
    seal_line_3(&t);
    put(&t, 128, word(42, 1, 0, 192));
    put(&t, 132, word(41, 2, 0, 192));
    run(&t, 1);
    model_calls.bus_write(&t.r, &t.lent, 3, old_line, 64);
    model_calls.bus_write_mac(&t.r, &t.lent, 3, old_mac, 16);
    expect(run(&t, 1) == 0 && t.r.r[2] == 0x1111111111111111, "trap 5: an old line with its old MAC passes");
}

static void try_restarts(void)
{
    struct trial t;
    fresh(&t, NORMAL);
    t.r.r[1] = 1;
    t.r.srh[2] = 4;
    t.r.drk_lock = 1;
    one(&t, word(11, 1, 0, 192));
    t.cache[0] = 9;
    t.out = model_calls.power_cut(&t.r, &t.lent);
    expect(t.out.answer == 0 && t.directory[3] == 0 && t.cache[192] == 0 && t.memory[192] == 0, "a power cut loses dirty lines");
    expect(t.cache[0] == 9, "an empty slot keeps its bytes");
    counts_are(&t, 0, 0, 0, 0, "a power cut counts nothing");
    expect(t.r.r[1] == 0 && t.r.drk_lock == 0 && t.r.srh[2] == 4 && t.r.drk[0] == key_a[0], "DRK and SRH survive");
    t.r.r[1] = 1;
    t.r.pc = 128;
    one(&t, word(11, 1, 0, 192));
    t.out = model_calls.reboot(&t.r, &t.lent);
    expect(t.out.answer == 0 && t.directory[3] == 0 && t.memory[192] == 1 && t.r.pc == 0, "a reboot writes back");
    counts_are(&t, 0, 1, 0, 0, "a reboot counts its write-backs");
}

/* The refusals of a machine call with a fresh board that one change makes wrong; nothing may change. */
static void refuses(uint64_t answer, struct trial *t, const char *what)
{
    struct trial before = *t;
    struct line_record row[4];
    uint8_t bytes[64];
    uint64_t given[10] = {
        model_calls.run(&t->r, &t->lent, 10001).answer,
        model_calls.interrupt(&t->r, &t->lent).answer,
        model_calls.bus_read(&t->r, &t->lent, 9, bytes, 1).answer,
        model_calls.bus_write(&t->r, &t->lent, 9, bytes, 1).answer,
        model_calls.bus_write_mac(&t->r, &t->lent, 9, bytes, 1).answer,
        model_calls.evict_line(&t->r, &t->lent, 9).answer,
        model_calls.write_back(&t->r, &t->lent).answer,
        model_calls.reboot(&t->r, &t->lent).answer,
        model_calls.power_cut(&t->r, &t->lent).answer,
        model_calls.list_slots(&t->r, &t->lent, row, 3).answer,
    };
    for (int i = 0; i < 10; i++)
        expect(given[i] == answer, what);
    expect(memcmp(&before, t, sizeof before) == 0, "a refusal changes nothing");
}

static void try_refusals(void)
{
    static const uint32_t wrong_numbers[8] = {
        2, 1 | 3 << 1 | 1 << 4, 1 | 1 << 4 | 1 << 14, 1 | 4 << 4, 1 | 1 << 4 | 1u << 31, 1 | 1 << 1 | 8 | 1 << 4, 1 | 2 << 4, 1 | 5 << 4,
    };
    struct trial t;
    fresh(&t, NORMAL);
    t.directory[1] = 2;
    t.r.mode = 3;
    t.lent.macs_length = 63;
    t.lent.memory_length = 255;
    refuses(101, &t, "refusal 101");
    t.lent.memory_length = 64;
    refuses(101, &t, "refusal 101, too small");
    t.lent.memory_length = 65600;
    refuses(101, &t, "refusal 101, too large");
    t.lent.memory_length = 256;
    refuses(102, &t, "refusal 102");
    t.lent.macs_length = 64;
    t.lent.cache_length = 255;
    refuses(103, &t, "refusal 103");
    t.lent.directory_length = t.lent.cache_length = 0;
    refuses(103, &t, "refusal 103, no slot");
    t.lent.directory_length = 4;
    t.lent.cache_length = 256;
    for (int i = 0; i < 8; i++) {
        t.directory[1] = wrong_numbers[i];
        refuses(104, &t, "refusal 104");
    }
    t.directory[1] = 1 | 1 << 1 | 1 << 4;
    refuses(105, &t, "refusal 105, mode");
    t.r.mode = 2;
    t.r.r[0] = 1;
    refuses(105, &t, "refusal 105, R0");
}

static void try_later_refusals(void)
{
    struct trial t;
    struct line_record row[5];
    uint8_t bytes[64];
    fresh(&t, NORMAL);
    expect(run(&t, 10001) == 108 && t.out.steps == 0 && run(&t, 0) == 0, "refusal 108");
    expect(model_calls.bus_read(&t.r, &t.lent, 4, bytes, 1).answer == 106, "refusal 106 before 107");
    expect(model_calls.evict_line(&t.r, &t.lent, (uint64_t)1 << 32).answer == 106, "refusal 106, no truncation");
    expect(model_calls.bus_write(&t.r, &t.lent, 3, bytes, 63).answer == 107, "refusal 107, a line");
    expect(model_calls.bus_write_mac(&t.r, &t.lent, 3, bytes, 64).answer == 107, "refusal 107, a MAC");
    expect(model_calls.list_slots(&t.r, &t.lent, row, 5).answer == 110, "refusal 110");
    t.directory[1] = 1 | 2 << 1 | 8 | 1 << 4;
    expect(model_calls.list_slots(&t.r, &t.lent, row, 4).answer == 0, "a listing");
    expect(row[1].used == 1 && row[1].line == 1 && row[1].tag == 2 && row[1].dirty == 1, "the row of a used slot");
    expect(row[0].used == 0 && row[0].line == 0 && row[0].tag == 0 && row[0].dirty == 0, "the row of an empty slot");
}

static void try_depot(void)
{
    uint8_t line[64] = {5}, mac[16], sealed[64];
    expect(model_calls.sign(key_a, 1, line, 1) == 106 && model_calls.sign(key_a, 64, line, 63) == 107, "sign refuses");
    expect(model_calls.sign(key_a, 64, line, 64) == 0 && code_line_right(key_a, 64, line), "sign");
    expect(!code_line_right(key_a, 128, line) && !code_line_right(key_b, 64, line), "a signature is of its address and key");
    memcpy(sealed, line, 64);
    expect(model_calls.seal(key_a, 1, sealed, 1, mac, 1) == 106 && model_calls.seal(key_a, 64, sealed, 64, mac, 15) == 107, "seal refuses");
    expect(model_calls.seal(key_a, ~(uint64_t)63, sealed, 64, mac, 16) == 0 && memcmp(sealed, line, 64) != 0, "seal");
    expect(model_calls.open(key_b, ~(uint64_t)63, sealed, 64, mac, 16) == 109, "refusal 109, another key");
    expect(model_calls.open(key_a, 0, sealed, 64, mac, 16) == 109, "refusal 109, another address");
    expect(model_calls.open(key_a, ~(uint64_t)63, sealed, 64, mac, 16) == 0 && memcmp(sealed, line, 64) == 0, "open");
}

int main(void)
{
    try_cipher();
    try_marked_cases();
    try_base_instructions();
    try_sp_instructions();
    try_secure_memory();
    try_faults();
    try_more_faults();
    try_suspension();
    try_traps();
    try_restarts();
    try_refusals();
    try_later_refusals();
    try_depot();
    try_demand_3();
    printf("second model, self-tests: %u checks, %u failed\n", checks, failures);
    return failures != 0;
}
