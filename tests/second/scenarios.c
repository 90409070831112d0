/* Makes pseudo-random scenarios: code that mostly means something, lines signed and sealed under the DRK or a second key, some damaged, and calls. */
#include "scenarios.h"

#include <stdbool.h>
#include <string.h>

#include "lines.h"

const char *const call_names[CALL_KINDS] = {
    "run", "interrupt", "bus read", "bus write", "bus write of a MAC", "evict a line", "write back and empty everything",
    "reboot", "power cut", "list the slots", "sign", "seal", "open",
};

/* What a memory line was made as. */
enum line_kind { PLAIN_CODE, SIGNED_CODE, SEALED_DATA, ANY_BYTES };

/* What is drawn once for a scenario and used by everything drawn later. */
struct maker {
    struct chance c;
    struct scenario *s;
    uint64_t keys[2][2]; /* the record's DRK, and the key that R4 and R5 hold */
    size_t lines;        /* memory lines that exist, at least 1 even where M is refused */
    size_t slots;        /* slots that exist, at least 1 */
    enum line_kind kinds[MEMORY_ROOM / LINE_BYTES];
    bool calm;           /* the host changes nothing between the calls */
    bool mac_waits;      /* the call before wrote a sealed line whose MAC is still to be written */
    uint64_t waiting_line;
    uint8_t waiting_mac[MAC_BYTES];
};

uint64_t any(struct chance *c)
{
    uint64_t z = c->state += 0x9e3779b97f4a7c15u;
    z = (z ^ z >> 30) * 0xbf58476d1ce4e5b9u;
    z = (z ^ z >> 27) * 0x94d049bb133111ebu;
    return z ^ z >> 31;
}

uint64_t below(struct chance *c, uint64_t bound)
{
    return (any(c) >> 32) % bound;
}

/* True in so many of a hundred cases. */
static bool often(struct maker *k, unsigned percent)
{
    return below(&k->c, 100) < percent;
}

static void any_bytes(struct maker *k, uint8_t *out, size_t length)
{
    for (size_t i = 0; i < length; i += 8) {
        uint64_t x = any(&k->c);
        for (size_t j = i; j < i + 8 && j < length; j++)
            out[j] = (uint8_t)(x >> 8 * (j - i));
    }
}

/* Turns one bit of some bytes. */
static void damage(struct maker *k, uint8_t *bytes, size_t length)
{
    size_t at = below(&k->c, length);
    bytes[at] ^= (uint8_t)(1 << below(&k->c, 8));
}

/* A number of at most 64 bits, small ones as often as large ones. */
static uint64_t any_size(struct maker *k)
{
    uint64_t bits = below(&k->c, 64);
    return any(&k->c) >> bits;
}

/* A line made as a kind, where one is found in a few tries; else any line. */
static uint64_t line_made_as(struct maker *k, enum line_kind kind)
{
    uint64_t line = 0;
    for (int tries = 0; tries < 8; tries++) {
        line = below(&k->c, k->lines);
        if (k->kinds[line] == kind)
            break;
    }
    return line;
}

/* Opcode, fields and 16 low bits as an instruction word. Draws stand before it, one a statement, so that their order is fixed. */
static uint32_t word_of(uint64_t op, uint64_t a, uint64_t b, uint64_t low)
{
    return (uint32_t)(op << 26 | (a & 31) << 21 | (b & 31) << 16 | (low & 0xffff));
}

/* An opcode with anything in its fields. */
static uint32_t any_fields(struct maker *k, uint64_t op)
{
    uint64_t rest = any(&k->c) >> 38;
    return (uint32_t)(op << 26 | rest);
}

/* A register that may be overwritten: not one of R4 to R15, which hold keys and addresses. */
static uint64_t free_register(struct maker *k)
{
    uint64_t at = below(&k->c, 24);
    return at < 4 ? at : often(k, 95) ? at + 8 : below(&k->c, 32);
}

/* load, store, secure_load or secure_store, mostly to an address where it makes sense. */
static uint32_t memory_word(struct maker *k, bool secure)
{
    bool loads = often(k, 50);
    uint64_t op = (secure ? 41 : 10) + !loads;
    enum line_kind kind = secure ? SEALED_DATA : often(k, 50) ? PLAIN_CODE : ANY_BYTES;
    uint64_t line = often(k, 85) ? line_made_as(k, kind) : below(&k->c, k->lines);
    uint64_t address = 64 * line + 8 * below(&k->c, 8);
    uint64_t a = loads ? free_register(k) : below(&k->c, 32);
    uint64_t odd = below(&k->c, 100), other = any(&k->c);
    if (odd < 2)
        address += other % 8;
    else if (odd < 4)
        address = 64 * k->lines - 16 + 4 * (other % 8);
    else if (odd < 5)
        return word_of(op, a, other >> 16, other);
    else if (odd < 30)
        return word_of(op, a, 8 + (other >> 16) % (secure ? 4 : 8), 8 * (other % 16) - 32);
    return word_of(op, a, address < 0x8000 ? 0 : 8, address);
}

/* A word that sets pc, at a place (0 to 15) of its line: beq, mostly to a word of the same line, jr or rfi. */
static uint32_t jump_word(struct maker *k, unsigned at)
{
    uint64_t kind = below(&k->c, 20), x = any(&k->c);
    bool near = often(k, 92);
    if (kind < 13)
        return word_of(8, x >> 16 & 3, x >> 18 & 1 ? 0 : x >> 19 & 3, near ? x % 13 - at : x);
    if (kind < 19)
        return word_of(9, near ? 12 + (x >> 16) % 4 : x >> 16, 0, x);
    return any_fields(k, 16);
}

/* A word of the base: opcodes 1 to 7 and 12 to 16. */
static uint32_t base_word(struct maker *k)
{
    uint64_t op = often(k, 75) ? 1 + below(&k->c, 7) : 12 + below(&k->c, 5);
    uint64_t x = any(&k->c);
    uint64_t a = op == 13 ? 8 + (x >> 32) % 8 : op == 15 ? x >> 32 : free_register(k);
    return word_of(op, a, x >> 16, x);
}

/* drk.set, mostly with one of the scenario's two keys. */
static uint32_t drk_set_word(struct maker *k)
{
    uint64_t x = any(&k->c);
    uint64_t low = often(k, 95) ? x & ~(uint64_t)7 : x;
    if (often(k, 10))
        return word_of(32, x >> 16, x >> 21, low);
    return often(k, 60) ? word_of(32, 6, 7, low) : word_of(32, 4, 5, low);
}

/* One of opcodes 33 to 38: lock rarely, the others mostly with a sel that is listed. */
static uint32_t buffer_word(struct maker *k)
{
    uint64_t op = often(k, 4) ? 33 : 34 + below(&k->c, 5);
    uint64_t x = any(&k->c);
    uint64_t a = op == 38 ? free_register(k) : x >> 32;
    uint64_t unlisted = op == 37 ? 5 : 4;
    return word_of(op, a, x >> 16, often(k, 90) ? x & ~unlisted : x);
}

/* An instruction word, at a place of its line, for code that is meant to run in active mode or not. */
static uint32_t code_word(struct maker *k, bool active, unsigned at)
{
    uint64_t kind = below(&k->c, 100);
    bool secure = active ? !often(k, 5) : often(k, 4);
    if (kind < 16)
        return memory_word(k, false);
    if (kind < 40)
        return memory_word(k, secure);
    if (kind < 52)
        return jump_word(k, at);
    if (kind < 74)
        return base_word(k);
    if (kind < 89)
        return secure ? buffer_word(k) : base_word(k);
    if (kind < 93)
        return any_fields(k, active ? 40 : 39);
    if (kind < 94)
        return any_fields(k, active ? 39 : 40);
    if (kind < 97)
        return drk_set_word(k);
    return any_fields(k, often(k, 40) ? 43 : any(&k->c) >> 58);
}

/* An instruction word for the handler at 64, which also runs with encrypted registers: mostly rfi and what needs no address in a register. */
static uint32_t handler_word(struct maker *k, unsigned at)
{
    uint64_t kind = below(&k->c, 100), x = any(&k->c);
    uint64_t words = 8 * (k->lines < 512 ? k->lines : 512);
    if (kind < 30)
        return any_fields(k, 16);
    if (kind < 65)
        return word_of(x >> 63 ? 10 : 11, x >> 32, 0, 8 * (x % words));
    if (kind < 85)
        return word_of(1 + (x >> 32) % 7, free_register(k), x >> 16, x);
    if (kind < 90)
        return word_of(x >> 63 ? 12 : 14, free_register(k), x >> 16, x);
    return code_word(k, false, at);
}

/* 64 bytes of instruction words; code to be entered from normal mode begins with begin_cem.a. */
static void code_bytes(struct maker *k, uint8_t *out, bool active, bool handler)
{
    bool begins = active && often(k, 15);
    for (unsigned i = 0; i < 16; i++) {
        uint32_t w = handler ? handler_word(k, i) : code_word(k, active, i);
        if (i == (active ? 11 : 15) && often(k, 60))
            w = jump_word(k, i);
        if (i == 0 && begins)
            w = word_of(39, 0, 0, 0);
        for (unsigned j = 0; j < 4; j++)
            out[4 * i + j] = (uint8_t)(w >> 8 * j);
    }
}

/* The bytes of a line of a kind at an address, under one of the two keys, and its MAC where it is sealed. */
static void line_bytes(struct maker *k, enum line_kind kind, uint64_t address, uint8_t *out, uint8_t mac[MAC_BYTES])
{
    const uint64_t *key = k->keys[often(k, 6)];
    if (kind == PLAIN_CODE || kind == SIGNED_CODE)
        code_bytes(k, out, kind == SIGNED_CODE, kind == PLAIN_CODE && address == 64);
    else
        any_bytes(k, out, LINE_BYTES);
    if (kind == SIGNED_CODE)
        code_mac(key, address, out, out + 48);
    else if (kind == SEALED_DATA)
        seal_line(key, address, out, out, mac);
}

static enum line_kind any_kind(struct maker *k)
{
    uint64_t kind = below(&k->c, 100);
    return kind < 45 ? SIGNED_CODE : kind < 72 ? SEALED_DATA : kind < 90 ? PLAIN_CODE : ANY_BYTES;
}

/* Draws M, the MAC area's length, C and the data bytes, mostly as document 01 wants them. */
static void draw_lengths(struct maker *k)
{
    static const size_t wrong[8] = {0, 64, 96, 127, 132, 1000, 65537, 65600};
    struct lengths *l = &k->s->lengths;
    uint64_t odd = below(&k->c, 1000);
    size_t lines = odd < 930 ? 2 + below(&k->c, 15) : odd < 995 ? 17 + below(&k->c, 100) : odd < 998 ? 1024 : 1 + below(&k->c, 1024);
    uint64_t size = below(&k->c, 100);
    size_t slots = size < 45 ? 1 + below(&k->c, 4) : size < 75 ? 5 + below(&k->c, 12) : size < 95 ? 17 + below(&k->c, 48) : 64;
    l->memory = often(k, 1) ? wrong[below(&k->c, 8)] : 64 * lines;
    l->macs = often(k, 1) ? below(&k->c, 2 * lines) : l->memory / 4;
    l->directory = often(k, 1) ? (often(k, 50) ? 0 : 65) : slots;
    l->cache = often(k, 1) ? below(&k->c, 64 * SLOTS_ROOM) : 64 * l->directory;
    k->lines = l->memory < 64 ? 1 : l->memory / 64;
    k->slots = l->directory == 0 ? 1 : l->directory;
}

/* Draws every memory line and its MAC entry, a few damaged. */
static void draw_memory(struct maker *k)
{
    struct scenario *s = k->s;
    for (size_t line = 0; line < k->lines; line++)
        k->kinds[line] = line == 1 && often(k, 90) ? PLAIN_CODE : line == 0 && often(k, 40) ? SIGNED_CODE : any_kind(k);
    memset(s->memory, 0xa5, s->lengths.memory + SLACK);
    memset(s->macs, 0x5a, s->lengths.macs + SLACK);
    for (size_t line = 0; 64 * line + 64 <= s->lengths.memory; line++) {
        uint8_t mac[MAC_BYTES];
        any_bytes(k, mac, MAC_BYTES);
        line_bytes(k, k->kinds[line], 64 * line, s->memory + 64 * line, mac);
        if (often(k, 3))
            damage(k, s->memory + 64 * line, LINE_BYTES);
        if (often(k, 3))
            damage(k, mac, MAC_BYTES);
        if (16 * line + 16 <= s->lengths.macs)
            memcpy(s->macs + 16 * line, mac, MAC_BYTES);
    }
}

/* A directory number for a slot that holds a line: its kind's tag mostly, dirty at times. */
static uint32_t number_for(struct maker *k, uint64_t line)
{
    uint32_t tag = k->kinds[line] == SIGNED_CODE ? 1 : k->kinds[line] == SEALED_DATA ? 2 : 0;
    if (often(k, 25))
        tag = (uint32_t)below(&k->c, 3);
    uint32_t dirty = tag != 1 && often(k, 45);
    return (uint32_t)(1 | tag << 1 | dirty << 3 | line << 4);
}

/* Draws one slot of a cache that is not lent empty. */
static void draw_slot(struct maker *k, size_t slot)
{
    uint8_t *bytes = k->s->cache + 64 * slot;
    size_t fitting = slot < k->lines ? (k->lines - slot + k->slots - 1) / k->slots : 0;
    if (fitting == 0 || often(k, 40)) {
        if (often(k, 30))
            any_bytes(k, bytes, LINE_BYTES);
        return;
    }
    uint64_t line = slot + k->slots * below(&k->c, fitting);
    uint32_t number = number_for(k, line);
    k->s->directory[slot] = number;
    if ((number >> 1 & 3) == 2)
        any_bytes(k, bytes, LINE_BYTES);
    else if (often(k, 40))
        code_bytes(k, bytes, (number >> 1 & 3) == 1, false);
    else
        memcpy(bytes, k->s->memory + 64 * line, LINE_BYTES);
}

/* Draws cache and directory: empty in half of the scenarios. */
static void draw_cache(struct maker *k)
{
    struct scenario *s = k->s;
    memset(s->cache, 0, s->lengths.cache > 64 * s->lengths.directory ? s->lengths.cache : 64 * s->lengths.directory);
    memset(s->cache + s->lengths.cache, 0xa5, SLACK);
    for (size_t slot = 0; slot < SLOTS_ROOM + SLACK / 4; slot++)
        s->directory[slot] = slot < s->lengths.directory ? 0 : 0x5a5a5a5a;
    if (often(k, 50))
        return;
    for (size_t slot = 0; slot < s->lengths.directory && 64 * slot + 64 <= s->lengths.cache; slot++)
        draw_slot(k, slot);
}

/* An address where code for a mode may stand. */
static uint64_t code_address(struct maker *k, uint32_t mode)
{
    uint64_t line = line_made_as(k, often(k, mode == ACTIVE ? 98 : 35) ? SIGNED_CODE : PLAIN_CODE);
    uint64_t odd = below(&k->c, 100);
    if (odd < 2)
        return any_size(k);
    if (odd < 3)
        return 64 * k->lines + 4 * below(&k->c, 3);
    return 64 * line + (odd < 40 ? 0 : odd < 50 ? 44 : 4 * below(&k->c, 16));
}

static uint64_t any_value(struct maker *k)
{
    uint64_t kind = below(&k->c, 6);
    if (kind == 0)
        return ~(uint64_t)0 >> below(&k->c, 64);
    if (kind == 1)
        return below(&k->c, 3);
    return any_size(k);
}

/* Draws R1 to R31: the two keys in R4 to R7, line addresses in R8 to R15, anything else where nothing is said. */
static void draw_registers(struct maker *k, struct board_record *r)
{
    for (int i = 1; i < 32; i++)
        r->r[i] = any_value(k);
    memcpy(&r->r[4], k->keys[1], 16);
    memcpy(&r->r[6], k->keys[0], 16);
    for (int i = 8; i < 12; i++)
        r->r[i] = 64 * line_made_as(k, SEALED_DATA);
    for (int i = 12; i < 16; i++)
        r->r[i] = 64 * line_made_as(k, SIGNED_CODE);
}

/* Makes the record one that was suspended, its hash right or nearly so. */
static void draw_suspended(struct maker *k, struct board_record *r)
{
    r->epc = r->interrupt_address = code_address(k, ACTIVE);
    r->saved_pid = r->pid;
    r->saved_cid = r->cid;
    if (often(k, 20))
        return;
    register_hash(r->drk, r->r, r->interrupt_hash);
    xor_key_stream(r->drk, r->interrupt_hash, r->r);
    uint64_t odd = below(&k->c, 100);
    if (odd < 5)
        damage(k, (uint8_t *)&r->r[1], 31 * 8);
    else if (odd < 8)
        r->epc += 4;
    else if (odd < 11)
        r->pid ^= 1;
    else if (odd < 14)
        r->cid ^= 1;
}

static void draw_record(struct maker *k, struct board_record *r)
{
    uint64_t mode = below(&k->c, 100);
    memset(r, 0, sizeof *r);
    r->mode = mode < 25 ? NORMAL : mode < 85 ? ACTIVE : SUSPENDED;
    memcpy(r->drk, k->keys[0], 16);
    draw_registers(k, r);
    for (int i = 0; i < 4; i++)
        r->srh[i] = any(&k->c);
    for (int i = 0; i < 4; i++)
        r->cem_buffer[i] = any(&k->c);
    r->pc = code_address(k, r->mode);
    r->epc = code_address(k, r->mode);
    r->interrupt_hash[0] = any(&k->c);
    r->interrupt_hash[1] = any(&k->c);
    r->interrupt_address = any_value(k);
    r->cause = (uint32_t)below(&k->c, 33);
    r->pid = (uint32_t)any(&k->c);
    r->cid = (uint16_t)any(&k->c);
    r->saved_pid = often(k, 50) ? r->pid : (uint32_t)any(&k->c);
    r->saved_cid = often(k, 50) ? r->cid : (uint16_t)any(&k->c);
    r->drk_lock = often(k, 25);
    if (r->mode == SUSPENDED)
        draw_suspended(k, r);
}

/* A line number for a call: mostly one that exists. */
static uint64_t call_line(struct maker *k)
{
    uint64_t odd = below(&k->c, 100);
    uint64_t line = below(&k->c, k->lines);
    if (odd < 2)
        return k->lines + below(&k->c, 2);
    if (odd < 3)
        return line + ((uint64_t)1 << 32);
    if (odd < 4)
        return any(&k->c);
    return line;
}

static uint64_t run_length(struct maker *k)
{
    static const uint64_t too_many[4] = {10001, 65536, ((uint64_t)1 << 32) + 1, ~(uint64_t)0};
    uint64_t odd = below(&k->c, 1000);
    if (odd < 20)
        return too_many[odd / 5];
    if (odd < 50)
        return 0;
    if (odd < 53)
        return 10000;
    if (odd < 150)
        return 33 + below(&k->c, 168);
    return odd < 300 ? 1 : 1 + below(&k->c, 32);
}

/* A change of a part of the record. */
static void change_record(struct maker *k, struct change *g)
{
    static const uint32_t wrong_modes[4] = {3, 4, 255, 6};
    struct board_record now = k->s->record;
    uint64_t kind = below(&k->c, 100);
    uint64_t at = below(&k->c, 31) + 1;
#define CHANGES(field, value) (now.field = (value), g->offset = offsetof(struct board_record, field), g->size = sizeof now.field)
    if (kind < 55)
        CHANGES(pc, code_address(k, ACTIVE));
    else if (kind < 75)
        CHANGES(mode, (uint32_t)(often(k, 60) ? ACTIVE : often(k, 90) ? below(&k->c, 3) : wrong_modes[below(&k->c, 4)]));
    else if (kind < 80)
        CHANGES(epc, code_address(k, ACTIVE));
    else if (kind < 88)
        CHANGES(r[at], often(k, 50) ? k->s->record.r[at] : any_value(k));
    else if (kind < 90)
        CHANGES(r[0], any_value(k));
    else if (kind < 94)
        CHANGES(drk_lock, (uint32_t)below(&k->c, 2));
    else if (kind < 96)
        CHANGES(pid, (uint32_t)any(&k->c));
    else if (kind < 97)
        CHANGES(cid, (uint16_t)any(&k->c));
    else if (kind < 98)
        CHANGES(interrupt_hash[1], any(&k->c));
    else
        CHANGES(drk[0], k->keys[often(k, 50)][0]);
#undef CHANGES
    memcpy(g->bytes, (const uint8_t *)&now + g->offset, g->size);
}

/* A directory number for a slot, right or wrong in one way or another. */
static void change_directory(struct maker *k, struct change *g)
{
    size_t slot = below(&k->c, k->slots);
    uint64_t line = often(k, 50) ? slot : below(&k->c, k->lines);
    uint32_t number = number_for(k, line % k->lines);
    if (often(k, 50))
        number ^= (uint32_t)1 << below(&k->c, often(k, 80) ? 15 : 32);
    if (often(k, 10))
        number = (uint32_t)any(&k->c);
    g->offset = 4 * slot;
    g->size = k->s->lengths.directory == 0 ? 0 : 4;
    memcpy(g->bytes, &number, 4);
}

/* What the host changes before a call: nothing mostly, else the record or a part of it, a number of the directory or a byte of a buffer. */
static void draw_change(struct maker *k, struct change *g)
{
    const struct lengths *l = &k->s->lengths;
    uint64_t kind = k->calm ? 99 : below(&k->c, 100);
    g->place = IN_RECORD;
    g->offset = g->size = 0;
    if (kind < 35) {
        struct board_record again;
        draw_record(k, &again);
        g->place = IN_RECORD;
        g->size = sizeof again;
        memcpy(g->bytes, &again, sizeof again);
    } else if (kind < 50) {
        g->place = IN_RECORD;
        change_record(k, g);
    } else if (kind < 52) {
        g->place = IN_DIRECTORY;
        change_directory(k, g);
    } else if (kind < 54) {
        g->place = kind < 53 ? IN_MEMORY : often(k, 50) ? IN_MACS : IN_CACHE;
        size_t length = g->place == IN_MEMORY ? l->memory : g->place == IN_MACS ? l->macs : l->cache;
        g->size = length == 0 ? 0 : 1;
        g->offset = length == 0 ? 0 : below(&k->c, length);
        g->bytes[0] = (uint8_t)any(&k->c);
    }
}

/* The lengths as lent to one call: the board's own mostly, else one or two of them changed within the rooms. */
static void draw_lent(struct maker *k, struct lengths *l)
{
    *l = k->s->lengths;
    if (!often(k, 3))
        return;
    switch (below(&k->c, 8)) {
    case 0:
        l->memory -= l->memory == 0 ? 0 : below(&k->c, l->memory) / 32 + 1;
        break;
    case 1:
        l->memory -= l->memory < 64 ? 0 : 64;
        l->macs -= l->macs < 16 ? 0 : 16;
        break;
    case 2:
        l->macs -= l->macs == 0 ? 0 : 1 + below(&k->c, l->macs);
        break;
    case 3:
        l->cache -= l->cache == 0 ? 0 : 1 + below(&k->c, l->cache);
        break;
    case 4:
        l->directory -= l->directory == 0 ? 0 : 1;
        l->cache -= l->cache < 64 ? 0 : 64;
        break;
    case 5:
        l->memory -= l->memory < 64 ? 0 : 64;
        break;
    case 6:
        l->directory -= l->directory == 0 ? 0 : 1;
        break;
    default:
        l->memory = l->macs = 0;
    }
}

/* The right length mostly, else another one. */
static size_t length_near(struct maker *k, size_t right)
{
    static const size_t wrong[8] = {0, 15, 16, 17, 63, 64, 65, 128};
    return often(k, 4) ? wrong[below(&k->c, 8)] : right;
}

/* A bus write of a line: code or data made for the place, or what stood there at first. */
static void draw_bus_write(struct maker *k, struct call *call)
{
    uint64_t line = call->number % k->lines;
    enum line_kind kind = any_kind(k);
    any_bytes(k, call->transfer, TRANSFER_ROOM);
    if (often(k, 20) && 64 * line + 64 <= k->s->lengths.memory) {
        memcpy(call->transfer, k->s->memory + 64 * line, LINE_BYTES);
        return;
    }
    line_bytes(k, kind, 64 * line, call->transfer, k->waiting_mac);
    k->mac_waits = kind == SEALED_DATA;
    k->waiting_line = line;
}

/* A bus write of a MAC: the one that belongs to a line just written, the one that stood there at first, or any. */
static void draw_bus_write_mac(struct maker *k, struct call *call)
{
    uint64_t line = call->number % k->lines;
    any_bytes(k, call->mac, MAC_ROOM);
    if (k->mac_waits) {
        call->number = k->waiting_line;
        memcpy(call->mac, k->waiting_mac, MAC_BYTES);
        k->mac_waits = false;
    } else if (often(k, 60) && 16 * line + 16 <= k->s->lengths.macs) {
        memcpy(call->mac, k->s->macs + 16 * line, MAC_BYTES);
    }
}

/* The arguments of a depot call; what is to be opened was mostly sealed so. */
static void draw_depot(struct maker *k, struct call *call)
{
    call->number = often(k, 50) ? 64 * below(&k->c, k->lines) : any(&k->c) & ~(uint64_t)63;
    if (often(k, 4))
        call->number += 1 + below(&k->c, 63);
    memcpy(call->drk, k->keys[often(k, 50)], 16);
    if (often(k, 30))
        call->drk[0] = any_value(k);
    if (often(k, 10))
        call->drk[1] = any_value(k);
    any_bytes(k, call->transfer, TRANSFER_ROOM);
    any_bytes(k, call->mac, MAC_ROOM);
    if (call->kind != CALL_OPEN)
        return;
    seal_line(call->drk, call->number, call->transfer, call->transfer, call->mac);
    uint64_t odd = below(&k->c, 100);
    if (odd < 10)
        damage(k, call->transfer, LINE_BYTES);
    else if (odd < 20)
        damage(k, call->mac, MAC_BYTES);
    else if (odd < 24)
        call->number ^= 64;
}

static enum call_kind draw_kind(struct maker *k)
{
    static const uint8_t shares[CALL_KINDS] = {50, 8, 6, 8, 5, 5, 3, 2, 2, 4, 2, 2, 3};
    uint64_t left = below(&k->c, 100);
    if (k->mac_waits && often(k, 75))
        return CALL_BUS_WRITE_MAC;
    for (int kind = 0; kind < CALL_KINDS; kind++) {
        if (left < shares[kind])
            return (enum call_kind)kind;
        left -= shares[kind];
    }
    return CALL_RUN;
}

/* Draws one call with its arguments. */
static void draw_call(struct maker *k, struct call *call)
{
    call->kind = draw_kind(k);
    draw_change(k, &call->change);
    draw_lent(k, &call->lengths);
    call->number = call->kind == CALL_RUN ? run_length(k) : call_line(k);
    call->drk[0] = call->drk[1] = 0;
    call->length = length_near(k, LINE_BYTES);
    call->mac_length = length_near(k, MAC_BYTES);
    if (call->kind == CALL_BUS_READ)
        memset(call->transfer, 0xee, TRANSFER_ROOM);
    else if (call->kind == CALL_BUS_WRITE)
        draw_bus_write(k, call);
    else if (call->kind == CALL_BUS_WRITE_MAC)
        draw_bus_write_mac(k, call);
    else if (call->kind == CALL_LIST_SLOTS)
        call->length = often(k, 90) ? call->lengths.directory : below(&k->c, SLOTS_ROOM);
    else if (call->kind >= CALL_SIGN)
        draw_depot(k, call);
}

void make_scenario(struct scenario *s, uint64_t seed, uint64_t number)
{
    struct maker k = {.s = s};
    struct chance first = {seed ^ number * 0xd1342543de82ef95u};
    k.c.state = any(&first) ^ number;
    for (int i = 0; i < 4; i++)
        k.keys[i / 2][i % 2] = any(&k.c);
    k.calm = often(&k, 30);
    draw_lengths(&k);
    draw_memory(&k);
    draw_cache(&k);
    draw_record(&k, &s->record);
    s->call_count = 8 + below(&k.c, CALLS_AT_MOST - 8 + 1);
    for (size_t i = 0; i < s->call_count; i++)
        draw_call(&k, &s->calls[i]);
}
