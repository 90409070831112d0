/* The second model of document 01: lines and slots, one instruction, the calls of the host with their refusals, with a cache and without. */
#include "model.h"

#include <stdbool.h>
#include <string.h>

#include "lines.h"

/* One call under way: what was lent to it, whether there is a cache, and what it will give. */
struct machine {
    struct board_record *r;
    const struct lent *lent;
    bool cached;
    struct outcome out;
    uint8_t opened[LINE_BYTES]; /* without a cache: the data line that an access has opened */
};

/* Directory numbers: bit 0 used, bits 1-2 the tag, bit 3 dirty, bits 4-13 the line. */
enum { USED = 1, DIRTY = 8 };

static unsigned tag_of(uint32_t number)
{
    return number >> 1 & 3;
}

static uint64_t line_of(uint32_t number)
{
    return number >> 4 & 1023;
}

static uint8_t *memory_line(const struct machine *m, uint64_t line)
{
    return m->lent->memory + LINE_BYTES * line;
}

static uint8_t *mac_entry(const struct machine *m, uint64_t line)
{
    return m->lent->macs + MAC_BYTES * line;
}

/* Gives a slot number 0 and 64 zero bytes. */
static void clear_slot(struct machine *m, size_t slot)
{
    m->lent->directory[slot] = 0;
    memset(m->lent->cache + LINE_BYTES * slot, 0, LINE_BYTES);
}

/* Writes a dirty line back, a Secure Data line sealed and with its MAC. */
static void write_line(struct machine *m, size_t slot)
{
    uint32_t number = m->lent->directory[slot];
    uint64_t line = line_of(number);
    const uint8_t *bytes = m->lent->cache + LINE_BYTES * slot;
    m->out.counts.written++;
    if (tag_of(number) == TAG_DATA) {
        seal_line(m->r->drk, LINE_BYTES * line, bytes, memory_line(m, line), mac_entry(m, line));
        m->out.counts.made++;
    } else {
        memcpy(memory_line(m, line), bytes, LINE_BYTES);
    }
}

/* Evicts a slot's occupant; an empty slot stays as it is. */
static void evict_slot(struct machine *m, size_t slot)
{
    uint32_t number = m->lent->directory[slot];
    if (number == 0)
        return;
    if (number & DIRTY)
        write_line(m, slot);
    clear_slot(m, slot);
}

/* Evicts every slot; without a cache there is nothing to do. */
static void evict_all(struct machine *m)
{
    if (!m->cached)
        return;
    for (size_t slot = 0; slot < m->lent->directory_length; slot++)
        evict_slot(m, slot);
}

/* Evicts a line where its slot holds it. */
static void evict_that_line(struct machine *m, uint64_t line)
{
    if (!m->cached)
        return;
    size_t slot = line % m->lent->directory_length;
    uint32_t number = m->lent->directory[slot];
    if (number != 0 && line_of(number) == line)
        evict_slot(m, slot);
}

/* Puts the bytes of a memory line into `bytes`, checked and opened as the tag asks; false where its MAC fails. */
static bool take_line(struct machine *m, uint64_t line, unsigned tag, uint8_t *bytes)
{
    const uint8_t *from = memory_line(m, line);
    if (tag == TAG_DATA)
        return open_line(m->r->drk, LINE_BYTES * line, from, mac_entry(m, line), bytes);
    if (tag == TAG_CODE && !code_line_right(m->r->drk, LINE_BYTES * line, from))
        return false;
    memcpy(bytes, from, LINE_BYTES);
    return true;
}

/* Fills an empty slot with a line; false where its MAC fails, and the slot then stays empty. */
static bool fill_slot(struct machine *m, size_t slot, uint64_t line, unsigned tag)
{
    m->out.counts.filled++;
    if (tag != TAG_NONE)
        m->out.counts.checked++;
    if (!take_line(m, line, tag, m->lent->cache + LINE_BYTES * slot)) {
        clear_slot(m, slot);
        return false;
    }
    m->lent->directory[slot] = (uint32_t)(USED | tag << 1 | line << 4);
    return true;
}

/* The bytes that serve an access to a line with the wanted tag; NULL where its MAC fails. */
static uint8_t *reach(struct machine *m, uint64_t line, unsigned tag)
{
    if (!m->cached)
        return take_line(m, line, tag, m->opened) ? m->opened : NULL;
    size_t slot = line % m->lent->directory_length;
    uint32_t wanted = (uint32_t)(USED | tag << 1 | line << 4);
    if ((m->lent->directory[slot] & ~(uint32_t)DIRTY) != wanted) {
        evict_slot(m, slot);
        if (!fill_slot(m, slot, line, tag))
            return NULL;
    }
    return m->lent->cache + LINE_BYTES * slot;
}

/* What a store leaves behind once its word is in the bytes that serve it. */
static void stored(struct machine *m, uint64_t line, unsigned tag)
{
    if (m->cached)
        m->lent->directory[line % m->lent->directory_length] |= DIRTY;
    else if (tag == TAG_DATA)
        seal_line(m->r->drk, LINE_BYTES * line, m->opened, memory_line(m, line), mac_entry(m, line));
    else
        memcpy(memory_line(m, line), m->opened, LINE_BYTES);
}

/* The word of eight bytes, the lowest first. */
static uint64_t get_word(const uint8_t *bytes)
{
    uint64_t word = 0;
    for (int i = 7; i >= 0; i--)
        word = word << 8 | bytes[i];
    return word;
}

static void put_word(uint8_t *bytes, uint64_t word)
{
    for (int i = 0; i < 8; i++)
        bytes[i] = (uint8_t)(word >> 8 * i);
}

/* The opcodes, by document 01's numbers. */
enum {
    ADD = 1, SUB, AND, OR, XOR, ADDI, CLZ, BEQ, JR, LOAD, STORE, EPC_GET, EPC_SET, CAUSE_GET, CTX_SET, RFI,
    DRK_SET = 32, DRK_LOCK, DRK_DERIVE, SRH_GET, SRH_SET, GR_GET, GR_SET, BEGIN_CEM_A, END_CEM, SECURE_LOAD, SECURE_STORE, BEGIN_CEM_U
};

static unsigned opcode(uint32_t w)
{
    return w >> 26;
}

static unsigned field_a(uint32_t w)
{
    return w >> 21 & 31;
}

static unsigned field_b(uint32_t w)
{
    return w >> 16 & 31;
}

static unsigned field_c(uint32_t w)
{
    return w >> 11 & 31;
}

static unsigned field_sel(uint32_t w)
{
    return w & 7;
}

/* imm, extended by its sign to 64 bits. */
static uint64_t field_imm(uint32_t w)
{
    uint64_t low = w & 0xffff;
    return low < 0x8000 ? low : low - 0x10000;
}

static void set_register(struct board_record *r, unsigned at, uint64_t value)
{
    if (at != 0)
        r->r[at] = value;
}

static uint64_t leading_zeros(uint64_t x)
{
    uint64_t zeros = 0;
    while (zeros < 64 && (x >> (63 - zeros) & 1) == 0)
        zeros++;
    return zeros;
}

/* Fetches the instruction at pc; gives the fault 9, 10 or 4, or 0. */
static unsigned fetch(struct machine *m, uint32_t *word)
{
    uint64_t pc = m->r->pc;
    bool active = m->r->mode == ACTIVE;
    if (pc % 4 != 0)
        return 9;
    if (pc >= m->lent->memory_length)
        return 10;
    if (active && pc % LINE_BYTES >= 48)
        return 4;
    const uint8_t *bytes = reach(m, pc / LINE_BYTES, active ? TAG_CODE : TAG_NONE);
    if (bytes == NULL)
        return 4;
    bytes += pc % LINE_BYTES;
    *word = (uint32_t)bytes[0] | (uint32_t)bytes[1] << 8 | (uint32_t)bytes[2] << 16 | (uint32_t)bytes[3] << 24;
    return 0;
}

/* Whether the instruction is one whose sel is not listed. */
static bool sel_not_listed(uint32_t w)
{
    unsigned sel = field_sel(w);
    switch (opcode(w)) {
    case DRK_SET:
        return sel != 0;
    case GR_GET:
        return sel != 0 && sel != 2;
    case GR_SET:
        return sel > 3;
    default:
        return false;
    }
}

/* The faults 11, 2, 1, 3 and 7, in the order checked, or 0. */
static unsigned decode_fault(const struct board_record *r, uint32_t w)
{
    unsigned op = opcode(w);
    bool exists = (op >= ADD && op <= RFI) || (op >= DRK_SET && op <= BEGIN_CEM_U);
    bool needs_active = (op >= DRK_DERIVE && op <= GR_SET) || (op >= END_CEM && op <= SECURE_STORE);
    if (!exists)
        return 11;
    if (needs_active && r->mode != ACTIVE)
        return 2;
    if (op == DRK_SET && r->drk_lock)
        return 1;
    if (op == BEGIN_CEM_A && r->mode != NORMAL)
        return 3;
    if (op == BEGIN_CEM_U || sel_not_listed(w))
        return 7;
    return 0;
}

/* load, store, secure_load and secure_store; gives the fault 9, 10 or 5, or 0. */
static unsigned move_word(struct machine *m, uint32_t w)
{
    struct board_record *r = m->r;
    unsigned op = opcode(w), a = field_a(w);
    unsigned tag = op == SECURE_LOAD || op == SECURE_STORE ? TAG_DATA : TAG_NONE;
    uint64_t address = r->r[field_b(w)] + field_imm(w);
    if (address % 8 != 0)
        return 9;
    if (address > m->lent->memory_length - 8)
        return 10;
    uint8_t *bytes = reach(m, address / LINE_BYTES, tag);
    if (bytes == NULL)
        return 5;
    bytes += address % LINE_BYTES;
    if (op == LOAD || op == SECURE_LOAD) {
        set_register(r, a, get_word(bytes));
    } else {
        put_word(bytes, r->r[a]);
        stored(m, address / LINE_BYTES, tag);
    }
    return 0;
}

/* drk.derive: words 1,0 = CMAC(DRK, Ra then Rb), words 3,2 = 0. */
static void derive(struct board_record *r, uint64_t high, uint64_t low)
{
    uint8_t nonce[16], mac[16];
    put_high_first(nonce, high);
    put_high_first(nonce + 8, low);
    drk_cmac(r->drk, nonce, 16, mac);
    r->cem_buffer[3] = 0;
    r->cem_buffer[2] = 0;
    r->cem_buffer[1] = get_high_first(mac);
    r->cem_buffer[0] = get_high_first(mac + 8);
}

/* The SP instructions that touch no memory line by themselves and don't fault any more. */
static void secure_instruction(struct machine *m, uint32_t w)
{
    struct board_record *r = m->r;
    uint64_t a = r->r[field_a(w)], b = r->r[field_b(w)];
    unsigned sel = field_sel(w);
    switch (opcode(w)) {
    case DRK_SET:
        evict_all(m);
        r->drk[0] = a;
        r->drk[1] = b;
        break;
    case DRK_LOCK:
        r->drk_lock = 1;
        break;
    case DRK_DERIVE:
        derive(r, a, b);
        break;
    case SRH_GET:
        memcpy(r->cem_buffer, r->srh, sizeof r->srh);
        break;
    case SRH_SET:
        memcpy(r->srh, r->cem_buffer, sizeof r->srh);
        break;
    case GR_GET:
        r->cem_buffer[sel + 1] = a;
        r->cem_buffer[sel] = b;
        break;
    case GR_SET:
        set_register(r, field_a(w), r->cem_buffer[sel]);
        break;
    case BEGIN_CEM_A:
        r->mode = ACTIVE;
        break;
    case END_CEM:
        r->mode = NORMAL;
        break;
    }
}

/* Opcodes 1 to 7: the value that goes to Ra. */
static uint64_t computed(const struct board_record *r, uint32_t w)
{
    uint64_t b = r->r[field_b(w)], c = r->r[field_c(w)];
    switch (opcode(w)) {
    case ADD:
        return b + c;
    case SUB:
        return b - c;
    case AND:
        return b & c;
    case OR:
        return b | c;
    case XOR:
        return b ^ c;
    case ADDI:
        return b + field_imm(w);
    default:
        return leading_zeros(b);
    }
}

/* Opcodes 1 to 7 and 12 to 15. */
static void plain_instruction(struct board_record *r, uint32_t w)
{
    unsigned a = field_a(w);
    switch (opcode(w)) {
    case EPC_GET:
        set_register(r, a, r->epc);
        break;
    case EPC_SET:
        r->epc = r->r[a];
        break;
    case CAUSE_GET:
        set_register(r, a, r->cause);
        break;
    case CTX_SET:
        r->pid = (uint32_t)r->r[a];
        r->cid = (uint16_t)r->r[field_b(w)];
        break;
    default:
        set_register(r, a, computed(r, w));
    }
}

/* rfi: gives fault 6 where the register hash fails, or 0. */
static unsigned return_from_interrupt(struct board_record *r)
{
    if (r->mode == SUSPENDED && r->epc == r->interrupt_address && r->pid == r->saved_pid && r->cid == r->saved_cid) {
        uint64_t plain[32], hash[2];
        memcpy(plain, r->r, sizeof plain);
        xor_key_stream(r->drk, r->interrupt_hash, plain);
        register_hash(r->drk, plain, hash);
        if (hash[0] != r->interrupt_hash[0] || hash[1] != r->interrupt_hash[1])
            return 6;
        memcpy(r->r, plain, sizeof plain);
        r->mode = ACTIVE;
    }
    r->pc = r->epc;
    return 0;
}

/* The pc behind an instruction that does not set it. */
static uint64_t pc_behind(uint64_t pc, bool active)
{
    if (active && pc % LINE_BYTES >= 44)
        return pc - pc % LINE_BYTES + LINE_BYTES;
    return pc + 4;
}

/* Does a decoded instruction and moves pc; gives the faults that only its work shows, or 0. */
static unsigned execute(struct machine *m, uint32_t w)
{
    struct board_record *r = m->r;
    unsigned op = opcode(w);
    bool active_before = r->mode == ACTIVE;
    if (op == RFI)
        return return_from_interrupt(r);
    if (op == JR) {
        r->pc = r->r[field_a(w)];
        return 0;
    }
    if (op == BEQ && r->r[field_a(w)] == r->r[field_b(w)]) {
        r->pc += 4 * field_imm(w);
        return 0;
    }
    if (op == LOAD || op == STORE || op == SECURE_LOAD || op == SECURE_STORE) {
        unsigned fault = move_word(m, w);
        if (fault != 0)
            return fault;
    } else if (op >= DRK_SET) {
        secure_instruction(m, w);
    } else if (op != BEQ) {
        plain_instruction(r, w);
    }
    r->pc = pc_behind(r->pc, active_before || r->mode == ACTIVE);
    return 0;
}

/* Suspends the active thread: hash, key stream, saved address, PID and CID. */
static void suspend(struct board_record *r)
{
    register_hash(r->drk, r->r, r->interrupt_hash);
    xor_key_stream(r->drk, r->interrupt_hash, r->r);
    r->interrupt_address = r->pc;
    r->saved_pid = r->pid;
    r->saved_cid = r->cid;
    r->mode = SUSPENDED;
}

/* What a fault or an interrupt does. */
static void enter_handler(struct board_record *r, uint32_t cause)
{
    if (r->mode == ACTIVE)
        suspend(r);
    r->epc = r->pc;
    r->cause = cause;
    r->pc = 64;
}

/* One instruction; gives its fault or 0. */
static unsigned step(struct machine *m)
{
    uint32_t word = 0;
    unsigned fault = fetch(m, &word);
    if (fault == 0)
        fault = decode_fault(m->r, word);
    if (fault == 0)
        fault = execute(m, word);
    if (fault != 0)
        enter_handler(m->r, fault);
    return fault;
}

/* Whether a directory number may stand in a slot: refusal 104. */
static bool number_right(const struct lent *lent, size_t slot)
{
    uint32_t number = lent->directory[slot];
    if (number == 0)
        return true;
    if ((number & USED) == 0 || number >> 14 != 0 || tag_of(number) == 3)
        return false;
    if (line_of(number) % lent->directory_length != slot || line_of(number) >= lent->memory_length / LINE_BYTES)
        return false;
    return tag_of(number) != TAG_CODE || (number & DIRTY) == 0;
}

/* The refusals 103 and 104, which only a machine with a cache knows, or 0. */
static unsigned cache_refusal(const struct lent *lent)
{
    size_t slots = lent->directory_length;
    if (slots < 1 || slots > SLOTS_AT_MOST || lent->cache_length != LINE_BYTES * slots)
        return 103;
    for (size_t slot = 0; slot < slots; slot++)
        if (!number_right(lent, slot))
            return 104;
    return 0;
}

/* The refusals 101 to 105, which every machine call knows, or 0. */
static unsigned entry_refusal(const struct machine *m)
{
    size_t length = m->lent->memory_length;
    if (length % LINE_BYTES != 0 || length < 128 || length > 65536)
        return 101;
    if (m->lent->macs_length != length / 4)
        return 102;
    unsigned refusal = m->cached ? cache_refusal(m->lent) : 0;
    if (refusal != 0)
        return refusal;
    if (m->r->r[0] != 0 || m->r->mode > SUSPENDED)
        return 105;
    return 0;
}

/* Begins a call on a line with a transfer of `length` bytes where `right` are due: refusals 101 to 107; true where none applies. */
static bool enter_with_line(struct machine *m, uint64_t line, size_t length, size_t right)
{
    m->out.answer = entry_refusal(m);
    if (m->out.answer == 0 && line >= m->lent->memory_length / LINE_BYTES)
        m->out.answer = 106;
    if (m->out.answer == 0 && length != right)
        m->out.answer = 107;
    return m->out.answer == 0;
}

/* Begins a call with no argument of its own: refusals 101 to 105; true where none applies. */
static bool enter(struct machine *m)
{
    m->out.answer = entry_refusal(m);
    return m->out.answer == 0;
}

/* A call on what was lent; without a directory it is the machine without a cache. */
static struct machine begin(struct board_record *r, const struct lent *lent)
{
    return (struct machine){.r = r, .lent = lent, .cached = lent->directory != NULL};
}

/* Everything zero but DRK and SRH, mode 0. */
static void clear_record(struct board_record *r)
{
    struct board_record kept = {.mode = NORMAL};
    memcpy(kept.drk, r->drk, sizeof kept.drk);
    memcpy(kept.srh, r->srh, sizeof kept.srh);
    *r = kept;
}

static struct outcome run(struct board_record *r, const struct lent *lent, uint64_t n)
{
    struct machine m = begin(r, lent);
    if (!enter(&m))
        return m.out;
    if (n > RUN_AT_MOST) {
        m.out.answer = 108;
        return m.out;
    }
    while (m.out.steps < n && m.out.answer == 0) {
        m.out.answer = step(&m);
        m.out.steps++;
    }
    return m.out;
}

static struct outcome interrupt(struct board_record *r, const struct lent *lent)
{
    struct machine m = begin(r, lent);
    if (enter(&m))
        enter_handler(m.r, 32);
    return m.out;
}

static struct outcome bus_read(struct board_record *r, const struct lent *lent, uint64_t line, uint8_t *transfer, size_t length)
{
    struct machine m = begin(r, lent);
    if (!enter_with_line(&m, line, length, LINE_BYTES))
        return m.out;
    evict_that_line(&m, line);
    memcpy(transfer, memory_line(&m, line), LINE_BYTES);
    return m.out;
}

static struct outcome bus_write(struct board_record *r, const struct lent *lent, uint64_t line, const uint8_t *transfer, size_t length)
{
    struct machine m = begin(r, lent);
    if (!enter_with_line(&m, line, length, LINE_BYTES))
        return m.out;
    evict_that_line(&m, line);
    memcpy(memory_line(&m, line), transfer, LINE_BYTES);
    return m.out;
}

static struct outcome bus_write_mac(struct board_record *r, const struct lent *lent, uint64_t line, const uint8_t *mac, size_t length)
{
    struct machine m = begin(r, lent);
    if (!enter_with_line(&m, line, length, MAC_BYTES))
        return m.out;
    evict_that_line(&m, line);
    memcpy(mac_entry(&m, line), mac, MAC_BYTES);
    return m.out;
}

static struct outcome evict_line(struct board_record *r, const struct lent *lent, uint64_t line)
{
    struct machine m = begin(r, lent);
    if (enter_with_line(&m, line, 0, 0))
        evict_that_line(&m, line);
    return m.out;
}

static struct outcome write_back(struct board_record *r, const struct lent *lent)
{
    struct machine m = begin(r, lent);
    if (enter(&m))
        evict_all(&m);
    return m.out;
}

static struct outcome reboot(struct board_record *r, const struct lent *lent)
{
    struct machine m = begin(r, lent);
    if (!enter(&m))
        return m.out;
    evict_all(&m);
    clear_record(m.r);
    return m.out;
}

static struct outcome power_cut(struct board_record *r, const struct lent *lent)
{
    struct machine m = begin(r, lent);
    if (!enter(&m))
        return m.out;
    for (size_t slot = 0; m.cached && slot < m.lent->directory_length; slot++)
        if (m.lent->directory[slot] != 0)
            clear_slot(&m, slot);
    clear_record(m.r);
    return m.out;
}

static struct outcome list_slots(struct board_record *r, const struct lent *lent, struct line_record *row, size_t length)
{
    struct machine m = begin(r, lent);
    if (!enter(&m) || !m.cached)
        return m.out;
    if (length != m.lent->directory_length) {
        m.out.answer = 110;
        return m.out;
    }
    for (size_t slot = 0; slot < length; slot++) {
        uint32_t number = m.lent->directory[slot];
        row[slot].used = number & USED;
        row[slot].line = (uint32_t)line_of(number);
        row[slot].tag = tag_of(number);
        row[slot].dirty = number >> 3 & 1;
    }
    return m.out;
}

/* The depot's refusals 106 and 107, or 0. */
static uint64_t depot_refusal(uint64_t address, size_t length, size_t mac_length)
{
    if (address % LINE_BYTES != 0)
        return 106;
    return length != LINE_BYTES || mac_length != MAC_BYTES ? 107 : 0;
}

static uint64_t depot_sign(const uint64_t drk[2], uint64_t address, uint8_t *line, size_t length)
{
    uint64_t refusal = depot_refusal(address, length, MAC_BYTES);
    if (refusal == 0)
        code_mac(drk, address, line, line + 48);
    return refusal;
}

static uint64_t depot_seal(const uint64_t drk[2], uint64_t address, uint8_t *line, size_t length, uint8_t *mac, size_t mac_length)
{
    uint64_t refusal = depot_refusal(address, length, mac_length);
    if (refusal == 0)
        seal_line(drk, address, line, line, mac);
    return refusal;
}

static uint64_t depot_open(const uint64_t drk[2], uint64_t address, uint8_t *line, size_t length, const uint8_t *mac, size_t mac_length)
{
    uint64_t refusal = depot_refusal(address, length, mac_length);
    if (refusal == 0 && !open_line(drk, address, line, mac, line))
        refusal = 109;
    return refusal;
}

const struct board_calls model_calls = {
    run, interrupt, bus_read, bus_write, bus_write_mac, evict_line, write_back, reboot, power_cut, list_slots, depot_sign, depot_seal, depot_open,
};
