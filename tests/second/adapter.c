/* The adapter: the proved calls of crates/board/out/libboard.a as the machine under test. */
#include "compare.h"

#include <stdlib.h>
#include <string.h>

#include "hq_board.h"
#include "lines.h"

/* What a call is lent, in the order of the exported functions. */
#define LENT(l) \
    (l)->memory, (l)->memory_length, (l)->macs, (l)->macs_length, (l)->cache, (l)->cache_length, (l)->directory, (l)->directory_length

/* The record as the exported functions take it. */
static struct hq_processor taken(const struct board_record *r)
{
    struct hq_processor p;
    memset(&p, 0, sizeof p);
    memcpy(p.r, r->r, sizeof p.r);
    p.special.pc = r->pc;
    p.special.epc = r->epc;
    p.special.cause = r->cause;
    p.special.drkhi = r->drk[0];
    p.special.drklo = r->drk[1];
    p.special.srh0 = r->srh[0];
    p.special.srh1 = r->srh[1];
    p.special.srh2 = r->srh[2];
    p.special.srh3 = r->srh[3];
    p.special.word0 = r->cem_buffer[0];
    p.special.word1 = r->cem_buffer[1];
    p.special.word2 = r->cem_buffer[2];
    p.special.word3 = r->cem_buffer[3];
    put_high_first(p.special.hash, r->interrupt_hash[0]);
    put_high_first(p.special.hash + 8, r->interrupt_hash[1]);
    p.special.address = r->interrupt_address;
    p.special.pid = r->pid;
    p.special.savedpid = r->saved_pid;
    p.special.cid = r->cid;
    p.special.savedcid = r->saved_cid;
    p.special.mode = (uint8_t)r->mode;
    p.special.lock = r->drk_lock != 0;
    return p;
}

/* The low 32 bits of a number, and all ones where it has more: the model has none such. */
static uint32_t in_32_bits(uint64_t number)
{
    return number > UINT32_MAX ? UINT32_MAX : (uint32_t)number;
}

/* The record as the exported functions give it, every field of it. */
static struct board_record given(const struct hq_processor *p)
{
    struct board_record r = {
        .pc = p->special.pc,
        .epc = p->special.epc,
        .drk = {p->special.drkhi, p->special.drklo},
        .srh = {p->special.srh0, p->special.srh1, p->special.srh2, p->special.srh3},
        .cem_buffer = {p->special.word0, p->special.word1, p->special.word2, p->special.word3},
        .interrupt_hash = {get_high_first(p->special.hash), get_high_first(p->special.hash + 8)},
        .interrupt_address = p->special.address,
        .cause = in_32_bits(p->special.cause),
        .pid = p->special.pid,
        .saved_pid = p->special.savedpid,
        .mode = p->special.mode,
        .drk_lock = p->special.lock,
        .cid = p->special.cid,
        .saved_cid = p->special.savedcid,
    };
    memcpy(r.r, p->r, sizeof r.r);
    return r;
}

/* Puts the record in place, and gives the report. */
static struct outcome took(struct board_record *record, const struct hq_processor *p, struct hq_report x)
{
    *record = given(p);
    return (struct outcome){x.answer, x.steps, {x.counts.filled, x.counts.written, x.counts.checked, x.counts.made}};
}

/* A call on the record as the library takes it. */
#define CALL(function, ...) \
    struct hq_processor p = taken(record); \
    struct hq_report x = function(&p, LENT(l), ##__VA_ARGS__); \
    return took(record, &p, x)

static struct outcome run(struct board_record *record, const struct lent *l, uint64_t n)
{
    CALL(hq_run, n);
}

static struct outcome interrupt(struct board_record *record, const struct lent *l)
{
    CALL(hq_interrupt);
}

static struct outcome bus_read(struct board_record *record, const struct lent *l, uint64_t line, uint8_t *transfer, size_t length)
{
    CALL(hq_bus_read, transfer, length, line);
}

static struct outcome bus_write(struct board_record *record, const struct lent *l, uint64_t line, const uint8_t *transfer, size_t length)
{
    CALL(hq_bus_write, transfer, length, line);
}

static struct outcome bus_write_mac(struct board_record *record, const struct lent *l, uint64_t line, const uint8_t *mac, size_t length)
{
    CALL(hq_bus_write_mac, mac, length, line);
}

static struct outcome evict_line(struct board_record *record, const struct lent *l, uint64_t line)
{
    CALL(hq_evict_line, line);
}

static struct outcome write_back(struct board_record *record, const struct lent *l)
{
    CALL(hq_write_back);
}

static struct outcome reboot(struct board_record *record, const struct lent *l)
{
    CALL(hq_reboot);
}

static struct outcome power_cut(struct board_record *record, const struct lent *l)
{
    CALL(hq_power_cut);
}

/* The listing, into a row of the library's own records. */
static struct outcome list_slots(struct board_record *record, const struct lent *l, struct line_record *row, size_t length)
{
    struct hq_line_record *rows = calloc(length + 1, sizeof *rows);
    if (rows == NULL)
        abort();
    for (size_t i = 0; i < length; i++)
        rows[i] = (struct hq_line_record){row[i].used, row[i].line, row[i].tag, row[i].dirty};
    struct hq_processor p = taken(record);
    struct hq_report x = hq_list_slots(&p, LENT(l), rows, length);
    for (size_t i = 0; i < length; i++)
        row[i] = (struct line_record){rows[i].used, rows[i].line, rows[i].tag, rows[i].dirty};
    free(rows);
    return took(record, &p, x);
}

static uint64_t sign(const uint64_t drk[2], uint64_t address, uint8_t *line, size_t length)
{
    return hq_depot_sign(drk[0], drk[1], address, line, length);
}

static uint64_t seal(const uint64_t drk[2], uint64_t address, uint8_t *line, size_t length, uint8_t *mac, size_t mac_length)
{
    return hq_depot_seal(drk[0], drk[1], address, line, length, mac, mac_length);
}

static uint64_t open_line_of(const uint64_t drk[2], uint64_t address, uint8_t *line, size_t length, const uint8_t *mac, size_t mac_length)
{
    return hq_depot_open(drk[0], drk[1], address, line, length, mac, mac_length);
}

const struct board_calls machine_under_test = {
    run, interrupt, bus_read, bus_write, bus_write_mac, evict_line, write_back, reboot, power_cut, list_slots, sign, seal, open_line_of,
};
