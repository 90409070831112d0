/* The parts of a board, and the calls on it with the checks that no line of the text can tell. */
#include "host.h"

#include <string.h>

/* Where each part stands in a board, and the size of its elements. */
static const struct {
    const char *name;
    size_t offset, room, unit;
} shapes[PARTS] = {
#define SHAPE(name, member) {name, offsetof(struct board, member), sizeof((struct board *)0)->member, sizeof((struct board *)0)->member[0]}
    [MEMORY] = SHAPE("memory", memory),
    [MACS] = SHAPE("MAC area", macs),
    [CACHE] = SHAPE("data bytes", cache),
    [DIRECTORY] = SHAPE("directory", directory),
    [TRANSFER] = SHAPE("transfer buffer", transfer),
    [MAC] = SHAPE("MAC", mac),
    [ROW] = SHAPE("row", row),
#undef SHAPE
};

uint8_t *bytes_of(struct board *b, enum part part)
{
    return (uint8_t *)b + shapes[part].offset;
}

size_t room_of(enum part part)
{
    return shapes[part].room;
}

void lend(struct board *b, enum part part, uint64_t length)
{
    if (length > shapes[part].room / shapes[part].unit)
        stop("there is no room for so much", shapes[part].name);
    b->lengths[part] = length;
}

/* Whether two boards agree on a part from a byte on. */
static bool same_from(const struct board *a, const struct board *b, enum part part, size_t from)
{
    size_t at = shapes[part].offset + from;
    return memcmp((const uint8_t *)a + at, (const uint8_t *)b + at, shapes[part].room - from) == 0;
}

bool same_part(const struct board *a, const struct board *b, enum part part)
{
    return same_from(a, b, part, 0);
}

void put_low_first(uint8_t *bytes, uint64_t number, size_t length)
{
    for (size_t i = 0; i < length; i++)
        bytes[i] = (uint8_t)(number >> 8 * i);
}

uint64_t word_at(const uint8_t *bytes)
{
    uint64_t word = 0;
    for (int i = 7; i >= 0; i--)
        word = word << 8 | bytes[i];
    return word;
}

bool of_depot(enum call_kind kind)
{
    return kind == CALL_SIGN || kind == CALL_SEAL || kind == CALL_OPEN;
}

static struct outcome machine_call(struct board *b, enum call_kind kind, uint64_t number)
{
    const struct board_calls *f = &machine_under_test;
    struct board_record *r = &b->record;
    const size_t *lengths = b->lengths;
    struct lent l = {
        b->memory, lengths[MEMORY], b->macs, lengths[MACS], b->cache, lengths[CACHE], b->directory, lengths[DIRECTORY],
    };
    switch (kind) {
    case CALL_RUN:
        return f->run(r, &l, number);
    case CALL_INTERRUPT:
        return f->interrupt(r, &l);
    case CALL_BUS_READ:
        return f->bus_read(r, &l, number, b->transfer, lengths[TRANSFER]);
    case CALL_BUS_WRITE:
        return f->bus_write(r, &l, number, b->transfer, lengths[TRANSFER]);
    case CALL_BUS_WRITE_MAC:
        return f->bus_write_mac(r, &l, number, b->mac, lengths[MAC]);
    case CALL_EVICT_LINE:
        return f->evict_line(r, &l, number);
    case CALL_WRITE_BACK:
        return f->write_back(r, &l);
    case CALL_REBOOT:
        return f->reboot(r, &l);
    case CALL_POWER_CUT:
        return f->power_cut(r, &l);
    default:
        return f->list_slots(r, &l, b->row, lengths[ROW]);
    }
}

/* The answer of a depot call on the transfer buffer and the MAC's. */
static uint64_t depot_call(struct board *b, enum call_kind kind, uint64_t address)
{
    const struct board_calls *f = &machine_under_test;
    if (kind == CALL_SIGN)
        return f->sign(b->depot_drk, address, b->transfer, b->lengths[TRANSFER]);
    if (kind == CALL_SEAL)
        return f->seal(b->depot_drk, address, b->transfer, b->lengths[TRANSFER], b->mac, b->lengths[MAC]);
    return f->open(b->depot_drk, address, b->transfer, b->lengths[TRANSFER], b->mac, b->lengths[MAC]);
}

/* Stops where a call wrote behind what it was lent, or a listing anything but its row, which it fills where it is not refused. */
static void check_bounds(const struct board *before, const struct board *now)
{
    bool lists = now->kind == CALL_LIST_SLOTS;
    for (enum part part = 0; part < PARTS; part++) {
        bool fills = !lists || (part == ROW && now->out.answer == 0);
        if (!same_from(before, now, part, fills ? now->lengths[part] * shapes[part].unit : 0))
            stop("a call wrote where it may not", shapes[part].name);
    }
    if (lists && memcmp(&before->record, &now->record, sizeof now->record) != 0)
        stop("a listing wrote where it may not", "record");
}

void make_call(struct board *now, struct board *before, enum call_kind kind, uint64_t number)
{
    memset(now->row, 0x77, sizeof now->row);
    memset(&now->out, 0, sizeof now->out);
    now->kind = kind;
    *before = *now;
    if (of_depot(kind))
        now->out.answer = depot_call(now, kind, number);
    else
        now->out = machine_call(now, kind, number);
    check_bounds(before, now);
}
