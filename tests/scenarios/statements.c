/* The table of statements, and what each does; a field of the record with a value is a statement too, and an instruction is one. */
#include "statements.h"

#include <stdio.h>
#include <string.h>

#include "fields.h"
#include "instructions.h"
#include "match.h"

const struct board *recall(const struct play *p, const char *name)
{
    for (size_t i = 0; i < p->kept_count; i++)
        if (strcmp(p->kept[i].name, name) == 0)
            return &p->kept[i].board;
    stop("no board is kept under this name", name);
}

void keep(struct play *p, const char *name)
{
    size_t i = 0;
    while (i < p->kept_count && strcmp(p->kept[i].name, name) != 0)
        i++;
    if (i == KEPT_AT_MOST || strlen(name) >= NAME_ROOM)
        stop("there is no room for a board of this name", name);
    p->kept_count = i == p->kept_count ? i + 1 : p->kept_count;
    strcpy(p->kept[i].name, name);
    p->kept[i].board = p->now;
}

/* What a statement asks: which of the things that share an act, and the statement's own numbers and text. */
struct asked {
    int which;
    uint64_t numbers[2];
    const char *text;
};

/* So many bytes of a part, where it has them. */
static uint8_t *place(struct board *b, enum part part, uint64_t at, size_t length)
{
    if (at > room_of(part) - length)
        stop("a place is beyond the board's room", "");
    return bytes_of(b, part) + at;
}

static void lend_memory(struct play *p, const struct asked *a)
{
    lend(&p->now, MEMORY, a->numbers[0]);
    lend(&p->now, MACS, a->numbers[0] / 4);
}

static void lend_slots(struct play *p, const struct asked *a)
{
    lend(&p->now, DIRECTORY, a->numbers[0]);
    lend(&p->now, CACHE, a->numbers[0] * LINE_BYTES);
}

static void lend_part(struct play *p, const struct asked *a)
{
    lend(&p->now, a->which, a->numbers[0]);
}

static void lend_filled(struct play *p, const struct asked *a)
{
    lend(&p->now, a->which, a->numbers[0]);
    memset(bytes_of(&p->now, a->which), (int)a->numbers[1], room_of(a->which));
}

static void fill_all(struct play *p, const struct asked *a)
{
    static const enum part filled[] = {MEMORY, MACS, CACHE, TRANSFER, MAC};
    for (size_t i = 0; i < sizeof filled / sizeof filled[0]; i++)
        memset(bytes_of(&p->now, filled[i]), (int)a->numbers[0], room_of(filled[i]));
}

static void put_word(struct play *p, const struct asked *a)
{
    put_low_first(place(&p->now, a->which, a->numbers[0], 8), a->numbers[1], 8);
}

static void put_number(struct play *p, const struct asked *a)
{
    put_low_first(place(&p->now, a->which, 4 * a->numbers[0], 4), a->numbers[1], 4);
}

static void set_mode(struct play *p, const struct asked *a)
{
    p->now.record.mode = (uint32_t)a->which;
}

static void set_lock(struct play *p, const struct asked *a)
{
    p->now.record.drk_lock = (uint32_t)a->which;
}

static void tell_by_the_buffer(struct play *p, const struct asked *a)
{
    p->now.by_the_buffer = a->which;
}

/* Hands the record's DRK to the depot. */
static void hand_over_drk(struct play *p, const struct asked *a)
{
    (void)a;
    memcpy(p->now.depot_drk, p->now.record.drk, sizeof p->now.depot_drk);
}

/* Copies a line of memory into the transfer buffer, or an entry of the MAC area into the MAC's. */
static void take_entry(struct play *p, const struct asked *a)
{
    size_t size = a->which == MEMORY ? LINE_BYTES : MAC_BYTES;
    memcpy(bytes_of(&p->now, a->which == MEMORY ? TRANSFER : MAC), place(&p->now, a->which, a->numbers[0] * size, size), size);
}

/* Has the depot sign a line of memory, or seal it with its entry of the MAC area. */
static void have_line_made(struct play *p, const struct asked *a)
{
    uint64_t line = a->numbers[0], answer;
    uint8_t *bytes = place(&p->now, MEMORY, line * LINE_BYTES, LINE_BYTES), *mac = place(&p->now, MACS, line * MAC_BYTES, MAC_BYTES);
    if (a->which == CALL_SIGN)
        answer = machine_under_test.sign(p->now.depot_drk, line * LINE_BYTES, bytes, LINE_BYTES);
    else
        answer = machine_under_test.seal(p->now.depot_drk, line * LINE_BYTES, bytes, LINE_BYTES, mac, MAC_BYTES);
    if (answer != 0)
        stop("the depot refuses a line", "");
}

/* Lays instructions from an address on; '; ' stands between two of them. */
static void lay_at(struct board *b, uint64_t address, const char *text)
{
    while (*text != '\0') {
        size_t length = strcspn(text, ";");
        char one[64];
        snprintf(one, sizeof one, "%.*s", (int)length, text);
        if (!instruction_word(one, &b->word))
            stop("this is no statement and no instruction", one);
        put_low_first(place(b, MEMORY, address, 4), b->word, 4);
        address += 4;
        text += length;
        text += strspn(text, "; ");
    }
}

static void lay(struct play *p, const struct asked *a)
{
    lay_at(&p->now, a->numbers[0], a->text);
}

/* Lays instructions and has the depot sign the line where they begin. */
static void lay_signed(struct play *p, const struct asked *a)
{
    struct asked line = {CALL_SIGN, {a->numbers[0] / LINE_BYTES}, ""};
    lay(p, a);
    have_line_made(p, &line);
}

static void call(struct play *p, const struct asked *a)
{
    make_call(&p->now, &p->before, a->which, a->numbers[0]);
    p->calls++;
}

static void list(struct play *p, const struct asked *a)
{
    lend(&p->now, ROW, a->numbers[0]);
    call(p, a);
}

/* No call: what is told is what changed since a board was kept. */
static void look_back(struct play *p, const struct asked *a)
{
    p->before = *recall(p, a->text);
    p->calls++;
}

static const struct {
    const char *pattern;
    void (*act)(struct play *p, const struct asked *a);
    int which;
} statements[] = {
    {"M = #", lend_memory, 0},
    {"C = #", lend_slots, 0},
    {"MAC area of # bytes", lend_part, MACS},
    {"# data bytes", lend_part, CACHE},
    {"buffer of # bytes, each #", lend_filled, TRANSFER},
    {"MAC of # bytes, each #", lend_filled, MAC},
    {"every byte #", fill_all, 0},
    {"memory # holds #", put_word, MEMORY},
    {"cache # holds #", put_word, CACHE},
    {"slot # has the number #", put_number, DIRECTORY},
    {"normal", set_mode, NORMAL},
    {"active", set_mode, ACTIVE},
    {"suspended", set_mode, SUSPENDED},
    {"locked", set_lock, 1},
    {"told by the buffer", tell_by_the_buffer, true},
    {"the depot has the DRK", hand_over_drk, 0},
    {"the buffer has line #", take_entry, MEMORY},
    {"the MAC is that of line #", take_entry, MACS},
    {"words at #: *", lay, 0},
    {"code at #: *", lay_signed, 0},
    {"sign line #", have_line_made, CALL_SIGN},
    {"seal line #", have_line_made, CALL_SEAL},
    {"run of #", call, CALL_RUN},
    {"interrupt", call, CALL_INTERRUPT},
    {"bus read of line #", call, CALL_BUS_READ},
    {"bus write of line #", call, CALL_BUS_WRITE},
    {"bus write of MAC #", call, CALL_BUS_WRITE_MAC},
    {"evict line #", call, CALL_EVICT_LINE},
    {"write back", call, CALL_WRITE_BACK},
    {"reboot", call, CALL_REBOOT},
    {"power cut", call, CALL_POWER_CUT},
    {"listing into # records", list, CALL_LIST_SLOTS},
    {"sign at #", call, CALL_SIGN},
    {"seal at #", call, CALL_SEAL},
    {"open at #", call, CALL_OPEN},
    {"since *", look_back, 0},
};

/* What the table does not have is a field with a value, or an instruction, which is laid at pc. */
void perform(struct play *p, const char *statement)
{
    struct found f = {0};
    for (size_t i = 0; i < sizeof statements / sizeof statements[0]; i++)
        if (matches(statement, statements[i].pattern, &f)) {
            struct asked asked = {statements[i].which, {f.numbers[0], f.numbers[1]}, f.rest};
            statements[i].act(p, &asked);
            return;
        }
    struct asked instruction = {0, {p->now.record.pc}, statement};
    if (!set_field(&p->now.record, statement))
        lay_signed(p, &instruction);
}
