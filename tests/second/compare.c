/* Runs scenarios on the second model and on the machine under test, compares everything after every call, and stops at the first difference. */
#include "compare.h"

#include <inttypes.h>
#include <signal.h>
#include <stdbool.h>
#include <stdio.h>
#include <stdlib.h>
#include <string.h>

#include "model.h"
#include "scenarios.h"

/* One board as its host holds it, with what its last call gave. */
struct board {
    struct board_record record;
    uint8_t memory[MEMORY_ROOM + SLACK];
    uint8_t macs[MACS_ROOM + SLACK];
    uint8_t cache[SLOTS_ROOM * LINE_BYTES + SLACK];
    uint32_t directory[SLOTS_ROOM + SLACK / 4];
    uint8_t transfer[TRANSFER_ROOM];
    uint8_t mac[MAC_ROOM];
    struct line_record row[SLOTS_ROOM];
    struct outcome out;
};

/* The fields of a record by name, for the report of a difference. */
static const struct {
    const char *name;
    size_t offset, size, number;
} fields[] = {
#define FIELD(name, number) {#name, offsetof(struct board_record, name), sizeof((struct board_record *)0)->name / (number), number}
    FIELD(r, 32), FIELD(pc, 1), FIELD(epc, 1), FIELD(drk, 2), FIELD(srh, 4), FIELD(cem_buffer, 4), FIELD(interrupt_hash, 2),
    FIELD(interrupt_address, 1), FIELD(cause, 1), FIELD(pid, 1), FIELD(saved_pid, 1), FIELD(mode, 1), FIELD(drk_lock, 1), FIELD(cid, 1),
    FIELD(saved_cid, 1),
#undef FIELD
};

/* How often each answer was given, and what the runs did in sum, for --answers. */
static uint64_t answers[CALL_KINDS][128];
static struct outcome sums;

/* Where the comparison is, for the report of a crash. */
static struct {
    uint64_t seed, scenario;
    size_t call;
    enum call_kind kind;
} at;

/* The bytes of each buffer that belong to a scenario, the slack behind them included. */
static struct lengths watched(const struct scenario *s)
{
    struct lengths w = s->lengths;
    w.memory += SLACK;
    w.macs += SLACK;
    w.cache += SLACK;
    w.directory = 4 * w.directory + SLACK;
    return w;
}

static void start(struct board *b, const struct scenario *s)
{
    struct lengths w = watched(s);
    b->record = s->record;
    memcpy(b->memory, s->memory, w.memory);
    memcpy(b->macs, s->macs, w.macs);
    memcpy(b->cache, s->cache, w.cache);
    memcpy(b->directory, s->directory, w.directory);
}

/* The part of a board that a change is about. */
static uint8_t *changed_part(struct board *b, const struct change *g)
{
    uint8_t *const parts[] = {
        [IN_RECORD] = (uint8_t *)&b->record,
        [IN_MEMORY] = b->memory,
        [IN_MACS] = b->macs,
        [IN_CACHE] = b->cache,
        [IN_DIRECTORY] = (uint8_t *)b->directory,
    };
    return parts[g->place] + g->offset;
}

/* Makes a machine call; depot calls are made apart. */
static struct outcome machine_call(const struct board_calls *f, struct board *b, const struct call *c)
{
    struct board_record *r = &b->record;
    struct lent l = {
        b->memory, c->lengths.memory, b->macs, c->lengths.macs, b->cache, c->lengths.cache, b->directory, c->lengths.directory,
    };
    switch (c->kind) {
    case CALL_RUN:
        return f->run(r, &l, c->number);
    case CALL_INTERRUPT:
        return f->interrupt(r, &l);
    case CALL_BUS_READ:
        return f->bus_read(r, &l, c->number, b->transfer, c->length);
    case CALL_BUS_WRITE:
        return f->bus_write(r, &l, c->number, b->transfer, c->length);
    case CALL_BUS_WRITE_MAC:
        return f->bus_write_mac(r, &l, c->number, b->mac, c->mac_length);
    case CALL_EVICT_LINE:
        return f->evict_line(r, &l, c->number);
    case CALL_WRITE_BACK:
        return f->write_back(r, &l);
    case CALL_REBOOT:
        return f->reboot(r, &l);
    case CALL_POWER_CUT:
        return f->power_cut(r, &l);
    default:
        return f->list_slots(r, &l, b->row, c->length);
    }
}

/* Lends the call's own buffers, makes the host's change and then the call, and takes the change back where the call is refused. */
static void make_call(const struct board_calls *f, struct board *b, const struct call *c)
{
    const struct change *g = &c->change;
    uint8_t before[sizeof g->bytes];
    memcpy(b->transfer, c->transfer, TRANSFER_ROOM);
    memcpy(b->mac, c->mac, MAC_ROOM);
    memset(b->row, 0x77, sizeof b->row);
    memcpy(before, changed_part(b, g), g->size);
    memcpy(changed_part(b, g), g->bytes, g->size);
    memset(&b->out, 0, sizeof b->out);
    if (c->kind == CALL_SIGN)
        b->out.answer = f->sign(c->drk, c->number, b->transfer, c->length);
    else if (c->kind == CALL_SEAL)
        b->out.answer = f->seal(c->drk, c->number, b->transfer, c->length, b->mac, c->mac_length);
    else if (c->kind == CALL_OPEN)
        b->out.answer = f->open(c->drk, c->number, b->transfer, c->length, b->mac, c->mac_length);
    else
        b->out = machine_call(f, b, c);
    if (b->out.answer > 100)
        memcpy(changed_part(b, g), before, g->size);
}

static bool numbers_differ(const char *what, uint64_t model, uint64_t other)
{
    if (model != other)
        printf("  %s: the model gives %" PRIu64 " (0x%" PRIx64 ")", what, model, model);
    if (model != other)
        printf(", the machine under test %" PRIu64 " (0x%" PRIx64 ")\n", other, other);
    return model != other;
}

/* Says which bytes of a buffer differ, the first few of them. */
static bool bytes_differ(const char *what, const void *model, const void *other, size_t length)
{
    const uint8_t *a = model, *b = other;
    size_t different = 0;
    if (memcmp(a, b, length) == 0)
        return false;
    for (size_t i = 0; i < length; i++)
        if (a[i] != b[i] && different++ < 8)
            printf("  %s, byte %zu of %zu: the model has %02x, the machine under test %02x\n", what, i, length, a[i], b[i]);
    printf("  %s: %zu bytes differ\n", what, different);
    return true;
}

/* Says which fields of the record differ. */
static bool records_differ(const struct board *a, const struct board *b)
{
    if (memcmp(&a->record, &b->record, sizeof a->record) == 0)
        return false;
    for (size_t i = 0; i < sizeof fields / sizeof fields[0]; i++)
        for (size_t j = 0; j < fields[i].number; j++) {
            char what[40];
            uint64_t x = 0, y = 0;
            size_t at = fields[i].offset + j * fields[i].size;
            memcpy(&x, (const uint8_t *)&a->record + at, fields[i].size);
            memcpy(&y, (const uint8_t *)&b->record + at, fields[i].size);
            snprintf(what, sizeof what, "record, %s[%zu]", fields[i].name, j);
            numbers_differ(what, x, y);
        }
    return true;
}

/* Compares two boards after a call and prints every difference. */
static bool boards_differ(const struct board *a, const struct board *b, const struct scenario *s)
{
    struct lengths w = watched(s);
    bool differ = numbers_differ("answer", a->out.answer, b->out.answer);
    differ |= numbers_differ("steps", a->out.steps, b->out.steps);
    differ |= numbers_differ("lines filled", a->out.counts.filled, b->out.counts.filled);
    differ |= numbers_differ("dirty lines written", a->out.counts.written, b->out.counts.written);
    differ |= numbers_differ("MACs checked", a->out.counts.checked, b->out.counts.checked);
    differ |= numbers_differ("MACs made", a->out.counts.made, b->out.counts.made);
    differ |= records_differ(a, b);
    differ |= bytes_differ("memory", a->memory, b->memory, w.memory);
    differ |= bytes_differ("MAC area", a->macs, b->macs, w.macs);
    differ |= bytes_differ("cache bytes", a->cache, b->cache, w.cache);
    differ |= bytes_differ("directory", a->directory, b->directory, w.directory);
    differ |= bytes_differ("transfer buffer", a->transfer, b->transfer, TRANSFER_ROOM);
    differ |= bytes_differ("MAC buffer", a->mac, b->mac, MAC_ROOM);
    differ |= bytes_differ("listing row", a->row, b->row, sizeof a->row);
    return differ;
}

/* Prints the place where the comparison is. */
static void print_place(const char *what)
{
    printf("seed %" PRIu64 ", scenario %" PRIu64 ", call %zu (%s): %s\n", at.seed, at.scenario, at.call, call_names[at.kind], what);
}

/* Reports a crash and ends the program. */
static void crashed(int signal_number)
{
    printf("signal %d\n", signal_number);
    print_place("the machine under test crashed");
    fflush(stdout);
    _Exit(1);
}

/* Prints the call at which the boards differ. */
static void print_call(const struct call *c, const struct board_record *before)
{
    print_place("the machine under test differs from the model, as above");
    printf("  lent: memory %zu, MAC area %zu", c->lengths.memory, c->lengths.macs);
    printf(", cache bytes %zu, directory %zu\n", c->lengths.cache, c->lengths.directory);
    printf("  number 0x%" PRIx64 ", length %zu, MAC length %zu", c->number, c->length, c->mac_length);
    printf(", DRK %016" PRIx64 "%016" PRIx64 "\n", c->drk[0], c->drk[1]);
    if (c->change.size != 0)
        printf("  the host changed %zu bytes at %zu of part %d before it\n", c->change.size, c->change.offset, (int)c->change.place);
    printf("  after the call before it: pc 0x%" PRIx64 ", mode %" PRIu32 ", EPC 0x%" PRIx64, before->pc, before->mode, before->epc);
    printf(", cause %" PRIu32 ", lock %" PRIu32 "\n", before->cause, before->drk_lock);
}

/* Adds what a call gave to the numbers for --answers. */
static void note(enum call_kind kind, const struct outcome *out)
{
    answers[kind][out->answer & 127]++;
    sums.steps += out->steps;
    sums.counts.filled += out->counts.filled;
    sums.counts.written += out->counts.written;
    sums.counts.checked += out->counts.checked;
    sums.counts.made += out->counts.made;
}

/* Runs one scenario on both; the number of its calls, or 0 after a difference was printed. */
static size_t run_scenario(const struct scenario *s)
{
    static struct board model, other;
    start(&model, s);
    start(&other, s);
    for (size_t i = 0; i < s->call_count; i++) {
        struct board_record before = model.record;
        at.call = i + 1;
        at.kind = s->calls[i].kind;
        make_call(&model_calls, &model, &s->calls[i]);
        make_call(&machine_under_test, &other, &s->calls[i]);
        note(s->calls[i].kind, &model.out);
        if (boards_differ(&model, &other, s)) {
            print_call(&s->calls[i], &before);
            return 0;
        }
    }
    return s->call_count;
}

/* Prints how often each call gave each answer. */
static void print_answers(void)
{
    for (int kind = 0; kind < CALL_KINDS; kind++) {
        printf("%s:", call_names[kind]);
        for (int answer = 0; answer < 128; answer++)
            if (answers[kind][answer] != 0)
                printf(" %d: %" PRIu64, answer, answers[kind][answer]);
        printf("\n");
    }
    printf("steps %" PRIu64 ", lines filled %" PRIu64 ", written %" PRIu64, sums.steps, sums.counts.filled, sums.counts.written);
    printf(", MACs checked %" PRIu64 ", made %" PRIu64 "\n", sums.counts.checked, sums.counts.made);
}

/* compare [scenarios [seed [first scenario [--answers]]]] */
int main(int argc, char **argv)
{
    static struct scenario s;
    uint64_t scenarios = argc > 1 ? strtoull(argv[1], NULL, 0) : 100000;
    uint64_t seed = argc > 2 ? strtoull(argv[2], NULL, 0) : 1;
    uint64_t first = argc > 3 ? strtoull(argv[3], NULL, 0) : 0;
    uint64_t calls = 0;
    at.seed = seed;
    signal(SIGSEGV, crashed);
    signal(SIGABRT, crashed);
    for (uint64_t i = first; i < first + scenarios; i++) {
        at.scenario = i;
        make_scenario(&s, seed, i);
        size_t made = run_scenario(&s);
        if (made == 0)
            return 1;
        calls += made;
    }
    if (argc > 4 && strcmp(argv[4], "--answers") == 0)
        print_answers();
    printf("second model: %" PRIu64 " scenarios, %" PRIu64 " calls, no difference\n", scenarios, calls);
    return 0;
}
