/* Demand 3 tried at random: the second model with a cache and without one, compared after each operation, over all cache sizes. */
#include <inttypes.h>
#include <stdio.h>
#include <string.h>

#include "model.h"
#include "scenarios.h"
#include "self.h"

enum { SCENARIOS = 20000, SEED = 3 };

/* The two machines of one scenario, and a copy of the first one that is written back. */
struct pair {
    struct board_record cached, plain;
    struct lengths lengths;
    uint8_t memory[MEMORY_ROOM], macs[MACS_ROOM], cache[SLOTS_AT_MOST * LINE_BYTES];
    uint32_t directory[SLOTS_AT_MOST];
    uint8_t plain_memory[MEMORY_ROOM], plain_macs[MACS_ROOM];
    uint8_t copy_memory[MEMORY_ROOM], copy_macs[MACS_ROOM], copy_cache[SLOTS_AT_MOST * LINE_BYTES];
    uint32_t copy_directory[SLOTS_AT_MOST];
};

static struct pair p;

/* Starts both from an empty directory. */
static void start(const struct scenario *s, size_t slots)
{
    memset(&p.cache, 0, sizeof p.cache);
    memset(&p.directory, 0, sizeof p.directory);
    p.cached = p.plain = s->record;
    p.lengths = (struct lengths){s->lengths.memory, s->lengths.memory / 4, 64 * slots, slots};
    memcpy(p.memory, s->memory, p.lengths.memory);
    memcpy(p.macs, s->macs, p.lengths.macs);
    memcpy(p.plain_memory, s->memory, p.lengths.memory);
    memcpy(p.plain_macs, s->macs, p.lengths.macs);
}

/* Whether both memories agree once a copy of the cached machine is written back. */
static bool memories_agree(void)
{
    struct board_record record = p.cached;
    struct lent l = {
        p.copy_memory, p.lengths.memory, p.copy_macs, p.lengths.macs, p.copy_cache, p.lengths.cache, p.copy_directory, p.lengths.directory,
    };
    memcpy(p.copy_memory, p.memory, p.lengths.memory);
    memcpy(p.copy_macs, p.macs, p.lengths.macs);
    memcpy(p.copy_cache, p.cache, p.lengths.cache);
    memcpy(p.copy_directory, p.directory, 4 * p.lengths.directory);
    return model_calls.write_back(&record, &l).answer == 0 && memcmp(p.copy_memory, p.plain_memory, p.lengths.memory) == 0
        && memcmp(p.copy_macs, p.plain_macs, p.lengths.macs) == 0;
}

/* Makes one call but a listing on one of the two machines. */
static struct outcome call_one(struct board_record *r, const struct lent *l, const struct call *c, uint64_t n, uint8_t *bytes)
{
    switch (c->kind) {
    case CALL_RUN:
        return model_calls.run(r, l, n);
    case CALL_INTERRUPT:
        return model_calls.interrupt(r, l);
    case CALL_BUS_READ:
        return model_calls.bus_read(r, l, n, bytes, c->length);
    case CALL_BUS_WRITE:
        return model_calls.bus_write(r, l, n, c->transfer, c->length);
    case CALL_BUS_WRITE_MAC:
        return model_calls.bus_write_mac(r, l, n, c->mac, c->mac_length);
    case CALL_EVICT_LINE:
        return model_calls.evict_line(r, l, n);
    case CALL_WRITE_BACK:
        return model_calls.write_back(r, l);
    case CALL_REBOOT:
        return model_calls.reboot(r, l);
    default:
        return model_calls.power_cut(r, l);
    }
}

/* 'No instruction but drk.set fills or writes more than two lines': what a run of one gave; after a drk.set every slot is empty. */
static bool within_bound(const struct counts *c)
{
    bool empty = true;
    for (size_t slot = 0; slot < p.lengths.directory; slot++)
        empty &= p.directory[slot] == 0;
    return c->filled <= 2 && c->checked <= c->filled && c->made <= c->written && (c->written <= 2 || empty);
}

/* Makes one call on both and compares; the answer, or 1000 where they disagree. */
static uint64_t call_both(const struct call *c, uint64_t n)
{
    struct lent with = {p.memory, p.lengths.memory, p.macs, p.lengths.macs, p.cache, p.lengths.cache, p.directory, p.lengths.directory};
    struct lent without = {p.plain_memory, p.lengths.memory, p.plain_macs, p.lengths.macs, NULL, 0, NULL, 0};
    uint8_t bytes[2][TRANSFER_ROOM] = {{0}};
    struct outcome a = call_one(&p.cached, &with, c, n, bytes[0]);
    struct outcome b = call_one(&p.plain, &without, c, n, bytes[1]);
    if (c->kind == CALL_POWER_CUT) {
        memcpy(p.plain_memory, p.memory, p.lengths.memory);
        memcpy(p.plain_macs, p.macs, p.lengths.macs);
    }
    bool same = a.answer == b.answer && a.steps == b.steps && memcmp(&p.cached, &p.plain, sizeof p.plain) == 0
        && memcmp(bytes[0], bytes[1], sizeof bytes[0]) == 0 && memories_agree();
    if (c->kind == CALL_RUN && n == 1)
        expect(within_bound(&a.counts), "the bound of two lines for an instruction");
    return same ? a.answer : 1000;
}

/* The host's change of the record, but for the DRK and what would be refused; other changes would pass under the cache. */
static void change_both(const struct change *g)
{
    if (g->place != IN_RECORD)
        return;
    struct board_record now = p.cached;
    memcpy((uint8_t *)&now + g->offset, g->bytes, g->size);
    memcpy(now.drk, p.cached.drk, sizeof now.drk);
    if (now.r[0] == 0 && now.mode <= SUSPENDED)
        p.cached = p.plain = now;
}

/* One scenario; a run of at most 64 goes in single instructions. */
static bool scenario_agrees(const struct scenario *s)
{
    for (size_t i = 0; i < s->call_count; i++) {
        const struct call *c = &s->calls[i];
        if (c->kind >= CALL_LIST_SLOTS)
            continue;
        change_both(&c->change);
        bool single = c->kind == CALL_RUN && c->number <= 64;
        uint64_t turns = single ? c->number : 1, answer = 0;
        for (uint64_t j = 0; j < turns && answer == 0; j++)
            answer = call_both(c, single ? 1 : c->number);
        if (answer == 1000)
            return false;
    }
    return true;
}

void try_demand_3(void)
{
    static struct scenario s;
    for (uint64_t i = 0; i < SCENARIOS; i++) {
        make_scenario(&s, SEED, i);
        size_t lines = s.lengths.memory / 64;
        if (s.lengths.memory % 64 != 0 || lines < 2 || lines > 1024 || s.lengths.macs != s.lengths.memory / 4)
            continue;
        size_t slots = i % 2 == 0 ? 1 + i / 2 % SLOTS_AT_MOST : 1 + i / 2 % 8;
        start(&s, slots);
        bool agrees = scenario_agrees(&s);
        expect(agrees, "demand 3 at random");
        if (!agrees)
            printf("  scenario %" PRIu64 " with %zu slots\n", i, slots);
    }
}
