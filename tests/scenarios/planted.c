/* A machine that errs, to try the scenarios on: the second model with a byte turned in what a call gives. */
#include "compare.h"

#include <stdlib.h>

#include "model.c"

/* Turns a bit of byte n of a part at the nth call that gives it, where PLANTED names the part. Behind its last byte: status 3, or
   nothing where PLANTED_ONCE is set, so that the text must show the error. */
static void err(const char *part, void *bytes, size_t length)
{
    static size_t at;
    const char *planted = getenv("PLANTED");
    if (planted == NULL || strcmp(planted, part) != 0)
        return;
    if (at < length)
        ((uint8_t *)bytes)[at++] ^= 1;
    else if (getenv("PLANTED_ONCE") == NULL)
        exit(3);
}

static struct outcome err_run(struct board_record *r, const struct lent *l, uint64_t n)
{
    struct outcome out = run(r, l, n);
    err("outcome", &out, sizeof out);
    err("record", r, sizeof *r);
    err("memory", l->memory, l->memory_length);
    err("macs", l->macs, l->macs_length);
    err("cache", l->cache, l->cache_length);
    err("directory", l->directory, 4 * l->directory_length);
    err("behind memory", l->memory + l->memory_length, 1);
    err("behind macs", l->macs + l->macs_length, 1);
    err("behind cache", l->cache + l->cache_length, 1);
    err("behind directory", l->directory + l->directory_length, 1);
    return out;
}

static struct outcome err_bus_read(struct board_record *r, const struct lent *l, uint64_t line, uint8_t *transfer, size_t length)
{
    struct outcome out = bus_read(r, l, line, transfer, length);
    err("transfer", transfer, length);
    err("behind transfer", transfer + length, 1);
    return out;
}

static struct outcome err_list_slots(struct board_record *r, const struct lent *l, struct line_record *row, size_t length)
{
    struct outcome out = list_slots(r, l, row, length);
    err("row", row, length * sizeof *row);
    err("record listed", r, sizeof *r);
    return out;
}

static uint64_t err_sign(const uint64_t drk[2], uint64_t address, uint8_t *line, size_t length)
{
    uint64_t answer = depot_sign(drk, address, line, length);
    err("signed", line, length);
    return answer;
}

static uint64_t err_seal(const uint64_t drk[2], uint64_t address, uint8_t *line, size_t length, uint8_t *mac, size_t mac_length)
{
    uint64_t answer = depot_seal(drk, address, line, length, mac, mac_length);
    err("sealed", line, length);
    err("sealed MAC", mac, mac_length);
    return answer;
}

static uint64_t err_open(const uint64_t drk[2], uint64_t address, uint8_t *line, size_t length, const uint8_t *mac, size_t mac_length)
{
    uint64_t answer = depot_open(drk, address, line, length, mac, mac_length);
    err("opened", line, length);
    return answer;
}

const struct board_calls machine_under_test = {
    err_run, interrupt, err_bus_read, bus_write, bus_write_mac, evict_line, write_back, reboot, power_cut,
    err_list_slots, err_sign, err_seal, err_open,
};
