/* The differ: every field of the record and every byte of what is lent is compared, and what changed is written. */
#include "telling.h"

#include <inttypes.h>
#include <stdio.h>
#include <string.h>

#include "fields.h"

/* How many words of a line differ, and the last of them. */
static size_t words_differ(const uint8_t *one, const uint8_t *other, size_t *last)
{
    size_t number = 0;
    for (size_t i = 0; i < LINE_BYTES; i += 8)
        if (memcmp(one + i, other + i, 8) != 0) {
            number++;
            *last = i;
        }
    return number;
}

/* Writes the one word of a line that changed, with its address, or that the line changed. */
static bool tell_line(const char *name, const uint8_t *before, const uint8_t *after, size_t line)
{
    size_t last, changed = words_differ(before, after, &last);
    if (changed == 1)
        printf("%s %zu holds 0x%" PRIx64 ", ", name, LINE_BYTES * line + last, word_at(after + last));
    else if (changed > 1)
        printf("%s line %zu changed, ", name, line);
    return changed > 0;
}

static bool tell_memory(const struct board *before, const struct board *after)
{
    bool changed = false;
    for (size_t line = 0; line < after->lengths[MEMORY] / LINE_BYTES; line++)
        changed |= tell_line("memory", before->memory + LINE_BYTES * line, after->memory + LINE_BYTES * line, line);
    return changed;
}

static bool tell_macs(const struct board *before, const struct board *after)
{
    bool changed = false;
    for (size_t line = 0; line < after->lengths[MACS] / MAC_BYTES; line++)
        if (memcmp(before->macs + MAC_BYTES * line, after->macs + MAC_BYTES * line, MAC_BYTES) != 0) {
            printf("MAC %zu changed, ", line);
            changed = true;
        }
    return changed;
}

/* The parts of a directory number. */
static size_t line_of(uint32_t number)
{
    return number >> 4;
}

static unsigned tag_of(uint32_t number)
{
    return number >> 1 & 3;
}

static bool dirty(uint32_t number)
{
    return number >> 3 & 1;
}

/* Writes what a directory number says of its slot. */
static void tell_number(size_t slot, uint32_t number)
{
    printf("slot %zu", slot);
    if (number == 0) {
        printf(" empty, ");
        return;
    }
    printf(" line %zu", line_of(number));
    if (tag_of(number) != TAG_NONE)
        printf(" tag %u", tag_of(number));
    printf(dirty(number) ? " dirty, " : " clean, ");
}

/*
 * Whether a slot with another occupant than before holds what it must: zeros where it is empty, else memory's line, opened where it is sealed,
 * but for a word that each step may have stored where it is dirty.
 */
static bool slot_right(const struct board *b, size_t slot)
{
    uint32_t number = b->directory[slot];
    uint64_t address = LINE_BYTES * line_of(number);
    uint8_t line[LINE_BYTES] = {0};
    size_t last;
    if (address + LINE_BYTES > b->lengths[MEMORY])
        return false;
    if (number != 0)
        memcpy(line, b->memory + address, LINE_BYTES);
    if (tag_of(number) == TAG_DATA)
        machine_under_test.open(b->record.drk, address, line, LINE_BYTES, b->macs + MAC_BYTES * line_of(number), MAC_BYTES);
    return words_differ(line, b->cache + LINE_BYTES * slot, &last) <= (dirty(number) ? b->out.steps : 0);
}

/* One slot: its number, and the words that changed where it holds the line that it held. */
static bool tell_slot(const struct board *before, const struct board *after, size_t slot)
{
    uint32_t was = before->directory[slot], is = after->directory[slot];
    bool same_occupant = line_of(was) == line_of(is) && was % 8 == is % 8;
    char name[32];
    snprintf(name, sizeof name, "slot %zu word", slot);
    if (was != is)
        tell_number(slot, is);
    if (!same_occupant && !slot_right(after, slot))
        printf("with other bytes than it must have, ");
    return (same_occupant && tell_line(name, before->cache + LINE_BYTES * slot, after->cache + LINE_BYTES * slot, line_of(is))) || was != is;
}

static bool tell_slots(const struct board *before, const struct board *after)
{
    bool changed = false;
    for (size_t slot = 0; slot < after->lengths[DIRECTORY]; slot++)
        changed |= tell_slot(before, after, slot);
    return changed;
}

/* Writes whether a part is as before. */
static void tell_part(const char *name, const struct board *before, const struct board *after, enum part part)
{
    printf("%s %s, ", name, same_part(before, after, part) ? "as before" : "changed");
}

/* The two buffers of a transfer, whose bytes count from 0. */
static bool tell_transfer(const struct board *before, const struct board *after)
{
    bool whole_line = after->lengths[TRANSFER] == LINE_BYTES;
    bool line_same = same_part(before, after, TRANSFER), mac_same = same_part(before, after, MAC);
    if (whole_line)
        tell_line("buffer", before->transfer, after->transfer, 0);
    else if (!line_same)
        tell_part("transfer buffer", before, after, TRANSFER);
    if (!mac_same)
        tell_part("MAC buffer", before, after, MAC);
    return !line_same || !mac_same;
}

/* Everything that changed, line by line and slot by slot. */
static void tell_changes(const struct board *before, const struct board *after)
{
    const size_t *lengths = after->lengths;
    if (lengths[MEMORY] % LINE_BYTES != 0 || lengths[MACS] % MAC_BYTES != 0 || lengths[CACHE] != LINE_BYTES * lengths[DIRECTORY])
        stop("lengths that are no lines or slots are told by the buffer", "");
    bool changed = tell_fields(&before->record, &after->record);
    changed |= tell_memory(before, after);
    changed |= tell_macs(before, after);
    changed |= tell_slots(before, after);
    changed |= tell_transfer(before, after);
    if (!changed)
        printf("nothing changed, ");
}

/* The record's fields that changed, and of each buffer whether it did. */
static void tell_buffers(const struct board *before, const struct board *after)
{
    if (!tell_fields(&before->record, &after->record))
        printf("record as before, ");
    tell_part("memory", before, after, MEMORY);
    tell_part("MAC area", before, after, MACS);
    tell_part("data bytes", before, after, CACHE);
    tell_part("directory", before, after, DIRECTORY);
    tell_transfer(before, after);
}

/* The answer; and the steps and the counts but of a call that has none. */
static void tell_outcome(const struct outcome *out, bool answer_alone)
{
    static const struct outcome nothing;
    const uint64_t *counts = &out->counts.filled;
    printf("answer %" PRIu64, out->answer);
    if (!answer_alone || out->steps != 0 || memcmp(&out->counts, &nothing.counts, sizeof out->counts) != 0) {
        printf(", steps %" PRIu64 ", counts", out->steps);
        for (size_t i = 0; i < sizeof out->counts / sizeof *counts; i++)
            printf(" %" PRIu64, counts[i]);
    }
    printf("\n");
}

/* What a machine call changed. */
static void tell_machine(const struct board *before, const struct board *after)
{
    if (after->kind == CALL_BUS_READ && after->lengths[TRANSFER] != LINE_BYTES)
        tell_part("transfer buffer", before, after, TRANSFER);
    if (after->by_the_buffer)
        tell_buffers(before, after);
    else
        tell_changes(before, after);
}

/* What a call of the depot changed. */
static void tell_depot(const struct board *before, const struct board *after)
{
    tell_part("line", before, after, TRANSFER);
    if (after->kind != CALL_SIGN)
        tell_part("MAC", before, after, MAC);
}

void tell(const struct board *before, const struct board *after)
{
    bool depot = of_depot(after->kind), listing = after->kind == CALL_LIST_SLOTS;
    if (depot)
        tell_depot(before, after);
    else if (!listing)
        tell_machine(before, after);
    tell_outcome(&after->out, depot || listing);
}
