/* The one table of the record's fields: how each is called, set, compared and written. */
#include "fields.h"

#include <inttypes.h>
#include <stdio.h>
#include <string.h>

#include "host.h"
#include "match.h"

enum format { DECIMAL, HEXADECIMAL, DIGITS /* all elements as one hexadecimal number */ };

/* More elements of a field than these are not told one by one but by their number; only R0 to R31 are so many. */
enum { TOLD_AT_MOST = 6 };

/* Name, member, how many elements it has, format; in the order in which changes are told. An element's place goes behind the name. */
#define FIELDS(FIELD) \
    FIELD("R", r, 32, HEXADECIMAL) \
    FIELD("pc", pc, 1, DECIMAL) \
    FIELD("EPC", epc, 1, DECIMAL) \
    FIELD("cause", cause, 1, DECIMAL) \
    FIELD("PID", pid, 1, DECIMAL) \
    FIELD("CID", cid, 1, DECIMAL) \
    FIELD("mode", mode, 1, DECIMAL) \
    FIELD("lock", drk_lock, 1, DECIMAL) \
    FIELD("DRK high", drk[0], 1, HEXADECIMAL) \
    FIELD("DRK low", drk[1], 1, HEXADECIMAL) \
    FIELD("SRH ", srh, 4, HEXADECIMAL) \
    FIELD("word ", cem_buffer, 4, HEXADECIMAL) \
    FIELD("Interrupt_Hash", interrupt_hash, 2, DIGITS) \
    FIELD("Interrupt_Address", interrupt_address, 1, DECIMAL) \
    FIELD("saved PID", saved_pid, 1, DECIMAL) \
    FIELD("saved CID", saved_cid, 1, DECIMAL)

#define BYTES(name, member, count, format) + sizeof((struct board_record *)0)->member
_Static_assert(0 FIELDS(BYTES) == sizeof(struct board_record), "every byte of a record is in the table");

static const struct field {
    const char *name;
    size_t offset, size, count;
    enum format format;
} fields[] = {
#define ENTRY(name, member, count, format) \
    {name, offsetof(struct board_record, member), sizeof((struct board_record *)0)->member / (count), count, format},
    FIELDS(ENTRY)
};

enum { FIELD_COUNT = sizeof fields / sizeof fields[0] };

/* Whether an element's place is part of its name. */
static bool numbered(const struct field *f)
{
    return f->count > 1 && f->format != DIGITS;
}

/* An element of a field. */
static uint64_t element(const struct board_record *record, const struct field *f, size_t at)
{
    uint64_t value = 0;
    memcpy(&value, (const uint8_t *)record + f->offset + at * f->size, f->size);
    return value;
}

/* Writes the name of an element and its value; of a number of many digits the whole. */
static void write_element(const struct board_record *record, const struct field *f, size_t at)
{
    printf("%s", f->name);
    if (numbered(f))
        printf("%zu", at);
    if (f->format == DECIMAL)
        printf(" %" PRIu64, element(record, f, at));
    else if (f->format == HEXADECIMAL)
        printf(" 0x%" PRIx64, element(record, f, at));
    for (size_t i = 0; f->format == DIGITS && i < f->count; i++)
        printf("%s%016" PRIx64, i == 0 ? " " : "", element(record, f, i));
}

/* The field whose name a text is, up to a pattern's end, and which element; NULL where there is none. */
static const struct field *field_of(const char *text, const char *end, struct found *found, size_t *at)
{
    for (size_t i = 0; i < FIELD_COUNT; i++) {
        const struct field *f = &fields[i];
        char pattern[40];
        snprintf(pattern, sizeof pattern, "%s%s%s", f->name, numbered(f) ? "#" : "", end);
        if (!matches(text, pattern, found))
            continue;
        *at = numbered(f) ? found->numbers[0] : 0;
        if (*at >= f->count)
            stop("the record has no such element", text);
        return f;
    }
    return NULL;
}

bool set_field(struct board_record *record, const char *statement)
{
    struct found found;
    size_t at;
    const struct field *f = field_of(statement, " #", &found, &at);
    if (f == NULL || f->format == DIGITS)
        return false;
    uint64_t value = found.numbers[numbered(f)];
    memcpy((uint8_t *)record + f->offset + at * f->size, &value, f->size);
    if (element(record, f, at) != value)
        stop("the value does not fit", statement);
    return true;
}

bool write_field(const struct board_record *record, const char *name)
{
    struct found found;
    size_t at;
    const struct field *f = field_of(name, "", &found, &at);
    if (f != NULL)
        write_element(record, f, at);
    return f != NULL;
}

/* Writes what changed of a field, or how many elements did. */
static bool tell_field(const struct board_record *before, const struct board_record *after, const struct field *f)
{
    bool changed[32];
    size_t number = 0;
    for (size_t i = 0; i < f->count; i++) {
        changed[i] = element(before, f, i) != element(after, f, i);
        number += changed[i];
    }
    if (number > TOLD_AT_MOST)
        printf("%zu registers changed, ", number);
    for (size_t i = 0; number <= TOLD_AT_MOST && i < f->count; i++) {
        if (!changed[i])
            continue;
        write_element(after, f, i);
        printf(", ");
        if (f->format == DIGITS)
            break;
    }
    return number > 0;
}

bool tell_fields(const struct board_record *before, const struct board_record *after)
{
    bool changed = false;
    for (size_t i = 0; i < FIELD_COUNT; i++)
        changed |= tell_field(before, after, &fields[i]);
    return changed;
}
