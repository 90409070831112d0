/* The values that a text shows between < and >: a field of the record with its name, or one of the table. */
#include "telling.h"

#include <inttypes.h>
#include <stdio.h>

#include "fields.h"
#include "match.h"

static void write_instruction(const struct board *b, uint64_t number)
{
    (void)number;
    printf("%08" PRIx32, b->word);
}

static void write_answer(const struct board *b, uint64_t number)
{
    (void)number;
    printf("%" PRIu64, b->out.answer);
}

static void write_word(const struct board *b, uint64_t number)
{
    printf("0x%" PRIx64, word_at(b->transfer + number % LINE_BYTES));
}

/* Sixteen bytes as they stand. */
static void write_sixteen(const uint8_t *bytes)
{
    for (size_t i = 0; i < 16; i++)
        printf("%02x", bytes[i]);
}

static void write_line_bytes(const struct board *b, uint64_t number)
{
    write_sixteen(b->transfer + number % LINE_BYTES);
}

static void write_mac(const struct board *b, uint64_t number)
{
    (void)number;
    write_sixteen(b->mac);
}

/* The byte that the whole transfer buffer holds, where it is one. */
static void write_every_byte(const struct board *b, uint64_t number)
{
    (void)number;
    for (size_t i = 1; i < b->lengths[TRANSFER]; i++)
        if (b->transfer[i] != b->transfer[0]) {
            printf("bytes that differ");
            return;
        }
    printf("0x%02x in every byte", b->transfer[0]);
}

static void write_row(const struct board *b, uint64_t number)
{
    const struct line_record *r = &b->row[number % SLOTS_ROOM];
    printf("used %" PRIu32 ", line %" PRIu32 ", tag %" PRIu32 ", dirty %" PRIu32, r->used, r->line, r->tag, r->dirty);
}

static const struct {
    const char *pattern;
    void (*write)(const struct board *b, uint64_t number);
} values[] = {
    {"instruction", write_instruction},
    {"answer", write_answer},
    {"word at # of the buffer", write_word},
    {"16 bytes at # of the buffer", write_line_bytes},
    {"16 bytes of the MAC", write_mac},
    {"the buffer", write_every_byte},
    {"record # of the row", write_row},
};

void write_value(const struct board *b, const char *name)
{
    struct found found = {0};
    for (size_t i = 0; i < sizeof values / sizeof values[0]; i++)
        if (matches(name, values[i].pattern, &found)) {
            values[i].write(b, found.numbers[0]);
            return;
        }
    if (!write_field(&b->record, name))
        stop("there is no such value", name);
}
