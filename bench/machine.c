/* Measures runs of the machine beside the second model, in turn, on boards with the same contents, and prints a table in Markdown. */
#include <stdio.h>
#include <stdlib.h>
#include <string.h>
#include <time.h>

#include "../tests/second/lines.h"
#include "../tests/second/model.h"
#include "hq_board.h"

enum { MEMORY = 65536, SLOTS = 64, CODE = 128, DATA = 1024, PROGRAM = 36, ROUNDS = 3000 };

/* A board, the record as each of the two keeps it, and what the last call gave. */
struct board {
    uint8_t memory[MEMORY];
    uint8_t macs[MEMORY / 4];
    uint8_t cache[SLOTS * LINE_BYTES];
    uint32_t directory[SLOTS];
    struct hq_processor house;
    struct board_record model;
    struct outcome out;
};

/* A piece of work: a program in a mode, the instructions and the calls of a round, and what a figure of the table is about. */
struct work {
    const char *what;
    const uint32_t *program;
    unsigned mode;
    uint64_t n;
    unsigned calls;
    unsigned units;
    uint32_t slots;
    uint32_t held; /* so many slots hold lines at the start that the program does not touch */
    int emptied;   /* every slot is emptied before each call, and the record put back */
};

static const uint64_t drk[2] = {0x0123456789abcdef, 0xfedcba9876543210};

#define WORD(op, a, b, low) ((uint32_t)(op) << 26 | (uint32_t)(a) << 21 | (uint32_t)(b) << 16 | ((uint32_t)(low) & 0xffff))
#define ADD(a, b, c) WORD(1, a, b, (c) << 11)
#define XOR(a, b, c) WORD(5, a, b, (c) << 11)
#define ADDI(a, b, imm) WORD(6, a, b, imm)
#define BEQ(a, b, imm) WORD(8, a, b, imm)

/* Ten instructions in a loop on two data lines, whose start is in R10; the opcodes of load and store are those for plain or for secure data. */
#define LOOP(load, store) \
    {WORD(load, 1, 10, 0), WORD(load, 2, 10, 64), ADD(3, 1, 2), WORD(store, 3, 10, 8), ADDI(4, 4, 1), WORD(load, 5, 10, 16), ADD(6, 5, 4), \
     WORD(store, 6, 10, 72), XOR(7, 6, 3), BEQ(0, 0, -9)}
static const uint32_t plain_loop[PROGRAM] = LOOP(10, 11);
static const uint32_t secure_loop[PROGRAM] = LOOP(41, 42);

/* Three code lines of twelve instructions on four data lines: seven checked fills. */
#define PART(i, j) \
    WORD(41, 1, 10, 64 * (i)), ADDI(2, 1, 5), ADD(3, 3, 2), WORD(42, 3, 10, 64 * (i) + 8), WORD(41, 4, 10, 64 * (j)), ADD(5, 4, 3), \
        XOR(6, 5, 2), WORD(42, 6, 10, 64 * (j) + 16), ADDI(7, 7, 1), ADD(8, 7, 6), XOR(9, 8, 1), ADDI(11, 9, -1)
static const uint32_t module[PROGRAM] = {PART(0, 1), PART(1, 2), PART(2, 3)};

/* Each call of a round with n = 0 or 1 is the entry with its checks, and at most one instruction. */
#define ENTRY(what, n, slots, held) {what, plain_loop, NORMAL, n, 100, 100, slots, held, 0}
static const struct work works[] = {
    {"a warm step, normal mode", plain_loop, NORMAL, 10000, 1, 10000, 64, 0, 0},
    {"a warm step, active mode", secure_loop, ACTIVE, 10000, 1, 10000, 64, 0, 0},
    {"a cold run: 36 steps, 7 checked fills", module, ACTIVE, 36, 20, 20, 64, 0, 1},
    ENTRY("a call with n = 0, 3 of 16 slots in use", 0, 16, 3),
    ENTRY("a call with n = 0, 16 of 16 slots in use", 0, 16, 16),
    ENTRY("a call with n = 0, 3 of 64 slots in use", 0, 64, 3),
    ENTRY("a call with n = 0, 64 of 64 slots in use", 0, 64, 64),
    ENTRY("a call with n = 1, 3 of 16 slots in use", 1, 16, 0),
    ENTRY("a call with n = 1, 16 of 16 slots in use", 1, 16, 16),
    ENTRY("a call with n = 1, 3 of 64 slots in use", 1, 64, 0),
    ENTRY("a call with n = 1, 64 of 64 slots in use", 1, 64, 64),
};

/* Twelve instructions to a line from CODE on and data from DATA on, signed and sealed where the mode is active. */
static void fill_board(struct board *b, const struct work *w)
{
    memset(b, 0, sizeof *b);
    for (int i = 0; i < PROGRAM; i++)
        for (int j = 0; j < 4; j++)
            b->memory[CODE + i / 12 * LINE_BYTES + i % 12 * 4 + j] = (uint8_t)(w->program[i] >> 8 * j);
    for (size_t i = DATA; i < MEMORY; i++)
        b->memory[i] = (uint8_t)(i * 7 + i / LINE_BYTES);
    for (uint64_t a = CODE; a < DATA && w->mode == ACTIVE; a += LINE_BYTES)
        code_mac(drk, a, b->memory + a, b->memory + a + 48);
    for (uint64_t a = DATA; a < MEMORY && w->mode == ACTIVE; a += LINE_BYTES)
        seal_line(drk, a, b->memory + a, b->memory + a, b->macs + a / 4);
    for (uint32_t i = 0; i < w->held; i++)
        b->directory[i] = 1 | (i + w->slots * (2 + i % 13)) << 4;
}

static struct hq_processor house_at_start(const struct work *w)
{
    struct hq_processor p = {.special = {.pc = CODE, .drkhi = drk[0], .drklo = drk[1], .mode = (uint8_t)w->mode}};
    p.r[10] = DATA;
    return p;
}

static struct board_record model_at_start(const struct work *w)
{
    struct board_record r = {.pc = CODE, .drk = {drk[0], drk[1]}, .mode = w->mode};
    r.r[10] = DATA;
    return r;
}

/* The calls of a round by this house. */
static void house_round(struct board *b, const struct work *w)
{
    struct hq_report x = {0};
    for (unsigned i = 0; i < w->calls; i++) {
        if (w->emptied) {
            memset(b->directory, 0, sizeof b->directory);
            b->house = house_at_start(w);
        }
        x = hq_run(&b->house, b->memory, MEMORY, b->macs, MEMORY / 4, b->cache, w->slots * LINE_BYTES, b->directory, w->slots,
                   w->n);
    }
    b->out = (struct outcome){x.answer, x.steps, {x.counts.filled, x.counts.written, x.counts.checked, x.counts.made}};
}

/* The calls of a round by the second model. */
static void model_round(struct board *b, const struct work *w)
{
    struct lent lent = {b->memory, MEMORY, b->macs, MEMORY / 4, b->cache, w->slots * LINE_BYTES, b->directory, w->slots};
    for (unsigned i = 0; i < w->calls; i++) {
        if (w->emptied) {
            memset(b->directory, 0, sizeof b->directory);
            b->model = model_at_start(w);
        }
        b->out = model_calls.run(&b->model, &lent, w->n);
    }
}

/* Nanoseconds of a round. */
static double measured(void (*round)(struct board *, const struct work *), struct board *b, const struct work *w)
{
    struct timespec from, to;
    clock_gettime(CLOCK_MONOTONIC, &from);
    round(b, w);
    clock_gettime(CLOCK_MONOTONIC, &to);
    return (double)(to.tv_sec - from.tv_sec) * 1e9 + (double)(to.tv_nsec - from.tv_nsec);
}

/* Ends the program where the two boards differ, or where the work was not the work that is named. */
static void expect_same(const struct board *house, const struct board *model, const struct work *w)
{
    int same = memcmp(house, model, offsetof(struct board, house)) == 0 && memcmp(&house->out, &model->out, sizeof house->out) == 0 &&
               memcmp(house->house.r, model->model.r, sizeof model->model.r) == 0 && house->house.special.pc == model->model.pc;
    int done = model->out.answer == 0 && model->out.steps == w->n && model->out.counts.checked == (w->emptied ? 7 : 0);
    if (same && done)
        return;
    fprintf(stderr, "bench: %s: %s\n", w->what, same ? "something else was done" : "the machines differ");
    exit(1);
}

/* Measures one piece of work and prints its row; the first round of each only warms up. */
static void print_row(const struct work *w)
{
    static struct board house, model;
    double best_house = 1e18, best_model = 1e18;
    fill_board(&house, w);
    fill_board(&model, w);
    house.house = house_at_start(w);
    model.model = model_at_start(w);
    for (int i = 0; i <= ROUNDS; i++) {
        double a = measured(house_round, &house, w), b = measured(model_round, &model, w);
        best_house = i > 0 && a < best_house ? a : best_house;
        best_model = i > 0 && b < best_model ? b : best_model;
    }
    expect_same(&house, &model, w);
    printf("| %s | %.1f | %.1f | %.2f |\n", w->what, best_house / w->units, best_model / w->units, best_model / best_house);
}

/* machine [word]: all rows, or those whose name has the word. */
int main(int argc, char **argv)
{
    printf("| ns | this house | second model | model / house |\n|---|---|---|---|\n");
    for (size_t i = 0; i < sizeof works / sizeof works[0]; i++)
        if (argc < 2 || strstr(works[i].what, argv[1]) != NULL)
            print_row(&works[i]);
    return 0;
}
