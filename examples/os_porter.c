/* The OS porter's way: the cache is kept from run to run, lines are dropped at will, and only the counts tell the difference.
 *
 * Build it from the repository's root once `rt lib` has made the library in crates/board:
 *     gcc -O2 -Iinclude examples/os_porter.c crates/board/out/libboard.a -o os_porter && ./os_porter */
#include <inttypes.h>
#include <stdio.h>
#include <stdlib.h>

#include "hq_board.h"

enum { MEMORY = 1024, SLOTS = 4, PROGRAM = 2, DATA = 5 };

/* The board that the host owns: one record, and the four buffers that every call borrows. */
static struct hq_processor processor;
static uint8_t memory[MEMORY], macs[MEMORY / 4], cache[SLOTS * HQ_LINE_BYTES];
static uint32_t directory[SLOTS];
#define BOARD &processor, memory, sizeof memory, macs, sizeof macs, cache, sizeof cache, directory, SLOTS

/* An instruction word of document 01: opcode, a, b, and the low sixteen bits. */
static uint32_t word(unsigned op, unsigned a, unsigned b, unsigned low)
{
    return op << 26 | a << 21 | b << 16 | (low & 0xffff);
}

static void put_word(unsigned address, uint32_t w)
{
    for (unsigned i = 0; i < 4; i++)
        memory[address + i] = (uint8_t)(w >> 8 * i);
}

/* Prints what a call gave; any refusal ends the program. */
static void show(const char *what, struct hq_report x)
{
    if (x.answer > 100) {
        fprintf(stderr, "%s: refused, %" PRIu64 "\n", what, x.answer);
        exit(1);
    }
    printf("%-34s answer %" PRIu64 ", %" PRIu64 " steps, %" PRIu64 " filled, %" PRIu64 " written\n", what, x.answer, x.steps, x.counts.filled, x.counts.written);
}

/* Runs the program from its start. */
static struct hq_report run_again(void)
{
    processor.special.pc = PROGRAM * HQ_LINE_BYTES;
    return hq_run(BOARD, 4);
}

int main(void)
{
    /* add 1 to the counter in line 5, and jump back to the start */
    put_word(PROGRAM * HQ_LINE_BYTES, word(10, 1, 2, 0));     /* load R1 at R2 */
    put_word(PROGRAM * HQ_LINE_BYTES + 4, word(6, 1, 1, 1));  /* addi R1, R1, 1 */
    put_word(PROGRAM * HQ_LINE_BYTES + 8, word(11, 1, 2, 0)); /* store R1 at R2 */
    put_word(PROGRAM * HQ_LINE_BYTES + 12, word(9, 3, 0, 0)); /* jr R3 */
    processor.r[2] = DATA * HQ_LINE_BYTES;
    processor.r[3] = PROGRAM * HQ_LINE_BYTES;

    show("first run, nothing cached", run_again());
    show("again, cache kept", run_again());
    printf("the counter in memory is still %u: the line is dirty in its slot\n", memory[DATA * HQ_LINE_BYTES]);
    show("the counter's line is dropped", hq_evict_line(BOARD, DATA));
    printf("now memory has it: %u\n", memory[DATA * HQ_LINE_BYTES]);
    show("again, one line to fetch", run_again());
    show("everything is written back", hq_write_back(BOARD));
    printf("three runs, counter %u, registers as without a cache: R1 = %" PRIu64 "\n", memory[DATA * HQ_LINE_BYTES], processor.r[1]);
    return 0;
}
