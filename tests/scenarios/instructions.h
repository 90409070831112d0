/* Instructions as text. */
#ifndef SCENARIOS_INSTRUCTIONS_H
#define SCENARIOS_INSTRUCTIONS_H

#include <stdbool.h>
#include <stdint.h>

/* The word of an instruction, as in `load R3,8(R1)`; false where a text is none. */
bool instruction_word(const char *text, uint32_t *word);

#endif
