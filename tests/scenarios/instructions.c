/* The table of instructions: how each is written, and where its numbers go in the word (document 01, 'Instruction words'). */
#include "instructions.h"

#include "host.h"
#include "match.h"

/* A pattern's numbers are, in turn, the fields that the letters name. */
static const struct {
    uint32_t opcode;
    const char *pattern, *letters;
} instructions[] = {
    {1, "add R#,R#,R#", "abc"},
    {2, "sub R#,R#,R#", "abc"},
    {3, "and R#,R#,R#", "abc"},
    {4, "or R#,R#,R#", "abc"},
    {5, "xor R#,R#,R#", "abc"},
    {6, "addi R#,R#,#", "abi"},
    {7, "clz R#,R#", "ab"},
    {8, "beq R#,R#,#", "abi"},
    {9, "jr R#", "a"},
    {10, "load R#,#(R#)", "aib"},
    {11, "store R#,#(R#)", "aib"},
    {12, "epc.get R#", "a"},
    {13, "epc.set R#", "a"},
    {14, "cause.get R#", "a"},
    {15, "ctx.set R#,R#", "ab"},
    {16, "rfi", ""},
    {32, "drk.set R#,R# sel #", "abs"},
    {33, "drk.lock", ""},
    {34, "drk.derive R#,R#", "ab"},
    {35, "srh.get", ""},
    {36, "srh.set", ""},
    {37, "gr.get R#,R# sel #", "abs"},
    {38, "gr.set R# sel #", "as"},
    {39, "begin_cem.a", ""},
    {40, "end_cem", ""},
    {41, "secure_load R#,#(R#)", "aib"},
    {42, "secure_store R#,#(R#)", "aib"},
    {43, "begin_cem.u", ""},
    {0, "opcode #", "o"},
    {0, ".word #", "w"},
};

/* The fields by their letters; w is the whole word. */
static const struct {
    char letter;
    unsigned shift, bits;
} places[] = {{'a', 21, 5}, {'b', 16, 5}, {'c', 11, 5}, {'i', 0, 16}, {'s', 0, 3}, {'o', 26, 6}, {'w', 0, 32}};

/* A number in its field; only imm may be negative. */
static uint32_t placed(char letter, uint64_t number, const char *text)
{
    size_t i = 0;
    while (places[i].letter != letter)
        i++;
    uint64_t most = (UINT64_C(1) << places[i].bits) - 1;
    bool negative = letter == 'i' && -number <= UINT64_C(1) << 15;
    if (number > most && !negative)
        stop("a number does not fit into its field", text);
    return (uint32_t)((number & most) << places[i].shift);
}

bool instruction_word(const char *text, uint32_t *word)
{
    struct found found;
    for (size_t i = 0; i < sizeof instructions / sizeof instructions[0]; i++)
        if (matches(text, instructions[i].pattern, &found)) {
            *word = instructions[i].opcode << 26;
            for (size_t j = 0; instructions[i].letters[j] != '\0'; j++)
                *word |= placed(instructions[i].letters[j], found.numbers[j], text);
            return true;
        }
    return false;
}
