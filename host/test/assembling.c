/* assembling.c: builds codes from instructions. */
#include "assembling.h"

#include <stdlib.h>
#include <string.h>

#include "lent.h"
#include "sauskinna.h"

void append(struct built *b, const int32_t words[INSTRUCTION])
{
    if (b->count == INSTRUCTION * MOST_BUILT)
        give_up("a code of the test is too long");
    memcpy(b->words + b->count, words, bytes(INSTRUCTION));
    b->count += INSTRUCTION;
}

struct code code_of(const struct built *b)
{
    return (struct code){b->words, b->count};
}

int32_t *nops(size_t instructions)
{
    int32_t *code = calloc(INSTRUCTION * instructions, sizeof(int32_t));
    if (code == NULL)
        give_up("no memory");
    for (size_t i = 0; i < instructions; i++)
        code[INSTRUCTION * i] = SAUSKINNA_NOP;
    return code;
}

void set_at(int32_t *code, size_t place, const int32_t words[INSTRUCTION])
{
    memcpy(code + INSTRUCTION * place, words, bytes(INSTRUCTION));
}
