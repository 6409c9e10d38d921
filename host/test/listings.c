/* listings.c: code at random, of up to 65,536 instructions, listed by the library and by the test. */
#include <stdlib.h>

#include "lent.h"
#include "printing.h"
#include "random.h"
#include "subjects.h"
#include "texts.h"

enum { CASES = 4000, LARGE_CODES = 10, FEW_INSTRUCTIONS = 40 };

static int32_t any_operand(char operand, uint32_t instructions)
{
    switch (operand) {
    case 'r': return (int32_t)below(REGISTER_COUNT);
    case 'l': return (int32_t)below(instructions);
    case 'n': return one_in(2) ? any_value() : (int32_t)any();
    default: return 0;
    }
}

/* A code that can be listed, in the scope's numbers. */
static int32_t *any_lines(uint32_t instructions)
{
    int32_t *words = guarded(INSTRUCTION * (size_t)instructions + 1);
    for (int32_t *at = words; at < words + INSTRUCTION * (size_t)instructions; at += INSTRUCTION) {
        at[0] = (int32_t)below(OPERATIONS);
        for (int word = 1; word < INSTRUCTION; word++)
            at[word] = any_operand(operands[at[0]][word - 1], instructions);
    }
    return words;
}

/* Most are listed; in some, a word or more is any other. */
static void any_code(uint32_t instructions)
{
    int32_t *words = any_lines(instructions);
    struct code code = {words, INSTRUCTION * (size_t)instructions};
    if (one_in(4))
        for (uint32_t changes = below(4); code.count > 0 && changes > 0; changes--)
            words[below((uint32_t)code.count)] = any_value();
    ALL_AS_PRINTED(code);
    AS_PRINTED(code, below(12 * instructions + 1));
    free(words);
}

static void small_code(void)
{
    any_code(below(FEW_INSTRUCTIONS));
}

static void large_code(void)
{
    any_code(one_in(3) ? INSTRUCTION_LIMIT : 1 + below(INSTRUCTION_LIMIT));
}

void test_listings(void)
{
    many(small_code, CASES);
    many(large_code, LARGE_CODES);
}
