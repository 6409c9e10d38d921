/* codes.c: code at random, of up to 65,536 instructions, run by the library and by plain C, at once and step by step. */
#include <stdlib.h>

#include "comparing.h"
#include "lent.h"
#include "random.h"
#include "subjects.h"

enum { CASES = 20000, LARGE_CODES = 20, RUNS_EACH = 40, FEW_INSTRUCTIONS = 40, FEW_STEPS = 50 };

/* Mostly a well-formed instruction, in the scope's numbers. */
static void any_instruction(int32_t *words, uint32_t instructions)
{
    words[0] = one_in(30) ? any_value() : (int32_t)below(OPERATIONS);
    for (int word = 1; word < INSTRUCTION; word++)
        words[word] = one_in(60) ? any_value() : (int32_t)below(8);
    if (words[0] == HALT || words[0] == NOP)
        words[1] = words[2] = words[3] = one_in(20);
    if (words[0] == JMP)
        words[2] = words[3] = one_in(20);
    if (words[0] == ADDI)
        words[2] = any_value();
    if (words[0] == JMP || words[0] == BNE || words[0] == BEQ)
        words[words[0] == JMP ? 1 : 3] = (int32_t)below(instructions + instructions / 8 + 1);
}

static void run_code(struct code code, uint32_t cells, uint32_t budget)
{
    uint32_t instructions = (uint32_t)code.count / INSTRUCTION, answer[ANSWER];
    struct machine m = any_machine(cells);
    *m.place = one_in(10) ? any() : below(instructions + 1);
    struct machine start = copy_of(&m);
    run_both(code, &m, budget, answer);
    steps_as_run(code, &start, budget < FEW_STEPS ? budget : FEW_STEPS);
    resumed_as_run(code, &start, below(30), budget);
    end_machine(&m);
    end_machine(&start);
}

static void small_code(void)
{
    int32_t words[INSTRUCTION * FEW_INSTRUCTIONS];
    uint32_t instructions = below(FEW_INSTRUCTIONS);
    for (uint32_t i = 0; i < instructions; i++)
        any_instruction(words + INSTRUCTION * i, instructions);
    run_code((struct code){words, INSTRUCTION * (size_t)instructions}, below(40), one_in(4) ? below(2000) : below(120));
}

/* All 65,536 instructions or fewer, with few halts, on memories of all sizes. */
static void large_code(void)
{
    uint32_t instructions = one_in(3) ? INSTRUCTION_LIMIT : 1 + below(INSTRUCTION_LIMIT);
    int32_t *words = guarded(INSTRUCTION * (size_t)instructions);
    for (uint32_t i = 0; i < instructions; i++) {
        any_instruction(words + INSTRUCTION * i, instructions);
        if (words[INSTRUCTION * i] == HALT && !one_in(8))
            words[INSTRUCTION * i] = NOP;
    }
    for (int run = 0; run < RUNS_EACH; run++)
        run_code((struct code){words, INSTRUCTION * (size_t)instructions}, one_in(3) ? CELL_LIMIT : below(CELL_LIMIT), below(2000));
    free(words);
}

void test_codes(void)
{
    many(small_code, CASES);
    many(large_code, LARGE_CODES);
    for (int number = SAUSKINNA_NO_FAULT; number <= SAUSKINNA_FAULT_LABEL; number++)
        CHECK(faulted[number] > 0);
    for (int ending = SAUSKINNA_HALTED; ending <= SAUSKINNA_UNFINISHED; ending++)
        CHECK(ended[ending] > 0);
}
