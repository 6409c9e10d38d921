/* lengths.c: refusals 13 and 14 at each boundary, of run and of step. */
#include <stdlib.h>

#include "compiling.h"
#include "lent.h"
#include "machines.h"
#include "subjects.h"

/* A machine with no word that is 0, but for the place where the code is to be run. */
static struct machine sized_machine(size_t cells, int taken)
{
    struct machine m = machine_of(cells);
    for (int k = 0; k < REGISTER_COUNT; k++)
        m.registers[k] = k + 1;
    for (size_t i = 0; i < cells; i++)
        m.memory[i] = (int32_t)i + 1;
    *m.place = taken ? 0 : 1;
    return m;
}

/* A run of two nops, or a step of one, on so many cells: refused with this number, or taken if it is 0. */
static void sized_at(uint32_t steps, struct code code, size_t cells, uint32_t number, struct where where)
{
    int taken = number == SAUSKINNA_ACCEPTED;
    struct machine m = sized_machine(cells, taken), expected = copy_of(&m);
    struct lent lent_answer = lend(NULL, ANSWER);
    uint32_t *answer = (uint32_t *)lent_answer.words, ending = steps == 1 ? SAUSKINNA_WENT_ON : SAUSKINNA_UNFINISHED;
    if (taken)
        *expected.place = steps;
    same_at(steps == 1 ? step_machine(code, &m, answer) : run_machine(code, &m, steps, answer), number, "what is returned", where);
    answers_at(answer, taken ? ending : 0, 0, taken ? steps : 0, where);
    check_at(kept_beyond(&lent_answer, ANSWER), "nothing beyond the answer changes", where);
    check_at(same_machine(&m, &expected), taken ? "only the place changes" : "a refusal changes nothing", where);
    give_back(&lent_answer);
    end_machine(&m);
    end_machine(&expected);
}

static void sizes_at(size_t code_words, size_t cells, uint32_t number, struct where where)
{
    int32_t *nops = calloc(code_words + 1, sizeof(int32_t));
    if (nops == NULL)
        give_up("no memory");
    for (size_t i = 0; i < code_words; i += INSTRUCTION)
        nops[i] = SAUSKINNA_NOP;
    struct lent code = lend(nops, code_words);
    sized_at(2, (struct code){code.words, code.count}, cells, number, where);
    sized_at(1, (struct code){code.words, code.count}, cells, number, where);
    check_at(kept(&code), "the code is kept", where);
    give_back(&code);
    free(nops);
}

#define SIZES(code_words, cells, number) sizes_at((code_words), (cells), (number), HERE)

void test_lengths(void)
{
    SIZES(8, 0, SAUSKINNA_ACCEPTED);
    SIZES(8, SAUSKINNA_CELLS, SAUSKINNA_ACCEPTED);
    SIZES(SAUSKINNA_CODE_WORDS, 0, SAUSKINNA_ACCEPTED);
    SIZES(SAUSKINNA_CODE_WORDS, SAUSKINNA_CELLS, SAUSKINNA_ACCEPTED);
    SIZES(SAUSKINNA_CODE_WORDS, SAUSKINNA_CELLS + 1, SAUSKINNA_REFUSED_MEMORY);
    for (size_t more = 1; more <= INSTRUCTION; more++) {
        SIZES(SAUSKINNA_CODE_WORDS + more, 0, SAUSKINNA_REFUSED_CODE_WORDS);
        SIZES(SAUSKINNA_CODE_WORDS + more, SAUSKINNA_CELLS + 1, SAUSKINNA_REFUSED_CODE_WORDS);
    }
    for (size_t less = 1; less < INSTRUCTION; less++) {
        SIZES(SAUSKINNA_CODE_WORDS - less, 0, SAUSKINNA_REFUSED_CODE_WORDS);
        SIZES(less, 1, SAUSKINNA_REFUSED_CODE_WORDS);
    }
    SIZES(7, SAUSKINNA_CELLS + 1, SAUSKINNA_REFUSED_CODE_WORDS);
    SIZES(0, SAUSKINNA_CELLS + 1, SAUSKINNA_REFUSED_MEMORY);
}
