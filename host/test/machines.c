/* machines.c: machines in one block of words, and the library's calls on them. */
#include "machines.h"

#include <stdlib.h>
#include <string.h>

#include "compiling.h"
#include "lent.h"

enum { PLACE_AT = GUARD, REGISTERS_AT = PLACE_AT + 1 + GUARD, MEMORY_AT = REGISTERS_AT + REGISTER_COUNT + GUARD };

static struct machine machine_in(int32_t *block, size_t cells)
{
    return (struct machine){block, MEMORY_AT + cells + GUARD, (uint32_t *)block + PLACE_AT, block + REGISTERS_AT,
                            block + MEMORY_AT, cells};
}

struct machine machine_of(size_t cells)
{
    struct machine m = machine_in(guarded(MEMORY_AT + cells + GUARD), cells);
    *m.place = 0;
    memset(m.registers, 0, bytes(REGISTER_COUNT));
    memset(m.memory, 0, bytes(cells));
    return m;
}

struct machine copy_of(const struct machine *m)
{
    int32_t *block = malloc(bytes(m->block_words));
    if (block == NULL)
        give_up("no memory");
    memcpy(block, m->block, bytes(m->block_words));
    return machine_in(block, m->cells);
}

void end_machine(struct machine *m)
{
    free(m->block);
}

int same_machine(const struct machine *m, const struct machine *n)
{
    return memcmp(m->block, n->block, bytes(m->block_words)) == 0;
}

uint32_t run_machine(struct code code, struct machine *m, uint32_t budget, uint32_t answer[ANSWER])
{
    return sauskinna_run(code.words, code.count, m->memory, m->cells, m->place, m->registers, budget, answer);
}

uint32_t step_machine(struct code code, struct machine *m, uint32_t answer[ANSWER])
{
    return sauskinna_step(code.words, code.count, m->memory, m->cells, m->place, m->registers, answer);
}

void run_at(struct code code, struct machine *m, uint32_t budget, uint32_t ending, uint32_t fault, uint32_t steps,
            struct where where)
{
    uint32_t answer[SAUSKINNA_ANSWER_WORDS];
    same_at(run_machine(code, m, budget, answer), SAUSKINNA_ACCEPTED, "the run is taken", where);
    same_at(answer[SAUSKINNA_ANSWER_ENDING], ending, "the run's ending", where);
    same_at(answer[SAUSKINNA_ANSWER_FAULT], fault, "the run's fault", where);
    same_at(answer[SAUSKINNA_ANSWER_STEPS], steps, "the run's steps", where);
}
