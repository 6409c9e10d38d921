/* machines.h: a place, registers and memory that are lent to a run or a step. */
#ifndef MACHINES_H
#define MACHINES_H

#include <stddef.h>
#include <stdint.h>

#include "checks.h"
#include "paper.h"

struct code {
    const int32_t *words;
    size_t count;
};

/* All of a machine lies in one block, with guards around each of its parts. */
struct machine {
    int32_t *block;
    size_t block_words;
    uint32_t *place;
    int32_t *registers;
    int32_t *memory;
    size_t cells;
};

/* A machine whose words are all 0, and a copy of one. Each is to be ended. */
struct machine machine_of(size_t cells);
struct machine copy_of(const struct machine *m);
void end_machine(struct machine *m);

/* Whether two machines of as many cells hold the same, their guards too. */
int same_machine(const struct machine *m, const struct machine *n);

/* The library's run and step. */
uint32_t run_machine(struct code code, struct machine *m, uint32_t budget, uint32_t answer[ANSWER]);
uint32_t step_machine(struct code code, struct machine *m, uint32_t answer[ANSWER]);

/* A run that is taken, with this ending, fault and number of steps. */
void run_at(struct code code, struct machine *m, uint32_t budget, uint32_t ending, uint32_t fault, uint32_t steps,
            struct where where);

#define RUN(code, machine, budget, ending, fault, steps) run_at((code), (machine), (budget), (ending), (fault), (steps), HERE)

#endif
