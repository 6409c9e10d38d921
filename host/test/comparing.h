/* comparing.h: the library beside plain C, and a run beside its single steps. */
#ifndef COMPARING_H
#define COMPARING_H

#include "compiling.h"
#include "machines.h"

/* How often each refusal, fault and ending was met. */
extern unsigned long refused[REFUSAL_COUNT + 1], faulted[FAULT_COUNT + 1], ended[ENDINGS];

/* Compiles a rule in the scope's numbers by plain C, and in the header's by the library. What it gives stands until the next call. */
const struct compiled *compile_both(const struct rule *r, uint64_t pool, size_t code_words);

/* Runs by the library and by plain C; the library's machine and answer are left. */
void run_both(struct code code, struct machine *m, uint32_t budget, uint32_t answer[ANSWER]);

/* Single steps under a budget do what a run does. */
void steps_as_run(struct code code, const struct machine *start, uint32_t budget);

/* An unfinished run that is resumed does what one run does. */
void resumed_as_run(struct code code, const struct machine *start, uint32_t first, uint32_t second);

/* A machine with anything in its registers and its memory. */
struct machine any_machine(size_t cells);

#endif
