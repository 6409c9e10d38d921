/* reading.h: a direct reading of a rule's tables, with which the test compares the library. */
#ifndef READING_H
#define READING_H

#include <stddef.h>
#include <stdint.h>

#include "paper.h"

struct tables {
    const int32_t *declarations;
    const int32_t *nodes;
};

/* What the words of each node kind are: v number, s constant or variable, x variable, a array, e expression, c command, - unused. */
extern const char *const shapes[KINDS];

/* Performs the rule whose last row is given on the memory; gives its ending (a fault is that of an address) and its steps. */
uint32_t meaning(const struct tables *t, int32_t row, int32_t *memory, size_t cells, uint32_t budget, uint32_t *steps);

/* The registers that a row needs, and the instructions that it emits. */
uint32_t need_of(const struct tables *t, int32_t row);
uint32_t instructions_of(const struct tables *t, int32_t row);

#endif
