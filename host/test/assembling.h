/* assembling.h: codes that are built instruction by instruction. */
#ifndef ASSEMBLING_H
#define ASSEMBLING_H

#include <stddef.h>
#include <stdint.h>

#include "machines.h"
#include "paper.h"

enum { MOST_BUILT = 2048 };

struct built {
    int32_t words[INSTRUCTION * MOST_BUILT];
    size_t count;
};

void append(struct built *b, const int32_t words[INSTRUCTION]);
struct code code_of(const struct built *b);

/* So many nops, to be freed, and another instruction at a place of them. */
int32_t *nops(size_t instructions);
void set_at(int32_t *code, size_t place, const int32_t words[INSTRUCTION]);

/* An instruction, and a code that is an array of them. */
#define WORDS(...) ((const int32_t[INSTRUCTION]){__VA_ARGS__})
#define CODE(array) ((struct code){(array)[0], sizeof(array) / sizeof(int32_t)})

#endif
