/* codes.h: the codes that are listed, of any number of instructions. */
#ifndef CODES_H
#define CODES_H

#include <stdint.h>

/* The code of three rules that bench/run runs, again and again, each with its labels where it stands. */
void compiled_code(int32_t *code, uint32_t instructions);

/* Jumps and branches alone, each to a line of its own, so that every line is named; as many as a power of two. */
void jumps(int32_t *code, uint32_t instructions);

#endif
