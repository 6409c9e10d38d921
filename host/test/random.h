/* random.h: numbers at random, always the same ones. */
#ifndef RANDOM_H
#define RANDOM_H

#include <stdint.h>

uint32_t any(void);
uint32_t below(uint32_t n);
int one_in(uint32_t n);

/* Small numbers mostly, numbers that a cell or a place may have, and the ends of ranges. */
int32_t any_value(void);

/* A pool without $0. */
uint64_t any_pool(void);

#endif
