/* direct.h: what the two direct forms of a run in C (switch.c, goto.c) have in common. */
#ifndef DIRECT_H
#define DIRECT_H

#include <stdint.h>

static inline uint32_t say(uint32_t answer[3], uint32_t first, uint32_t second, uint32_t third, uint32_t number)
{
    answer[0] = first;
    answer[1] = second;
    answer[2] = third;
    return number;
}

/* An address that is negative or does not fit is above every count of cells. */
static inline uint64_t address_of(uint32_t base, uint32_t index)
{
    return (uint64_t)((int64_t)(int32_t)base + (int32_t)index);
}

/* The checks of an instruction that has a result; REQUIRE is the form's own. */
#define REQUIRE_RESULT(numbers) \
    do { \
        REQUIRE((numbers) < SAUSKINNA_REGISTERS, SAUSKINNA_FAULT_INSTRUCTION); \
        REQUIRE(a != 0, SAUSKINNA_FAULT_ZERO); \
    } while (0)

#endif
