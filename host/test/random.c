/* random.c: a shift-register generator with a fixed seed. */
#include "random.h"

#include "paper.h"
#include "rules.h"

uint32_t any(void)
{
    static uint64_t seed = UINT64_C(0x2545f4914f6cdd1d);
    seed ^= seed << 13;
    seed ^= seed >> 7;
    seed ^= seed << 17;
    return (uint32_t)(seed >> 32);
}

uint32_t below(uint32_t n)
{
    return any() % n;
}

int one_in(uint32_t n)
{
    return below(n) == 0;
}

int32_t any_value(void)
{
    static const int32_t ends[] = {
        INT32_MIN, INT32_MIN + 1, -65536, -65535, -1, 0, 1, 63, 64, 1024, 65535, 65536, INT32_MAX - 1, INT32_MAX,
    };
    switch (below(8)) {
    case 0: return ends[below(sizeof ends / sizeof ends[0])];
    case 1: return (int32_t)any();
    case 2: return (int32_t)below(CELL_LIMIT);
    default: return (int32_t)below(12) - 3;
    }
}

static uint64_t any_bits(void)
{
    uint64_t high = any();
    return high << 32 | any();
}

uint64_t any_pool(void)
{
    uint64_t pool = any_bits();
    switch (below(4)) {
    case 0: return ALL_BUT_ZERO;
    case 1: pool &= any_bits(); break;
    case 2: pool = pool_of(1, (int)below(12)); break;
    default: break;
    }
    return pool & ~UINT64_C(1);
}
