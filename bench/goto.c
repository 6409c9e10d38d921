/* goto.c: a run by computed goto, with one bound for place and budget. At -O2 gcc merges most copies of the jump into one; compiled so that
   each operation keeps its own it is the side 'C threaded', RUN being threaded_run. */
#include "direct.h"
#include "plain.h"
#include "sauskinna.h"

#ifndef RUN
#define RUN goto_run
#endif

/* Labels as values are GNU C. */
#pragma GCC diagnostic ignored "-Wpedantic"

#define REQUIRE(condition, number) \
    do { \
        if (__builtin_expect(!(condition), 0)) { \
            fault = number; \
            goto faulted; \
        } \
    } while (0)

#define DISPATCH() \
    do { \
        const uint32_t *words = (const uint32_t *)code + 4 * p; \
        a = words[1]; \
        b = words[2]; \
        c = words[3]; \
        REQUIRE(words[0] < sizeof table / sizeof table[0], SAUSKINNA_FAULT_INSTRUCTION); \
        goto *table[words[0]]; \
    } while (0)

#define NEXT() \
    do { \
        p++; \
        if (__builtin_expect(p == stop, 0)) \
            goto stopped; \
        DISPATCH(); \
    } while (0)

/* From a place within the code: 'left' is the budget there, 'stop' the place where it or the code ends. */
#define START_AT(to) \
    do { \
        from = p = (to); \
        stop = count - p < left ? count : p + left; \
        if (p == stop) \
            goto stopped; \
        DISPATCH(); \
    } while (0)

#define JUMP(label) \
    do { \
        REQUIRE((label) < count, SAUSKINNA_FAULT_LABEL); \
        left -= p + 1 - from; \
        START_AT(label); \
    } while (0)

uint32_t RUN(const int32_t *restrict code, size_t code_words,
             int32_t *restrict memory, size_t cells, uint32_t *place,
             int32_t registers[restrict 64], uint32_t budget, uint32_t answer[3])
{
    static const void *const table[] = {
        [SAUSKINNA_HALT] = &&halt, [SAUSKINNA_NOP] = &&nop, [SAUSKINNA_ADD] = &&add, [SAUSKINNA_ADDI] = &&addi,
        [SAUSKINNA_SUB] = &&sub, [SAUSKINNA_MUL] = &&mul, [SAUSKINNA_LOAD] = &&load, [SAUSKINNA_STORE] = &&store,
        [SAUSKINNA_JMP] = &&jmp, [SAUSKINNA_BNE] = &&bne, [SAUSKINNA_BEQ] = &&beq, [SAUSKINNA_SLT] = &&slt,
    };
    if (code_words % 4 != 0 || code_words > SAUSKINNA_CODE_WORDS)
        return say(answer, 0, 0, 0, SAUSKINNA_REFUSED_CODE_WORDS);
    if (cells > SAUSKINNA_CELLS)
        return say(answer, 0, 0, 0, SAUSKINNA_REFUSED_MEMORY);
    size_t count = code_words / 4, p = *place, from = p, stop;
    uint64_t left = budget, at;
    uint32_t ending, fault = SAUSKINNA_NO_FAULT, a, b, c;
    uint32_t *r = (uint32_t *)registers, kept = r[0];
    r[0] = 0;
    if (p >= count)
        goto stopped;
    START_AT(p);
halt:
    REQUIRE((a | b | c) == 0, SAUSKINNA_FAULT_INSTRUCTION);
    ending = SAUSKINNA_HALTED;
    left--;
    goto out;
nop:
    REQUIRE((a | b | c) == 0, SAUSKINNA_FAULT_INSTRUCTION);
    NEXT();
add:
    REQUIRE_RESULT(a | b | c);
    r[a] = r[b] + r[c];
    NEXT();
sub:
    REQUIRE_RESULT(a | b | c);
    r[a] = r[b] - r[c];
    NEXT();
mul:
    REQUIRE_RESULT(a | b | c);
    r[a] = r[b] * r[c];
    NEXT();
slt:
    REQUIRE_RESULT(a | b | c);
    r[a] = (int32_t)r[b] < (int32_t)r[c];
    NEXT();
addi:
    REQUIRE_RESULT(a | c);
    r[a] = b + r[c];
    NEXT();
load:
    REQUIRE_RESULT(a | b | c);
    at = address_of(r[b], r[c]);
    REQUIRE(at < cells, SAUSKINNA_FAULT_ADDRESS);
    r[a] = (uint32_t)memory[at];
    NEXT();
store:
    REQUIRE((a | b | c) < SAUSKINNA_REGISTERS, SAUSKINNA_FAULT_INSTRUCTION);
    at = address_of(r[a], r[b]);
    REQUIRE(at < cells, SAUSKINNA_FAULT_ADDRESS);
    memory[at] = (int32_t)r[c];
    NEXT();
jmp:
    REQUIRE((b | c) == 0, SAUSKINNA_FAULT_INSTRUCTION);
    JUMP(a);
bne:
    REQUIRE((a | b) < SAUSKINNA_REGISTERS, SAUSKINNA_FAULT_INSTRUCTION);
    if (r[a] != r[b])
        JUMP(c);
    NEXT();
beq:
    REQUIRE((a | b) < SAUSKINNA_REGISTERS, SAUSKINNA_FAULT_INSTRUCTION);
    if (r[a] == r[b])
        JUMP(c);
    NEXT();
stopped:
    ending = SAUSKINNA_UNFINISHED;
    if (p - from == left)
        goto out;
    fault = SAUSKINNA_FAULT_PLACE;
faulted:
    ending = SAUSKINNA_FAULTED;
out:
    r[0] = kept;
    *place = (uint32_t)p;
    return say(answer, ending, fault, (uint32_t)(budget - left + (p - from)), 0);
}
