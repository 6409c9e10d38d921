/* trials.c: has every side run and step small codes: each ending, each fault, each refusal, and each operation with odd words. */
#include <stdio.h>
#include <string.h>

#include "sauskinna.h"
#include "sides.h"

enum { MEMORY = 2, INSTRUCTIONS = 3 };

struct trial {
    const char *what;
    size_t code_words, cells;
    uint32_t place, budget;
    int32_t code[INSTRUCTIONS][4];
    uint32_t expected[4]; /* of a run: returned, and the answer */
};

#define HALT {SAUSKINNA_HALT, 0, 0, 0}
#define NOP {SAUSKINNA_NOP, 0, 0, 0}
#define STORE_7 {SAUSKINNA_ADDI, 1, 7, 0}, {SAUSKINNA_STORE, 0, 0, 1}
#define ALL UINT32_MAX

static const struct trial trials[] = {
    {"halt", 12, 1, 0, ALL, {STORE_7, HALT}, {0, SAUSKINNA_HALTED, 0, 3}},
    {"halt with the last step", 12, 1, 0, 3, {STORE_7, HALT}, {0, SAUSKINNA_HALTED, 0, 3}},
    {"a budget that ends within", 12, 1, 0, 2, {STORE_7, HALT}, {0, SAUSKINNA_UNFINISHED, 0, 2}},
    {"a budget that ends at a jump", 8, 0, 0, 2, {NOP, {SAUSKINNA_JMP, 0, 0, 0}}, {0, SAUSKINNA_UNFINISHED, 0, 2}},
    {"a budget of many turns", 8, 0, 1, 1001, {NOP, {SAUSKINNA_JMP, 0, 0, 0}}, {0, SAUSKINNA_UNFINISHED, 0, 1001}},
    {"a budget that ends with the code", 4, 0, 0, 1, {NOP}, {0, SAUSKINNA_UNFINISHED, 0, 1}},
    {"budget 0", 4, 0, 0, 0, {HALT}, {0, SAUSKINNA_UNFINISHED, 0, 0}},
    {"budget 0 outside the code", 4, 0, 9, 0, {HALT}, {0, SAUSKINNA_UNFINISHED, 0, 0}},
    {"no code", 0, 0, 0, 1, {HALT}, {0, SAUSKINNA_FAULTED, SAUSKINNA_FAULT_PLACE, 0}},
    {"a place outside the code", 4, 0, ALL, 1, {HALT}, {0, SAUSKINNA_FAULTED, SAUSKINNA_FAULT_PLACE, 0}},
    {"a code without an end", 8, 1, 0, 3, {STORE_7}, {0, SAUSKINNA_FAULTED, SAUSKINNA_FAULT_PLACE, 2}},
    {"no operation", 8, 0, 0, 2, {NOP, {12, 0, 0, 0}}, {0, SAUSKINNA_FAULTED, SAUSKINNA_FAULT_INSTRUCTION, 1}},
    {"a result for $0", 8, 0, 0, 2, {NOP, {SAUSKINNA_ADD, 0, 1, 1}}, {0, SAUSKINNA_FAULTED, SAUSKINNA_FAULT_ZERO, 1}},
    {"a load outside memory", 8, 2, 0, 2, {NOP, {SAUSKINNA_LOAD, 1, 2, 0}}, {0, SAUSKINNA_FAULTED, SAUSKINNA_FAULT_ADDRESS, 1}},
    {"a store outside memory", 8, 0, 0, 2, {NOP, {SAUSKINNA_STORE, 0, 0, 1}}, {0, SAUSKINNA_FAULTED, SAUSKINNA_FAULT_ADDRESS, 1}},
    {"a label outside the code", 8, 0, 0, 2, {NOP, {SAUSKINNA_JMP, 2, 0, 0}}, {0, SAUSKINNA_FAULTED, SAUSKINNA_FAULT_LABEL, 1}},
    {"code words", 6, 0, 0, 1, {HALT}, {SAUSKINNA_REFUSED_CODE_WORDS, 0, 0, 0}},
    {"code words and memory", SAUSKINNA_CODE_WORDS + 4, SAUSKINNA_CELLS + 1, 0, 1, {HALT}, {SAUSKINNA_REFUSED_CODE_WORDS, 0, 0, 0}},
    {"memory", 4, SAUSKINNA_CELLS + 1, 0, 0, {HALT}, {SAUSKINNA_REFUSED_MEMORY, 0, 0, 0}},
};

/* All that a call may change. */
struct machine {
    int32_t memory[MEMORY];
    uint32_t place;
    int32_t registers[SAUSKINNA_REGISTERS];
    uint32_t answer[4];
};

/* $1 is 1, $2 is 2 and so on, but for the last two; $0's place holds what no read may see. */
static struct machine start(const struct trial *t)
{
    struct machine m = {{100, 101}, t->place, {77}, {9, 9, 9, 9}};
    for (int32_t i = 1; i < SAUSKINNA_REGISTERS; i++)
        m.registers[i] = i;
    m.registers[62] = -1;
    m.registers[63] = INT32_MIN;
    return m;
}

static struct machine run_on(const struct side *side, const struct trial *t)
{
    struct machine m = start(t);
    m.answer[0] = side->run(t->code[0], t->code_words, m.memory, t->cells, &m.place, m.registers, t->budget, m.answer + 1);
    return m;
}

static struct machine step_on(const struct side *side, const struct trial *t)
{
    struct machine m = start(t);
    m.answer[0] = side->step(t->code[0], t->code_words, m.memory, t->cells, &m.place, m.registers, m.answer + 1);
    return m;
}

static void compare(const struct side *side, const struct machine *found, const struct machine *expected, const char *what)
{
    if (memcmp(found, expected, sizeof *found) != 0)
        differs(side, what);
}

static void try_one(const struct trial *t)
{
    struct machine ran = run_on(&sides[LIBRARY], t), stepped = step_on(&sides[LIBRARY], t), found;
    for (const struct side *side = sides + 1; side < sides + SIDES; side++) {
        if (side->run == NULL)
            continue;
        found = run_on(side, t);
        compare(side, &found, &ran, t->what);
        if (side->step == NULL)
            continue;
        found = step_on(side, t);
        compare(side, &found, &stepped, t->what);
    }
}

static void try_expected(const struct trial *t)
{
    struct machine ran = run_on(&sides[LIBRARY], t);
    if (memcmp(ran.answer, t->expected, sizeof ran.answer) != 0)
        differs(&sides[LIBRARY], t->what);
}

/* Every operation, and two numbers that are none, with words at the ends of what is a register, a label or unused. */
static void try_operations(void)
{
    static const int32_t words[] = {-1, 0, 1, 2, 3, 62, 63, 64};
    enum { WORDS = sizeof words / sizeof words[0], TRIPLES = WORDS * WORDS * WORDS };
    for (int32_t operation = -1; operation <= SAUSKINNA_SLT + 1; operation++)
        for (int i = 0; i < TRIPLES; i++) {
            int32_t a = words[i % WORDS], b = words[i / WORDS % WORDS], c = words[i / WORDS / WORDS];
            char what[64];
            snprintf(what, sizeof what, "operation %d %d %d %d", (int)operation, (int)a, (int)b, (int)c);
            try_one(&(struct trial){what, 8, MEMORY, 0, 3, {{operation, a, b, c}, HALT}, {0}});
        }
}

void try_codes(void)
{
    for (size_t i = 0; i < sizeof trials / sizeof trials[0]; i++) {
        try_expected(&trials[i]);
        try_one(&trials[i]);
    }
    try_operations();
}
