/* examples.c: the scope's settled examples. */
#include <string.h>

#include "compiling.h"
#include "machines.h"
#include "subjects.h"

static struct code code_of(const struct compiled *c)
{
    return (struct code){c->code, code_words_of(c)};
}

/* Compiles a rule and runs it from a memory of one cell; gives that cell. */
static int32_t run_rule_at(const struct rule *r, uint64_t pool, int32_t x, uint32_t budget, uint32_t ending, uint32_t steps,
                           struct where where)
{
    const struct compiled *c = accept_at(r, pool, where);
    struct machine m = machine_of(1);
    m.memory[0] = x;
    run_at(code_of(c), &m, budget, ending, SAUSKINNA_NO_FAULT, steps, where);
    x = m.memory[0];
    end_machine(&m);
    return x;
}

#define RUN_RULE(rule, pool, x, budget, ending, steps) run_rule_at(&(rule), (pool), (x), (budget), (ending), (steps), HERE)

static void assign(void)
{
    static const int32_t expected[] = {ADDI, 1, 2, 0, ADDI, 2, 0, 0, STORE, 2, 0, 1, HALT, 0, 0, 0};
    struct rule r = assign_rule(2);
    const struct compiled *c = ACCEPT(r, pool_of(1, 2));
    ANSWERS(c->answer, 4, 1, 2);
    CHECK(memcmp(c->code, expected, sizeof expected) == 0);
    SAME(RUN_RULE(r, pool_of(1, 2), 0, 2, SAUSKINNA_UNFINISHED, 2), 0);
    SAME(RUN_RULE(r, pool_of(1, 2), 0, 3, SAUSKINNA_UNFINISHED, 3), 2);
    SAME(RUN_RULE(r, pool_of(1, 2), 0, 4, SAUSKINNA_HALTED, 4), 2);
    SAME(RUN_RULE(r, pool_of(1, 2), 0, UINT32_MAX, SAUSKINNA_HALTED, 4), 2);
    REFUSE(r, pool_of(1, 1), SAUSKINNA_REFUSED_REGISTERS, 2);
}

/* x := 9 - (5 - 2) */
static void nested(void)
{
    static const int32_t expected[] = {
        ADDI, 2, 9, 0, ADDI, 4, 5, 0, ADDI, 5, 2, 0, SUB, 3, 4, 5, SUB, 1, 2, 3, ADDI, 2, 0, 0, STORE, 2, 0, 1, HALT, 0, 0, 0,
    };
    struct rule r = over_x();
    add(&r, SAUSKINNA_VALUE, 9, 0, 0);
    add(&r, SAUSKINNA_VALUE, 5, 0, 0);
    add(&r, SAUSKINNA_VALUE, 2, 0, 0);
    add(&r, SAUSKINNA_MINUS, 1, 2, 0);
    add(&r, SAUSKINNA_MINUS, 0, 3, 0);
    add(&r, SAUSKINNA_ASSIGN, 0, 4, 0);
    const struct compiled *c = ACCEPT(r, pool_of(1, 5));
    ANSWERS(c->answer, 8, 1, 5);
    CHECK(memcmp(c->code, expected, sizeof expected) == 0);
    SAME(RUN_RULE(r, pool_of(1, 5), 0, 100, SAUSKINNA_HALTED, 8), 6);
    REFUSE(r, pool_of(1, 4), SAUSKINNA_REFUSED_REGISTERS, 5);
}

static void negation(void)
{
    struct rule r = over_x();
    add(&r, SAUSKINNA_VALUE, 0, 0, 0);
    add(&r, SAUSKINNA_NOT, 0, 0, 0);
    add(&r, SAUSKINNA_ASSIGN, 0, 1, 0);
    const struct compiled *c = ACCEPT(r, pool_of(1, 2));
    ANSWERS(c->answer, 7, 1, 2);
    SAME(RUN_RULE(r, pool_of(1, 2), 0, 100, SAUSKINNA_HALTED, 6), 1);
}

static void skip(void)
{
    static const int32_t expected[] = {NOP, 0, 0, 0, HALT, 0, 0, 0};
    struct rule r = skip_rule();
    const struct compiled *c = ACCEPT(r, 0);
    ANSWERS(c->answer, 2, 0, 0);
    CHECK(memcmp(c->code, expected, sizeof expected) == 0);
    SAME(RUN_RULE(r, 0, 7, 100, SAUSKINNA_HALTED, 2), 7);
}

/* while x do skip */
static void loop(void)
{
    struct rule r = over_x();
    add(&r, SAUSKINNA_IDENTIFIER, 0, 0, 0);
    add(&r, SAUSKINNA_SKIP, 0, 0, 0);
    add(&r, SAUSKINNA_WHILE, 0, 1, 0);
    const struct compiled *c = ACCEPT(r, pool_of(1, 2));
    ANSWERS(c->answer, 6, 1, 2);
    SAME(RUN_RULE(r, pool_of(1, 2), 0, 100, SAUSKINNA_HALTED, 4), 0);
    SAME(RUN_RULE(r, pool_of(1, 2), 1, 5, SAUSKINNA_UNFINISHED, 5), 1);
    SAME(RUN_RULE(r, pool_of(1, 2), 1, 10, SAUSKINNA_UNFINISHED, 10), 1);
}

/* What x := left operator right leaves in x. */
static int32_t result_of(int32_t kind, int32_t left, int32_t right)
{
    struct rule r = over_x();
    add(&r, SAUSKINNA_VALUE, left, 0, 0);
    add(&r, SAUSKINNA_VALUE, right, 0, 0);
    add(&r, kind, 0, 1, 0);
    add(&r, SAUSKINNA_ASSIGN, 0, 2, 0);
    return RUN_RULE(r, ALL_BUT_ZERO, 0, 100, SAUSKINNA_HALTED, 6);
}

static void arithmetic(void)
{
    SAME(result_of(SAUSKINNA_PLUS, INT32_MAX, 1), INT32_MIN);
    SAME(result_of(SAUSKINNA_PLUS, INT32_MIN, -1), INT32_MAX);
    SAME(result_of(SAUSKINNA_MINUS, INT32_MIN, 1), INT32_MAX);
    SAME(result_of(SAUSKINNA_MINUS, 0, INT32_MIN), INT32_MIN);
    SAME(result_of(SAUSKINNA_TIMES, 46341, 46341), -2147479015);
    SAME(result_of(SAUSKINNA_TIMES, INT32_MIN, -1), INT32_MIN);
    SAME(result_of(SAUSKINNA_LESS, -1, 0), 1);
    SAME(result_of(SAUSKINNA_LESS, 0, -1), 0);
    SAME(result_of(SAUSKINNA_LESS, INT32_MIN, INT32_MAX), 1);
    SAME(result_of(SAUSKINNA_LESS, 3, 3), 0);
}

/* One instruction of $1, $2 and $3 (or a label), then halt, on a cell that holds 11; gives what $1 holds after two steps. */
static int32_t first_after(const int32_t words[INSTRUCTION], int32_t second, int32_t third, uint32_t ending, uint32_t fault)
{
    int32_t code[2 * INSTRUCTION] = {words[0], words[1], words[2], words[3], SAUSKINNA_HALT, 0, 0, 0};
    struct machine m = machine_of(1);
    m.memory[0] = 11;
    m.registers[2] = second;
    m.registers[3] = third;
    RUN(((struct code){code, 2 * INSTRUCTION}), &m, 2, ending, fault, ending == SAUSKINNA_HALTED ? 2 : 0);
    SAME(*m.place, ending == SAUSKINNA_HALTED ? 1 : 0);
    int32_t first = m.registers[1];
    end_machine(&m);
    return first;
}

static void machine(void)
{
    static const int32_t less[] = {SAUSKINNA_SLT, 1, 2, 3}, load[] = {SAUSKINNA_LOAD, 1, 2, 3}, equal[] = {SAUSKINNA_BEQ, 2, 3, 99};
    SAME(first_after(less, -1, 0, SAUSKINNA_HALTED, SAUSKINNA_NO_FAULT), 1);
    SAME(first_after(load, INT32_MAX, 1, SAUSKINNA_FAULTED, SAUSKINNA_FAULT_ADDRESS), 0);
    SAME(first_after(load, 65535, -65535, SAUSKINNA_HALTED, SAUSKINNA_NO_FAULT), 11);
    SAME(first_after(equal, 1, 2, SAUSKINNA_HALTED, SAUSKINNA_NO_FAULT), 0);
    SAME(first_after(equal, 2, 2, SAUSKINNA_FAULTED, SAUSKINNA_FAULT_LABEL), 0);
}

static void sizes(void)
{
    struct rule r = skip_rule();
    declare(&r, SAUSKINNA_ARRAY, SAUSKINNA_CELLS);
    ANSWERS(ACCEPT(r, 0)->answer, 2, CELL_LIMIT, 0);
    declare(&r, SAUSKINNA_VARIABLE, 0);
    REFUSE(r, 0, SAUSKINNA_REFUSED_CELLS, 1);
    r = assign_rule(2);
    struct code code = code_of(ACCEPT(r, pool_of(1, 2)));
    struct machine m = machine_of(0);
    RUN(code, &m, 3, SAUSKINNA_FAULTED, SAUSKINNA_FAULT_ADDRESS, 2);
    end_machine(&m);
    m = machine_of(0);
    RUN(code, &m, 2, SAUSKINNA_UNFINISHED, SAUSKINNA_NO_FAULT, 2);
    end_machine(&m);
}

void test_examples(void)
{
    assign();
    nested();
    negation();
    skip();
    loop();
    arithmetic();
    machine();
    sizes();
}
