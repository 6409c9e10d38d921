/* names.c: each kind of declaration and node by its name in the header, with what the scope says comes of it. */
#include <string.h>

#include "compiling.h"
#include "machines.h"
#include "subjects.h"

/* The cells of a memory before a run and after it. */
enum { NAMED_CELLS = 3 };

struct change {
    int32_t before[NAMED_CELLS], after[NAMED_CELLS];
};

/* The rule halts after so many steps, and changes the memory so. */
static void halts_at(const struct rule *r, struct change change, uint32_t steps, struct where where)
{
    const struct compiled *c = accept_at(r, ALL_BUT_ZERO, where);
    struct machine m = machine_of(NAMED_CELLS);
    memcpy(m.memory, change.before, sizeof change.before);
    run_at((struct code){c->code, code_words_of(c)}, &m, UINT32_MAX, SAUSKINNA_HALTED, SAUSKINNA_NO_FAULT, steps, where);
    check_at(memcmp(m.memory, change.after, sizeof change.after) == 0, "the memory after the run", where);
    end_machine(&m);
}

#define HALTS(rule, before, after, steps) halts_at(&(rule), (struct change){before, after}, (steps), HERE)
#define CELLS(...) {__VA_ARGS__}

/* x := left operator right, whose values, assignment and end take 5 steps. */
struct operation {
    int32_t kind, left, right, result;
    uint32_t own_steps;
};

enum { OTHER_STEPS = 5 };

static void operators(void)
{
    static const struct operation all[] = {
        {SAUSKINNA_PLUS, 6, 3, 9, 1},   {SAUSKINNA_MINUS, 6, 3, 3, 1}, {SAUSKINNA_TIMES, 6, 3, 18, 1}, {SAUSKINNA_LESS, 6, 3, 0, 1},
        {SAUSKINNA_LESS, 3, 6, 1, 1},   {SAUSKINNA_EQUAL, 6, 6, 1, 2}, {SAUSKINNA_EQUAL, 6, 3, 0, 3},  {SAUSKINNA_AND, 0, 3, 0, 2},
        {SAUSKINNA_AND, 6, 0, 0, 3},    {SAUSKINNA_AND, 6, 3, 1, 4},   {SAUSKINNA_OR, 6, 0, 1, 2},     {SAUSKINNA_OR, 0, 3, 1, 3},
        {SAUSKINNA_OR, 0, 0, 0, 4},
    };
    for (size_t i = 0; i < sizeof all / sizeof all[0]; i++) {
        struct rule r = over_x();
        add(&r, SAUSKINNA_VALUE, all[i].left, 0, 0);
        add(&r, SAUSKINNA_VALUE, all[i].right, 0, 0);
        add(&r, all[i].kind, 0, 1, 0);
        add(&r, SAUSKINNA_ASSIGN, 0, 2, 0);
        HALTS(r, CELLS(4, 4, 4), CELLS(all[i].result, 4, 4), OTHER_STEPS + all[i].own_steps);
    }
}

/* x := not v */
static void negation(void)
{
    for (int32_t v = 0; v < 2; v++) {
        struct rule r = over_x();
        add(&r, SAUSKINNA_VALUE, v, 0, 0);
        add(&r, SAUSKINNA_NOT, 0, 0, 0);
        add(&r, SAUSKINNA_ASSIGN, 0, 1, 0);
        HALTS(r, CELLS(4, 4, 4), CELLS(1 - v, 4, 4), v == 0 ? 6 : 7);
    }
}

/* Over x, a constant of 8 and an array of two cells, in cells 0 to 2: x := constant; x := array[1]; array[0] := x. */
static void declared(void)
{
    struct rule start = over_x();
    int32_t eight = declare(&start, SAUSKINNA_CONSTANT, 8);
    int32_t array = declare(&start, SAUSKINNA_ARRAY, 2);
    struct rule r = start;
    add(&r, SAUSKINNA_IDENTIFIER, eight, 0, 0);
    add(&r, SAUSKINNA_ASSIGN, 0, 0, 0);
    HALTS(r, CELLS(4, 5, 6), CELLS(8, 5, 6), 4);
    r = start;
    add(&r, SAUSKINNA_VALUE, 1, 0, 0);
    add(&r, SAUSKINNA_ELEMENT, array, 0, 0);
    add(&r, SAUSKINNA_ASSIGN, 0, 1, 0);
    HALTS(r, CELLS(4, 5, 6), CELLS(6, 5, 6), 6);
    r = start;
    add(&r, SAUSKINNA_VALUE, 0, 0, 0);
    add(&r, SAUSKINNA_IDENTIFIER, 0, 0, 0);
    add(&r, SAUSKINNA_ASSIGN_ELEMENT, array, 0, 1);
    HALTS(r, CELLS(4, 5, 6), CELLS(4, 4, 6), 6);
}

/* (x := 7); skip */
static void sequence(void)
{
    struct rule r = assign_rule(7);
    add(&r, SAUSKINNA_SKIP, 0, 0, 0);
    add(&r, SAUSKINNA_SEQUENCE, 1, 2, 0);
    HALTS(r, CELLS(4, 5, 6), CELLS(7, 5, 6), 5);
}

/* if x then x := 5 else x := 7 */
static void choice(void)
{
    struct rule r = over_x();
    add(&r, SAUSKINNA_IDENTIFIER, 0, 0, 0);
    add(&r, SAUSKINNA_VALUE, 5, 0, 0);
    add(&r, SAUSKINNA_ASSIGN, 0, 1, 0);
    add(&r, SAUSKINNA_VALUE, 7, 0, 0);
    add(&r, SAUSKINNA_ASSIGN, 0, 3, 0);
    add(&r, SAUSKINNA_IF, 0, 2, 4);
    HALTS(r, CELLS(1, 0, 0), CELLS(5, 0, 0), 8);
    HALTS(r, CELLS(0, 0, 0), CELLS(7, 0, 0), 7);
}

/* while x do x := x - 1: a turn takes 10 steps, the last test and the end 4 */
static void loop(void)
{
    struct rule r = over_x();
    add(&r, SAUSKINNA_IDENTIFIER, 0, 0, 0);
    add(&r, SAUSKINNA_IDENTIFIER, 0, 0, 0);
    add(&r, SAUSKINNA_VALUE, 1, 0, 0);
    add(&r, SAUSKINNA_MINUS, 1, 2, 0);
    add(&r, SAUSKINNA_ASSIGN, 0, 3, 0);
    add(&r, SAUSKINNA_WHILE, 0, 4, 0);
    HALTS(r, CELLS(3, 5, 6), CELLS(0, 5, 6), 34);
}

/* x := y over a constant and an array of two: 5 instructions, 4 cells and 2 registers. */
static void answer_words(void)
{
    struct rule r = over_x();
    int32_t y = declare(&r, SAUSKINNA_VARIABLE, 0);
    declare(&r, SAUSKINNA_CONSTANT, 9);
    declare(&r, SAUSKINNA_ARRAY, 2);
    add(&r, SAUSKINNA_IDENTIFIER, y, 0, 0);
    add(&r, SAUSKINNA_ASSIGN, 0, 0, 0);
    const struct compiled *c = ACCEPT(r, ALL_BUT_ZERO);
    SAME(c->answer[SAUSKINNA_ANSWER_INSTRUCTIONS], 5);
    SAME(c->answer[SAUSKINNA_ANSWER_CELLS], 4);
    SAME(c->answer[SAUSKINNA_ANSWER_NEED], 2);
    r = names_rule(4);
    declare(&r, SAUSKINNA_ARRAY, 0);
    REFUSE(r, ALL_BUT_ZERO, SAUSKINNA_REFUSED_DECLARATION, 4);
}

void test_names(void)
{
    SAME(sauskinna_version(), SAUSKINNA_VERSION);
    operators();
    negation();
    declared();
    sequence();
    choice();
    loop();
    answer_words();
}
