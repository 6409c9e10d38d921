/* far.c: the far ends: 256 names, 65,536 cells, 65,536 instructions, and the longest code in SAUSKINNA_ROOM. */
#include <stdlib.h>
#include <string.h>

#include "compiling.h"
#include "lent.h"
#include "machines.h"
#include "subjects.h"

/* Cells, places and labels at which a number of 8, 15 or 16 bits ends, and others. */
static const int32_t far[] = {
    0, 1, 63, 64, 127, 128, 254, 255, 256, 257, 400, 401, 511, 512, 600, 601, 1000, 1001, 1023, 1024,
    4095, 4096, 32767, 32768, 32769, 65279, 65280, 65533, 65534, 65535,
};

enum { FAR = sizeof far / sizeof far[0] };

/* Runs an accepted rule to its halt; gives its steps. */
static uint32_t run_accepted(const struct compiled *c, struct machine *m, struct where where)
{
    struct code code = {c->code, code_words_of(c)};
    uint32_t answer[SAUSKINNA_ANSWER_WORDS];
    *m->place = 0;
    same_at(run_machine(code, m, UINT32_MAX, answer), SAUSKINNA_ACCEPTED, "the run is taken", where);
    same_at(answer[SAUSKINNA_ANSWER_ENDING], SAUSKINNA_HALTED, "the rule halts", where);
    return answer[SAUSKINNA_ANSWER_STEPS];
}

/* A memory of all cells, each with a number of its own. */
static struct machine full_machine(void)
{
    struct machine m = machine_of(SAUSKINNA_CELLS);
    for (int32_t i = 0; i < (int32_t)m.cells; i++)
        m.memory[i] = 3 * i - 70000;
    return m;
}

/* Every one of 256 variables := a number of its own, in one rule. */
static void every_name_written(void)
{
    struct rule r = names_rule(SAUSKINNA_DECLARATIONS);
    int32_t last = 1;
    for (int32_t name = 0; name < SAUSKINNA_DECLARATIONS; name++) {
        int32_t value = add(&r, SAUSKINNA_VALUE, 7 * name - 3, 0, 0);
        int32_t assign = add(&r, SAUSKINNA_ASSIGN, name, value, 0);
        last = add(&r, SAUSKINNA_SEQUENCE, last, assign, 0);
    }
    struct machine m = machine_of(NAME_LIMIT);
    SAME(run_accepted(ACCEPT(r, ALL_BUT_ZERO), &m, HERE), 3 * (NAME_LIMIT + 1) + 1);
    for (int32_t name = 0; name < NAME_LIMIT; name++)
        SAME(m.memory[name], 7 * name - 3);
    end_machine(&m);
}

/* first := name, for every other of 256 names: constants and variables in turn. */
static void every_name_read(void)
{
    struct rule start = over_x();
    for (int32_t name = 1; name < SAUSKINNA_DECLARATIONS; name++)
        declare(&start, name % 2 == 0 ? SAUSKINNA_CONSTANT : SAUSKINNA_VARIABLE, name % 2 == 0 ? 11 * name : 0);
    struct machine m = machine_of(NAME_LIMIT);
    for (int32_t cell = 0; cell < NAME_LIMIT; cell++)
        m.memory[cell] = -5 * cell;
    for (int32_t name = 1; name < NAME_LIMIT; name++) {
        struct rule r = start;
        add(&r, SAUSKINNA_IDENTIFIER, name, 0, 0);
        add(&r, SAUSKINNA_ASSIGN, 0, 0, 0);
        run_accepted(ACCEPT(r, ALL_BUT_ZERO), &m, HERE);
        SAME(m.memory[0], name % 2 == 0 ? 11 * name : -5 * (name + 1) / 2);
    }
    end_machine(&m);
}

/* A variable with this cell: it := 9, and the first cell := its value. */
static void variable_at(int32_t cell)
{
    struct rule r = empty_rule();
    if (cell > 0)
        declare(&r, SAUSKINNA_ARRAY, cell);
    int32_t name = declare(&r, SAUSKINNA_VARIABLE, 0);
    struct rule reading = r;
    add(&r, SAUSKINNA_VALUE, 9, 0, 0);
    add(&r, SAUSKINNA_ASSIGN, name, 0, 0);
    struct machine m = full_machine(), expected = copy_of(&m);
    expected.memory[cell] = 9;
    SAME(run_accepted(ACCEPT(r, ALL_BUT_ZERO), &m, HERE), 4);
    CHECK(memcmp(m.memory, expected.memory, bytes(m.cells)) == 0);
    if (cell > 0) {
        add(&reading, SAUSKINNA_VALUE, 0, 0, 0);
        add(&reading, SAUSKINNA_IDENTIFIER, name, 0, 0);
        add(&reading, SAUSKINNA_ASSIGN_ELEMENT, 0, 0, 1);
        SAME(run_accepted(ACCEPT(reading, ALL_BUT_ZERO), &m, HERE), 6);
        SAME(m.memory[0], 9);
    }
    end_machine(&m);
    end_machine(&expected);
}

/* The cell := the one that is as far from the last cell, as elements of an array of all cells from `first` on. */
static void element_at(int32_t first, int32_t cell)
{
    struct rule r = empty_rule();
    if (first > 0)
        declare(&r, SAUSKINNA_ARRAY, first);
    int32_t array = declare(&r, SAUSKINNA_ARRAY, SAUSKINNA_CELLS - first);
    add(&r, SAUSKINNA_VALUE, cell - first, 0, 0);
    add(&r, SAUSKINNA_VALUE, CELL_LIMIT - 1 - cell - first, 0, 0);
    add(&r, SAUSKINNA_ELEMENT, array, 1, 0);
    add(&r, SAUSKINNA_ASSIGN_ELEMENT, array, 0, 2);
    struct machine m = full_machine(), expected = copy_of(&m);
    expected.memory[cell] = expected.memory[CELL_LIMIT - 1 - cell];
    SAME(run_accepted(ACCEPT(r, ALL_BUT_ZERO), &m, HERE), 7);
    CHECK(memcmp(m.memory, expected.memory, bytes(m.cells)) == 0);
    end_machine(&m);
    end_machine(&expected);
}

/* cell[i] := 3 * i and back, for every cell, in a loop of 6 steps. */
static void every_cell(void)
{
    static const int32_t code[] = {
        SAUSKINNA_STORE, 1, 0, 2, SAUSKINNA_LOAD, 4, 1, 0, SAUSKINNA_BNE, 4, 2, 99,     SAUSKINNA_ADDI, 2, 3, 2,
        SAUSKINNA_ADDI,  1, 1, 1, SAUSKINNA_BNE,  1, 3, 0, SAUSKINNA_HALT, 0, 0, 0,
    };
    struct machine m = full_machine();
    m.registers[3] = CELL_LIMIT;
    RUN(((struct code){code, sizeof code / sizeof code[0]}), &m, UINT32_C(0x80000000), SAUSKINNA_HALTED, SAUSKINNA_NO_FAULT,
        6 * CELL_LIMIT + 1);
    for (int32_t i = 0; i < CELL_LIMIT; i++)
        SAME(m.memory[i], 3 * i);
    end_machine(&m);
}

/* All instructions are this branch, each to its place plus a fixed distance: one run comes to every place by its label. */
static void every_label(int32_t operation, int32_t first, int32_t second)
{
    enum { DISTANCE = 40503 };
    int32_t *words = guarded(SAUSKINNA_CODE_WORDS);
    for (uint32_t i = 0; i < SAUSKINNA_CODE_WORDS / INSTRUCTION; i++) {
        int32_t label = (int32_t)((i + DISTANCE) % INSTRUCTION_LIMIT);
        int32_t branch[INSTRUCTION] = {operation, first, second, label}, jump[INSTRUCTION] = {operation, label, 0, 0};
        memcpy(words + INSTRUCTION * i, operation == SAUSKINNA_JMP ? jump : branch, bytes(INSTRUCTION));
    }
    struct code code = {words, SAUSKINNA_CODE_WORDS};
    struct machine m = machine_of(0);
    m.registers[1] = 1;
    for (uint32_t i = 1; i <= FAR; i++) {
        *m.place = (uint32_t)far[i - 1];
        RUN(code, &m, i, SAUSKINNA_UNFINISHED, SAUSKINNA_NO_FAULT, i);
        SAME(*m.place, ((uint32_t)far[i - 1] + i * DISTANCE) % INSTRUCTION_LIMIT);
    }
    *m.place = 0;
    RUN(code, &m, INSTRUCTION_LIMIT, SAUSKINNA_UNFINISHED, SAUSKINNA_NO_FAULT, INSTRUCTION_LIMIT);
    SAME(*m.place, 0);
    end_machine(&m);
    free(words);
}

/* The longest code: nops, and its last instruction. */
static void every_place(void)
{
    int32_t *words = guarded(SAUSKINNA_CODE_WORDS);
    memset(words, 0, bytes(SAUSKINNA_CODE_WORDS));
    int32_t *last = words + SAUSKINNA_CODE_WORDS - INSTRUCTION;
    for (int32_t *word = words; word < last; word += INSTRUCTION)
        *word = SAUSKINNA_NOP;
    struct code code = {words, SAUSKINNA_CODE_WORDS};
    struct machine m = machine_of(0);
    RUN(code, &m, INSTRUCTION_LIMIT - 1, SAUSKINNA_UNFINISHED, SAUSKINNA_NO_FAULT, INSTRUCTION_LIMIT - 1);
    SAME(*m.place, INSTRUCTION_LIMIT - 1);
    RUN(code, &m, 2, SAUSKINNA_HALTED, SAUSKINNA_NO_FAULT, 1);
    SAME(*m.place, INSTRUCTION_LIMIT - 1);
    last[0] = SAUSKINNA_NOP;
    RUN(code, &m, 2, SAUSKINNA_FAULTED, SAUSKINNA_FAULT_PLACE, 1);
    SAME(*m.place, INSTRUCTION_LIMIT);
    last[0] = SAUSKINNA_JMP;
    last[1] = INSTRUCTION_LIMIT;
    *m.place = INSTRUCTION_LIMIT - 1;
    RUN(code, &m, 2, SAUSKINNA_FAULTED, SAUSKINNA_FAULT_LABEL, 0);
    SAME(*m.place, INSTRUCTION_LIMIT - 1);
    end_machine(&m);
    free(words);
}

/* x := x + 1 if x, so many times: labels and places up to the end of a long rule. */
static void many_ifs(void)
{
    enum { IFS = 127 };
    struct rule r = skip_rule();
    declare(&r, SAUSKINNA_VARIABLE, 0);
    int32_t last = 0;
    for (int i = 0; i < IFS; i++) {
        int32_t test = add(&r, SAUSKINNA_IDENTIFIER, 0, 0, 0), x = add(&r, SAUSKINNA_IDENTIFIER, 0, 0, 0);
        int32_t one = add(&r, SAUSKINNA_VALUE, 1, 0, 0), sum = add(&r, SAUSKINNA_PLUS, x, one, 0);
        int32_t then = add(&r, SAUSKINNA_ASSIGN, 0, sum, 0), other = add(&r, SAUSKINNA_SKIP, 0, 0, 0);
        last = add(&r, SAUSKINNA_SEQUENCE, last, add(&r, SAUSKINNA_IF, test, then, other), 0);
    }
    struct machine m = machine_of(1);
    m.memory[0] = 100;
    SAME(run_accepted(ACCEPT(r, ALL_BUT_ZERO), &m, HERE), 2 + 10 * IFS);
    SAME(m.memory[0], 100 + IFS);
    m.memory[0] = 0;
    SAME(run_accepted(ACCEPT(r, ALL_BUT_ZERO), &m, HERE), 2 + 4 * IFS);
    SAME(m.memory[0], 0);
    end_machine(&m);
}

/* A balanced tree of x = x over so many x. */
static int32_t equals(struct rule *r, size_t leaves)
{
    if (leaves == 1)
        return add(r, SAUSKINNA_IDENTIFIER, 0, 0, 0);
    int32_t left = equals(r, leaves / 2), right = equals(r, leaves - leaves / 2);
    return add(r, SAUSKINNA_EQUAL, left, right, 0);
}

/* The longest code that a rule of its rows can have: 3 instructions a row but for one, in SAUSKINNA_ROOM. */
static void longest_codes(void)
{
    struct rule r = skip_rule();
    SAME(ACCEPT(r, 0)->answer[SAUSKINNA_ANSWER_INSTRUCTIONS], 2);
    for (size_t leaves = 1; 2 * leaves <= SAUSKINNA_ROWS; leaves++) {
        r = over_x();
        add(&r, SAUSKINNA_ASSIGN, 0, equals(&r, leaves), 0);
        SAME(rows_of(&r), 2 * leaves);
        SAME(ACCEPT(r, ALL_BUT_ZERO)->answer[SAUSKINNA_ANSWER_INSTRUCTIONS], 3 * rows_of(&r) - 1);
    }
}

void test_far(void)
{
    every_name_written();
    every_name_read();
    for (int i = 0; i < FAR; i++) {
        variable_at(far[i]);
        element_at(0, far[i]);
        element_at(i < FAR / 2 ? far[i] : CELL_LIMIT - 1 - far[i], far[i]);
    }
    every_cell();
    every_place();
    every_label(SAUSKINNA_JMP, 0, 0);
    every_label(SAUSKINNA_BNE, 0, 1);
    every_label(SAUSKINNA_BEQ, 2, 3);
    many_ifs();
    longest_codes();
}
