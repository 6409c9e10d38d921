/* machine.c: single steps, faults, addresses and places. */
#include <string.h>

#include "compiling.h"
#include "lent.h"
#include "machines.h"
#include "subjects.h"

/* The step's instruction stands between a nop and a halt. It finds $2 = 6, $3 = -4, and cell 2 of three holding 77. */
enum { AROUND = 3, STEP_PLACE = 1, ZERO_PLACE = 1234 };

static struct machine before_step(void)
{
    struct machine m = machine_of(3);
    m.memory[2] = 77;
    *m.place = STEP_PLACE;
    m.registers[0] = ZERO_PLACE;
    m.registers[2] = 6;
    m.registers[3] = -4;
    return m;
}

/* The answer of one step, which leaves the machine as expected. */
static void step_at(const int32_t words[INSTRUCTION], struct machine *expected, uint32_t ending, uint32_t fault, struct where where)
{
    int32_t code[AROUND * INSTRUCTION] = {SAUSKINNA_NOP, 0, 0, 0, words[0], words[1], words[2], words[3], SAUSKINNA_HALT, 0, 0, 0};
    struct machine m = before_step();
    uint32_t answer[SAUSKINNA_ANSWER_WORDS];
    same_at(step_machine((struct code){code, AROUND * INSTRUCTION}, &m, answer), SAUSKINNA_ACCEPTED, "the step is taken", where);
    same_at(answer[SAUSKINNA_ANSWER_ENDING], ending, "the step's ending", where);
    same_at(answer[SAUSKINNA_ANSWER_FAULT], fault, "the step's fault", where);
    same_at(answer[SAUSKINNA_ANSWER_STEPS], ending != SAUSKINNA_FAULTED, "the steps taken", where);
    same_at(*m.place, *expected->place, "the place after the step", where);
    check_at(same_machine(&m, expected), "registers and memory after the step", where);
    end_machine(&m);
    end_machine(expected);
}

/* A step that goes on and sets a register, a cell or the place, and nothing else. */
static void register_at(const int32_t words[INSTRUCTION], int number, int32_t value, struct where where)
{
    struct machine expected = before_step();
    *expected.place = STEP_PLACE + 1;
    expected.registers[number] = value;
    step_at(words, &expected, SAUSKINNA_WENT_ON, SAUSKINNA_NO_FAULT, where);
}

static void cell_at(const int32_t words[INSTRUCTION], int cell, int32_t value, struct where where)
{
    struct machine expected = before_step();
    *expected.place = STEP_PLACE + 1;
    expected.memory[cell] = value;
    step_at(words, &expected, SAUSKINNA_WENT_ON, SAUSKINNA_NO_FAULT, where);
}

static void place_at(const int32_t words[INSTRUCTION], uint32_t place, struct where where)
{
    struct machine expected = before_step();
    *expected.place = place;
    step_at(words, &expected, SAUSKINNA_WENT_ON, SAUSKINNA_NO_FAULT, where);
}

static void fault_at(const int32_t words[INSTRUCTION], uint32_t fault, struct where where)
{
    struct machine expected = before_step();
    step_at(words, &expected, SAUSKINNA_FAULTED, fault, where);
}

#define WORDS(...) ((int32_t[INSTRUCTION]){__VA_ARGS__})
#define REGISTER(number, value, ...) register_at(WORDS(__VA_ARGS__), (number), (value), HERE)
#define CELL(cell, value, ...) cell_at(WORDS(__VA_ARGS__), (cell), (value), HERE)
#define PLACE(place, ...) place_at(WORDS(__VA_ARGS__), (place), HERE)
#define FAULT(fault, ...) fault_at(WORDS(__VA_ARGS__), (fault), HERE)

static void operations(void)
{
    PLACE(2, SAUSKINNA_NOP, 0, 0, 0);
    REGISTER(1, 2, SAUSKINNA_ADD, 1, 2, 3);
    REGISTER(1, 6, SAUSKINNA_ADD, 1, 2, 0);
    REGISTER(63, 6, SAUSKINNA_ADD, 63, 63, 2);
    REGISTER(1, -3, SAUSKINNA_ADDI, 1, -9, 2);
    REGISTER(1, 70000, SAUSKINNA_ADDI, 1, 70000, 0);
    REGISTER(1, 10, SAUSKINNA_SUB, 1, 2, 3);
    REGISTER(1, -24, SAUSKINNA_MUL, 1, 2, 3);
    REGISTER(1, 77, SAUSKINNA_LOAD, 1, 2, 3);
    CELL(2, 6, SAUSKINNA_STORE, 2, 3, 2);
    CELL(0, 0, SAUSKINNA_STORE, 0, 0, 0);
    CELL(0, -4, SAUSKINNA_STORE, 0, 0, 3);
    PLACE(2, SAUSKINNA_JMP, 2, 0, 0);
    PLACE(1, SAUSKINNA_JMP, 1, 0, 0);
    PLACE(0, SAUSKINNA_JMP, 0, 0, 0);
    PLACE(0, SAUSKINNA_BNE, 2, 3, 0);
    PLACE(2, SAUSKINNA_BNE, 2, 2, 3);
    PLACE(0, SAUSKINNA_BEQ, 3, 3, 0);
    PLACE(0, SAUSKINNA_BEQ, 1, 0, 0);
    PLACE(2, SAUSKINNA_BEQ, 2, 3, -1);
    REGISTER(1, 1, SAUSKINNA_SLT, 1, 3, 2);
    REGISTER(2, 0, SAUSKINNA_SLT, 2, 2, 3);
    struct machine expected = before_step();
    step_at(WORDS(SAUSKINNA_HALT, 0, 0, 0), &expected, SAUSKINNA_HALTED, SAUSKINNA_NO_FAULT, HERE);
}

/* Whether a word of an operation is the number of a register. */
static int is_register(int32_t operation, int word)
{
    switch (operation) {
    case SAUSKINNA_HALT:
    case SAUSKINNA_NOP:
    case SAUSKINNA_JMP: return 0;
    case SAUSKINNA_ADDI: return word != 2;
    case SAUSKINNA_BNE:
    case SAUSKINNA_BEQ: return word != 3;
    default: return 1;
    }
}

static void bad_registers(void)
{
    static const int32_t bad[] = {SAUSKINNA_REGISTERS, -1, -64, 256, INT32_MIN, INT32_MAX};
    for (int32_t operation = SAUSKINNA_HALT; operation <= SAUSKINNA_SLT; operation++)
        for (int word = 1; word < INSTRUCTION; word++)
            for (size_t i = 0; is_register(operation, word) && i < sizeof bad / sizeof bad[0]; i++)
                FAULT(SAUSKINNA_FAULT_INSTRUCTION, operation, word == 1 ? bad[i] : 0, word == 2 ? bad[i] : 3, word == 3 ? bad[i] : 3);
}

static void bad_instructions(void)
{
    static const int32_t unknown[] = {12, -1, INT32_MIN, INT32_MAX, 256};
    for (size_t i = 0; i < sizeof unknown / sizeof unknown[0]; i++)
        FAULT(SAUSKINNA_FAULT_INSTRUCTION, unknown[i], 0, 0, 0);
    for (int word = 1; word < INSTRUCTION; word++) {
        FAULT(SAUSKINNA_FAULT_INSTRUCTION, SAUSKINNA_HALT, word == 1, word == 2, word == 3);
        FAULT(SAUSKINNA_FAULT_INSTRUCTION, SAUSKINNA_NOP, word == 1, word == 2, word == 3);
    }
    FAULT(SAUSKINNA_FAULT_INSTRUCTION, SAUSKINNA_JMP, 2, 1, 0);
    FAULT(SAUSKINNA_FAULT_INSTRUCTION, SAUSKINNA_JMP, 99, 0, -1);
}

static void faults(void)
{
    FAULT(SAUSKINNA_FAULT_ZERO, SAUSKINNA_ADD, 0, 2, 3);
    FAULT(SAUSKINNA_FAULT_ZERO, SAUSKINNA_ADDI, 0, 1, 2);
    FAULT(SAUSKINNA_FAULT_ZERO, SAUSKINNA_SUB, 0, 2, 3);
    FAULT(SAUSKINNA_FAULT_ZERO, SAUSKINNA_MUL, 0, 2, 3);
    FAULT(SAUSKINNA_FAULT_ZERO, SAUSKINNA_LOAD, 0, 2, 2);
    FAULT(SAUSKINNA_FAULT_ZERO, SAUSKINNA_LOAD, 0, 2, 3);
    FAULT(SAUSKINNA_FAULT_ZERO, SAUSKINNA_SLT, 0, 2, 3);
    FAULT(SAUSKINNA_FAULT_ADDRESS, SAUSKINNA_LOAD, 1, 2, 0);
    FAULT(SAUSKINNA_FAULT_ADDRESS, SAUSKINNA_LOAD, 1, 3, 0);
    FAULT(SAUSKINNA_FAULT_ADDRESS, SAUSKINNA_STORE, 2, 0, 1);
    FAULT(SAUSKINNA_FAULT_ADDRESS, SAUSKINNA_STORE, 0, 3, 1);
    FAULT(SAUSKINNA_FAULT_LABEL, SAUSKINNA_JMP, AROUND, 0, 0);
    FAULT(SAUSKINNA_FAULT_LABEL, SAUSKINNA_JMP, -1, 0, 0);
    FAULT(SAUSKINNA_FAULT_LABEL, SAUSKINNA_JMP, INT32_MIN, 0, 0);
    FAULT(SAUSKINNA_FAULT_LABEL, SAUSKINNA_BNE, 2, 3, AROUND);
    FAULT(SAUSKINNA_FAULT_LABEL, SAUSKINNA_BEQ, 0, 0, INT32_MAX);
}

/* A load and a store at $2 + $3 from a memory of three cells: within it, or a fault however the sum would wrap. */
static void address_at(int32_t base, int32_t index, int within, struct where where)
{
    static const int32_t access[] = {SAUSKINNA_LOAD, 1, 2, 3, SAUSKINNA_STORE, 2, 3, 4};
    struct machine m = machine_of(3), expected = machine_of(3);
    uint32_t ending = within ? SAUSKINNA_UNFINISHED : SAUSKINNA_FAULTED, fault = within ? SAUSKINNA_NO_FAULT : SAUSKINNA_FAULT_ADDRESS;
    for (uint32_t place = 0; place < 2; place++) {
        *m.place = place;
        m.registers[2] = base;
        m.registers[3] = index;
        m.registers[4] = 5;
        run_at((struct code){access, 2 * INSTRUCTION}, &m, 1, ending, fault, within ? 1 : 0, where);
    }
    if (within)
        expected.memory[base + index] = 5;
    check_at(memcmp(m.memory, expected.memory, bytes(m.cells)) == 0, "the memory after a store", where);
    end_machine(&m);
    end_machine(&expected);
}

#define ADDRESS(base, index, within) address_at((base), (index), (within), HERE)

static void addresses(void)
{
    ADDRESS(0, 0, 1);
    ADDRESS(0, 2, 1);
    ADDRESS(0, 3, 0);
    ADDRESS(0, -1, 0);
    ADDRESS(INT32_MAX, -INT32_MAX, 1);
    ADDRESS(INT32_MIN, INT32_MAX, 0);
    ADDRESS(-INT32_MAX, INT32_MAX, 1);
    ADDRESS(INT32_MIN, INT32_MIN, 0);
    ADDRESS(INT32_MIN, INT32_MIN + 2, 0);
    ADDRESS(INT32_MAX, INT32_MAX, 0);
    ADDRESS(65536, -65536, 1);
    ADDRESS(65536, 0, 0);
    ADDRESS(256, 0, 0);
}

/* Places outside a code of two nops. */
static void places(void)
{
    static const int32_t nops[2 * INSTRUCTION] = {SAUSKINNA_NOP, 0, 0, 0, SAUSKINNA_NOP, 0, 0, 0};
    static const uint32_t outside[] = {2, 3, 65536, UINT32_C(0x40000000), UINT32_C(0x80000000), UINT32_MAX};
    struct code code = {nops, 2 * INSTRUCTION};
    struct machine m = machine_of(1);
    for (size_t i = 0; i < sizeof outside / sizeof outside[0]; i++) {
        *m.place = outside[i];
        RUN(code, &m, 5, SAUSKINNA_FAULTED, SAUSKINNA_FAULT_PLACE, 0);
        SAME(*m.place, outside[i]);
        RUN(code, &m, 0, SAUSKINNA_UNFINISHED, SAUSKINNA_NO_FAULT, 0);
        SAME(*m.place, outside[i]);
    }
    *m.place = 0;
    RUN(code, &m, UINT32_MAX, SAUSKINNA_FAULTED, SAUSKINNA_FAULT_PLACE, 2);
    SAME(*m.place, 2);
    *m.place = 0;
    code.count = 0;
    RUN(code, &m, 1, SAUSKINNA_FAULTED, SAUSKINNA_FAULT_PLACE, 0);
    uint32_t answer[SAUSKINNA_ANSWER_WORDS];
    SAME(step_machine(code, &m, answer), SAUSKINNA_ACCEPTED);
    ANSWERS(answer, SAUSKINNA_FAULTED, SAUSKINNA_FAULT_PLACE, 0);
    end_machine(&m);
}

void test_machine(void)
{
    operations();
    bad_registers();
    bad_instructions();
    faults();
    addresses();
    places();
}
