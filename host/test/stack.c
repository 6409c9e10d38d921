/* stack.c: the bytes of stack that a call takes, a level and in all, beside those that the header asks for. */
#include <stdio.h>
#include <stdlib.h>

#include "assembling.h"
#include "compiling.h"
#include "machines.h"
#include "reading.h"
#include "subjects.h"
#include "threads.h"

/* ---- Deep rules: a kind of node within itself, in one of its words ---- */

struct nest {
    const char *name;
    int32_t kind;
    int word;
};

static const struct nest commands[] = {
    {"sequence, first", SAUSKINNA_SEQUENCE, 1}, {"sequence, second", SAUSKINNA_SEQUENCE, 2}, {"if, then", SAUSKINNA_IF, 2},
    {"if, else", SAUSKINNA_IF, 3},              {"while, body", SAUSKINNA_WHILE, 2},
};

static const struct nest expressions[] = {
    {"not", SAUSKINNA_NOT, 1},
    {"element", SAUSKINNA_ELEMENT, 2},
    {"binary, left", SAUSKINNA_EQUAL, 1},
    {"binary, right", SAUSKINNA_EQUAL, 2},
};

/* Where an expression stands in a command. */
static const struct nest between[] = {
    {"assign", SAUSKINNA_ASSIGN, 2},
    {"assign element, index", SAUSKINNA_ASSIGN_ELEMENT, 2},
    {"assign element, value", SAUSKINNA_ASSIGN_ELEMENT, 3},
    {"if, test", SAUSKINNA_IF, 1},
    {"while, test", SAUSKINNA_WHILE, 1},
};

#define COUNT(array) ((int)(sizeof(array) / sizeof(array)[0]))

/* A row of the nest's kind around a row; its other children are skips and values. */
static int32_t around(struct rule *r, const struct nest *nest, int32_t row)
{
    enum { X, AN_ARRAY };
    int32_t words[NODE] = {nest->kind, 0, 0, 0};
    for (int word = 1; word < NODE; word++) {
        char shape = shapes[nest->kind][word - 1];
        if (word == nest->word)
            words[word] = row;
        else if (shape == 'e')
            words[word] = add(r, SAUSKINNA_VALUE, 1, 0, 0);
        else if (shape == 'c')
            words[word] = add(r, SAUSKINNA_SKIP, 0, 0, 0);
        else if (shape == 'a')
            words[word] = AN_ARRAY;
    }
    return add(r, words[0], words[1], words[2], words[3]);
}

/* Rows that a level of the nest takes. */
static size_t rows_a_level(const struct nest *nest)
{
    struct rule r = empty_rule();
    around(&r, nest, 0);
    return rows_of(&r);
}

/* So many levels of commands around so many of expressions. */
static struct rule deep_rule(const struct nest *command, int commands, const struct nest *middle, const struct nest *expression,
                             int expressions)
{
    struct rule r = over_x();
    declare(&r, SAUSKINNA_ARRAY, 4);
    int32_t row = add(&r, SAUSKINNA_VALUE, 1, 0, 0);
    for (int i = 0; i < expressions; i++)
        row = around(&r, expression, row);
    row = around(&r, middle, row);
    for (int i = 0; i < commands; i++)
        row = around(&r, command, row);
    return r;
}

/* ---- Calls of compile, which end with the need, with the size, or with the code ---- */

enum pass { NEED, SIZE, CODE, PASSES };

struct compile_call {
    const struct rule *rule;
    enum pass pass;
    uint32_t number;
    struct compiled compiled;
};

static void compile_work(void *argument)
{
    struct compile_call *c = argument;
    const struct rule *r = c->rule;
    uint64_t pool = c->pass == NEED ? 0 : UINT64_MAX - 1;
    size_t words = c->pass == SIZE ? 0 : SAUSKINNA_ROOM(SAUSKINNA_ROWS);
    c->number = sauskinna_compile(r->declarations, r->declaration_words, r->nodes, r->node_words, pool, c->compiled.code, words,
                                  c->compiled.answer);
}

static size_t taken_by(const struct rule *r, enum pass pass)
{
    static const uint32_t expected[PASSES] = {SAUSKINNA_REFUSED_REGISTERS, SAUSKINNA_REFUSED_ROOM, SAUSKINNA_ACCEPTED};
    static struct compile_call c;
    c.rule = r;
    c.pass = pass;
    size_t taken = stack_taken(compile_work, &c);
    SAME(c.number, expected[pass]);
    CHECK(taken <= SAUSKINNA_STACK);
    return taken;
}

/* ---- Bytes a level, which are at most those that the header's comment has ---- */

static const size_t command_level[PASSES] = {64, 80, 224}, expression_level[PASSES] = {48, 64, 160};

enum { FEW = 5, MORE = 25 };

static size_t level_of(const struct nest *command, const struct nest *expression, enum pass pass)
{
    struct rule few = deep_rule(command, command == NULL ? 0 : FEW, between, expression, expression == NULL ? 0 : FEW);
    struct rule more = deep_rule(command, command == NULL ? 0 : MORE, between, expression, expression == NULL ? 0 : MORE);
    return (taken_by(&more, pass) - taken_by(&few, pass)) / (MORE - FEW);
}

static void check_levels(const struct nest *command, const struct nest *expression, const size_t most[PASSES])
{
    size_t level[PASSES];
    for (enum pass pass = NEED; pass < PASSES; pass++)
        level[pass] = level_of(command, expression, pass);
    printf("  %-24s %8zu %8zu %8zu\n", (command == NULL ? expression : command)->name, level[NEED], level[SIZE], level[CODE]);
    for (enum pass pass = NEED; pass < PASSES; pass++)
        CHECK(level[pass] <= most[pass]);
}

static void levels(void)
{
    printf("%-26s %8s %8s %8s\n", "stack, bytes a level:", "need", "size", "code");
    for (int i = 0; i < COUNT(commands); i++)
        check_levels(&commands[i], NULL, command_level);
    for (int i = 0; i < COUNT(expressions); i++)
        check_levels(NULL, &expressions[i], expression_level);
}

/* ---- The deepest rules ---- */

struct deepest {
    struct rule rule;
    enum pass pass;
    size_t taken;
};

static struct deepest deepest;

static void keep_deepest(const struct rule *r, enum pass pass)
{
    size_t taken = taken_by(r, pass);
    if (deepest.taken < taken)
        deepest = (struct deepest){*r, pass, taken};
}

/* The levels of commands that all rows allow around a rule. */
static int levels_left(const struct rule *r, const struct nest *command)
{
    return (int)((ROW_LIMIT - rows_of(r)) / rows_a_level(command));
}

/* The levels of an expression that the largest pool allows. */
static int levels_in_pool(const struct nest *middle, const struct nest *expression)
{
    for (int levels = 1;; levels++) {
        struct rule r = deep_rule(NULL, 0, middle, expression, levels);
        struct tables t = {r.declarations, r.nodes};
        if (need_of(&t, (int32_t)rows_of(&r) - 1) >= REGISTER_COUNT)
            return levels - 1;
    }
}

/* As deep as the pool allows within, and as deep as the rows allow around it. */
static void deepest_of(const struct nest *command, const struct nest *middle, const struct nest *expression)
{
    int inner = expression == NULL ? 0 : levels_in_pool(middle, expression);
    struct rule r = deep_rule(NULL, 0, middle, expression, inner);
    r = deep_rule(command, levels_left(&r, command), middle, expression, inner);
    for (enum pass pass = NEED; pass < PASSES; pass++)
        keep_deepest(&r, pass);
}

/* An expression as deep as the rows allow, which no pool is large enough for. */
static void deepest_need(const struct nest *middle, const struct nest *expression)
{
    struct rule r = deep_rule(NULL, 0, middle, NULL, 0);
    r = deep_rule(NULL, 0, middle, expression, (int)((ROW_LIMIT - rows_of(&r)) / rows_a_level(expression)));
    keep_deepest(&r, NEED);
}

static void deepest_rules(void)
{
    for (int i = 0; i < COUNT(between); i++) {
        for (int j = 0; j < COUNT(commands); j++) {
            deepest_of(&commands[j], &between[i], NULL);
            for (int k = 0; k < COUNT(expressions); k++)
                deepest_of(&commands[j], &between[i], &expressions[k]);
        }
        for (int k = 0; k < COUNT(expressions); k++)
            deepest_need(&between[i], &expressions[k]);
    }
    struct rule shallow = assign_rule(1);
    printf("stack, compile: %zu bytes for a rule of two rows, %zu for the deepest; the header asks for %d\n",
           taken_by(&shallow, CODE), deepest.taken, SAUSKINNA_STACK);
    static struct compile_call c;
    c.rule = &deepest.rule;
    c.pass = deepest.pass;
    if (deepest.taken <= SAUSKINNA_STACK)
        on_stack_of(SAUSKINNA_STACK, compile_work, &c);
}

/* ---- Run and step ---- */

/* Every operation, a jump, a fault at the end. */
static const int32_t every_operation[] = {
    SAUSKINNA_NOP,  0, 0, 0, SAUSKINNA_ADDI,  1, 1, 0, SAUSKINNA_ADD, 2, 1, 1, SAUSKINNA_SUB, 3, 2, 1,
    SAUSKINNA_MUL,  4, 2, 3, SAUSKINNA_STORE, 1, 2, 4, SAUSKINNA_LOAD, 5, 1, 2, SAUSKINNA_SLT, 6, 1, 2,
    SAUSKINNA_BNE,  1, 2, 9, SAUSKINNA_BEQ,   1, 1, 10, SAUSKINNA_JMP, 12, 0, 0, SAUSKINNA_HALT, 0, 0, 0,
    SAUSKINNA_LOAD, 1, 2, 4,
};

struct machine_call {
    struct machine machine;
    int by_steps;
};

static void machine_work(void *argument)
{
    struct machine_call *c = argument;
    struct code code = {every_operation, sizeof every_operation / sizeof every_operation[0]};
    uint32_t answer[SAUSKINNA_ANSWER_WORDS] = {SAUSKINNA_WENT_ON, 0, 0};
    *c->machine.place = 0;
    if (!c->by_steps)
        run_machine(code, &c->machine, UINT32_MAX, answer);
    while (answer[SAUSKINNA_ANSWER_ENDING] == SAUSKINNA_WENT_ON)
        step_machine(code, &c->machine, answer);
}

static void machine_calls(void)
{
    struct machine_call run = {machine_of(4), 0}, step = {machine_of(4), 1};
    size_t run_taken = stack_taken(machine_work, &run), step_taken = stack_taken(machine_work, &step);
    size_t taken = run_taken < step_taken ? step_taken : run_taken;
    printf("stack, run and step: %zu bytes; the header asks for %d\n", taken, SAUSKINNA_STACK_RUN);
    CHECK(taken <= SAUSKINNA_STACK_RUN);
    if (taken <= SAUSKINNA_STACK_RUN) {
        on_stack_of(SAUSKINNA_STACK_RUN, machine_work, &run);
        on_stack_of(SAUSKINNA_STACK_RUN, machine_work, &step);
    }
    end_machine(&run.machine);
    end_machine(&step.machine);
}

/* ---- Listing ---- */

struct listing_call {
    struct code code;
    uint8_t *text;
    size_t text_bytes;
    uint32_t number;
};

static void listing_work(void *argument)
{
    struct listing_call *c = argument;
    uint32_t answer[SAUSKINNA_ANSWER_WORDS];
    c->number = sauskinna_listing(c->code.words, c->code.count, c->text, c->text_bytes, answer);
}

/* Every operation, the longest number, and the first and the last line named, in a code of all places. */
static int32_t *longest_code(void)
{
    int32_t *code = nops(INSTRUCTION_LIMIT);
    for (size_t i = 0; i < sizeof every_operation / sizeof every_operation[0]; i++)
        code[i] = every_operation[i];
    set_at(code, INSTRUCTION_LIMIT - 3, WORDS(SAUSKINNA_JMP, 0, 0, 0));
    set_at(code, INSTRUCTION_LIMIT - 2, WORDS(SAUSKINNA_JMP, INSTRUCTION_LIMIT - 1, 0, 0));
    set_at(code, INSTRUCTION_LIMIT - 1, WORDS(SAUSKINNA_ADDI, 63, INT32_MIN, 63));
    return code;
}

/* The call returns this number, and the stack that it takes is what the header asks for, at most. */
static size_t listing_taken(struct listing_call c, uint32_t number)
{
    size_t taken = stack_taken(listing_work, &c);
    SAME(c.number, number);
    CHECK(taken <= SAUSKINNA_STACK_LISTING && taken <= SAUSKINNA_STACK);
    if (taken <= SAUSKINNA_STACK_LISTING)
        on_stack_of(SAUSKINNA_STACK_LISTING, listing_work, &c);
    return taken;
}

static void listing_calls(void)
{
    int32_t *words = longest_code();
    size_t room = SAUSKINNA_LINE * INSTRUCTION_LIMIT;
    uint8_t *text = malloc(room);
    if (text == NULL)
        give_up("no memory");
    struct code whole = {words, CODE_WORD_LIMIT}, none = {words, 0};
    size_t taken = listing_taken((struct listing_call){whole, text, room, 0}, SAUSKINNA_ACCEPTED);
    printf("stack, listing: %zu bytes for 65,536 instructions, %zu for none; the header asks for %d\n", taken,
           listing_taken((struct listing_call){none, text, 0, 0}, SAUSKINNA_ACCEPTED), SAUSKINNA_STACK_LISTING);
    listing_taken((struct listing_call){whole, text, 0, 0}, SAUSKINNA_REFUSED_TEXT_ROOM);
    set_at(words, INSTRUCTION_LIMIT - 1, WORDS(SAUSKINNA_JMP, INSTRUCTION_LIMIT, 0, 0));
    listing_taken((struct listing_call){whole, text, room, 0}, SAUSKINNA_REFUSED_INSTRUCTION);
    free(words);
    free(text);
}

void test_stack(void)
{
    levels();
    deepest_rules();
    machine_calls();
    listing_calls();
}
