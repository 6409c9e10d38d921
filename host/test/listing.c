/* listing.c: how each operation, register, number and label is written, and texts of every length. */
#include <stdlib.h>
#include <string.h>

#include "assembling.h"
#include "compiling.h"
#include "printing.h"
#include "random.h"
#include "subjects.h"
#include "texts.h"

/* ---- Lines, byte for byte ---- */

struct line {
    int32_t words[INSTRUCTION];
    const char *text;
};

static void operations(void)
{
    static const struct line lines[] = {
        {{SAUSKINNA_HALT, 0, 0, 0}, "halt\n"},
        {{SAUSKINNA_NOP, 0, 0, 0}, "nop\n"},
        {{SAUSKINNA_ADD, 1, 2, 3}, "add $1 $2 $3\n"},
        {{SAUSKINNA_ADD, 0, 63, 10}, "add $0 $63 $10\n"},
        {{SAUSKINNA_ADDI, 1, -2, 3}, "addi $1 -2 $3\n"},
        {{SAUSKINNA_SUB, 1, 2, 3}, "sub $1 $2 $3\n"},
        {{SAUSKINNA_MUL, 1, 2, 3}, "mul $1 $2 $3\n"},
        {{SAUSKINNA_LOAD, 1, 2, 0}, "load $1 $2[$0]\n"},
        {{SAUSKINNA_STORE, 2, 0, 1}, "store $2[$0] $1\n"},
        {{SAUSKINNA_JMP, 0, 0, 0}, "L0: jmp L0\n"},
        {{SAUSKINNA_BNE, 1, 2, 0}, "L0: bne $1 $2 L0\n"},
        {{SAUSKINNA_BEQ, 1, 2, 0}, "L0: beq $1 $2 L0\n"},
        {{SAUSKINNA_SLT, 1, 2, 3}, "slt $1 $2 $3\n"},
    };
    for (size_t i = 0; i < sizeof lines / sizeof lines[0]; i++)
        LISTS(((struct code){lines[i].words, INSTRUCTION}), lines[i].text);
}

static void numbers(void)
{
    static const struct line lines[] = {
        {{SAUSKINNA_ADDI, 1, 0, 0}, "addi $1 0 $0\n"},
        {{SAUSKINNA_ADDI, 1, 1, 0}, "addi $1 1 $0\n"},
        {{SAUSKINNA_ADDI, 1, -1, 0}, "addi $1 -1 $0\n"},
        {{SAUSKINNA_ADDI, 1, 9, 0}, "addi $1 9 $0\n"},
        {{SAUSKINNA_ADDI, 1, 10, 0}, "addi $1 10 $0\n"},
        {{SAUSKINNA_ADDI, 1, 99, 0}, "addi $1 99 $0\n"},
        {{SAUSKINNA_ADDI, 1, 100, 0}, "addi $1 100 $0\n"},
        {{SAUSKINNA_ADDI, 1, -100, 0}, "addi $1 -100 $0\n"},
        {{SAUSKINNA_ADDI, 1, INT32_MAX, 0}, "addi $1 2147483647 $0\n"},
        {{SAUSKINNA_ADDI, 1, -INT32_MAX, 0}, "addi $1 -2147483647 $0\n"},
        {{SAUSKINNA_ADDI, 1, INT32_MIN, 0}, "addi $1 -2147483648 $0\n"},
    };
    for (size_t i = 0; i < sizeof lines / sizeof lines[0]; i++)
        LISTS(((struct code){lines[i].words, INSTRUCTION}), lines[i].text);
}

/* x := 2, as compiled. */
static void settled(void)
{
    struct rule r = assign_rule(2);
    const struct compiled *c = ACCEPT(r, pool_of(1, 2));
    LISTS(((struct code){c->code, code_words_of(c)}), "addi $1 2 $0\naddi $2 0 $0\nstore $2[$0] $1\nhalt\n");
}

/* Jumps forward, backward and to themselves, several to one line, and one that is never taken. */
static void labels(void)
{
    static const int32_t code[][INSTRUCTION] = {
        {SAUSKINNA_JMP, 3, 0, 0}, {SAUSKINNA_BNE, 0, 0, 7}, {SAUSKINNA_BEQ, 1, 2, 3}, {SAUSKINNA_NOP, 0, 0, 0},
        {SAUSKINNA_JMP, 4, 0, 0}, {SAUSKINNA_BNE, 1, 2, 3}, {SAUSKINNA_ADDI, 5, 3, 5}, {SAUSKINNA_HALT, 0, 0, 0},
    };
    LISTS(CODE(code), "jmp L3\nbne $0 $0 L7\nbeq $1 $2 L3\nL3: nop\n"
                      "L4: jmp L4\nbne $1 $2 L3\naddi $5 3 $5\nL7: halt\n");
}

static void no_code(void)
{
    static const int32_t none[INSTRUCTION];
    LISTS(((struct code){none, 0}), "");
}

/* ---- Lines beside the test's own printing ---- */

/* Every register in each word of each operation that names one. */
static void registers(void)
{
    static struct built b;
    for (int32_t operation = SAUSKINNA_HALT; operation <= SAUSKINNA_SLT; operation++)
        for (int word = 1; word < INSTRUCTION; word++)
            for (int32_t r = 0; operands[operation][word - 1] == 'r' && r < SAUSKINNA_REGISTERS; r++) {
                int32_t words[INSTRUCTION] = {operation, 7, 20, 31};
                words[word] = r;
                append(&b, words);
            }
    ALL_AS_PRINTED(code_of(&b));
}

/* Numbers around each power of ten, of both signs, and numbers at random. */
static void more_numbers(void)
{
    static struct built b;
    for (int64_t power = 1; power <= INT32_MAX; power *= 10)
        for (int64_t near = power - 1; near <= power + 1; near++) {
            append(&b, WORDS(SAUSKINNA_ADDI, 1, (int32_t)near, 2));
            append(&b, WORDS(SAUSKINNA_ADDI, 1, (int32_t)-near, 2));
        }
    for (int i = 0; i < 1000; i++)
        append(&b, WORDS(SAUSKINNA_ADDI, 63, (int32_t)any(), 63));
    ALL_AS_PRINTED(code_of(&b));
}

/* The first and the last line name each other, and the last is as long as a line can be. */
static void longest_line(void)
{
    int32_t *words = nops(INSTRUCTION_LIMIT);
    struct code code = {words, CODE_WORD_LIMIT};
    set_at(words, 0, WORDS(SAUSKINNA_JMP, INSTRUCTION_LIMIT - 1, 0, 0));
    set_at(words, INSTRUCTION_LIMIT - 1, WORDS(SAUSKINNA_BNE, 1, 2, 0));
    ALL_AS_PRINTED(code);
    set_at(words, INSTRUCTION_LIMIT - 1, WORDS(SAUSKINNA_ADDI, 63, INT32_MIN, 63));
    size_t with_longest = ALL_AS_PRINTED(code);
    set_at(words, INSTRUCTION_LIMIT - 1, WORDS(SAUSKINNA_NOP, 0, 0, 0));
    size_t with_nop = ALL_AS_PRINTED(code);
    SAME(with_longest - with_nop + strlen("L65535: nop\n"), SAUSKINNA_LINE);
    free(words);
}

/* Every line is a jump, each to its place plus a fixed distance, so that every line is named; then every second one. */
static void every_label(void)
{
    enum { DISTANCE = 40503 };
    int32_t *words = nops(INSTRUCTION_LIMIT);
    struct code code = {words, CODE_WORD_LIMIT};
    for (uint32_t i = 0; i < INSTRUCTION_LIMIT; i++)
        set_at(words, i, WORDS(SAUSKINNA_BEQ, 1, 2, (int32_t)((i + DISTANCE) % INSTRUCTION_LIMIT)));
    ALL_AS_PRINTED(code);
    for (uint32_t i = 0; i < INSTRUCTION_LIMIT; i++)
        set_at(words, i, WORDS(SAUSKINNA_JMP, (int32_t)(2 * i % INSTRUCTION_LIMIT), 0, 0));
    ALL_AS_PRINTED(code);
    free(words);
}

/* ---- Texts of every length ---- */

static void every_length(struct code code)
{
    size_t needed = ALL_AS_PRINTED(code);
    for (size_t text_bytes = 0; text_bytes < needed; text_bytes++)
        LISTS_NOT(code, text_bytes, SAUSKINNA_REFUSED_TEXT_ROOM, (uint32_t)needed);
    AS_PRINTED(code, needed);
    AS_PRINTED(code, needed + 1);
}

static void lengths(void)
{
    static const int32_t halt[][INSTRUCTION] = {{SAUSKINNA_HALT, 0, 0, 0}};
    static const int32_t loop[][INSTRUCTION] = {
        {SAUSKINNA_ADDI, 12, -345, 0}, {SAUSKINNA_STORE, 2, 0, 11}, {SAUSKINNA_BNE, 1, 2, 0}, {SAUSKINNA_JMP, 1, 0, 0},
    };
    every_length(CODE(halt));
    every_length(CODE(loop));
    struct rule r = every_kind();
    const struct compiled *c = ACCEPT(r, ALL_BUT_ZERO);
    every_length((struct code){c->code, code_words_of(c)});
}

void test_listing(void)
{
    operations();
    numbers();
    settled();
    labels();
    no_code();
    registers();
    more_numbers();
    longest_line();
    every_label();
    lengths();
}
