/* unlisted.c: refusals 13 and 21 of a listing, and their order before 22. */
#include <stdlib.h>

#include "assembling.h"
#include "printing.h"
#include "sauskinna.h"
#include "subjects.h"
#include "texts.h"

static void code_words(void)
{
    int32_t *words = nops(SAUSKINNA_CODE_WORDS / INSTRUCTION + 1);
    for (size_t count = 1; count < INSTRUCTION; count++) {
        LISTS_NOT(((struct code){words, count}), SAUSKINNA_LINE, SAUSKINNA_REFUSED_CODE_WORDS, 0);
        LISTS_NOT(((struct code){words, SAUSKINNA_CODE_WORDS - count}), 0, SAUSKINNA_REFUSED_CODE_WORDS, 0);
        LISTS_NOT(((struct code){words, SAUSKINNA_CODE_WORDS + count}), 0, SAUSKINNA_REFUSED_CODE_WORDS, 0);
    }
    LISTS_NOT(((struct code){words, SAUSKINNA_CODE_WORDS + INSTRUCTION}), SAUSKINNA_LINE * SAUSKINNA_CODE_WORDS,
              SAUSKINNA_REFUSED_CODE_WORDS, 0);
    ALL_AS_PRINTED(((struct code){words, SAUSKINNA_CODE_WORDS}));
    free(words);
}

/* The instruction stands between two others, and is refused with its place, whether there is room for a listing or not. */
static void bad(const int32_t words[INSTRUCTION])
{
    int32_t code[][INSTRUCTION] = {
        {SAUSKINNA_BNE, 1, 2, 2}, {words[0], words[1], words[2], words[3]}, {SAUSKINNA_JMP, 0, 0, 0},
    };
    LISTS_NOT(CODE(code), 3 * SAUSKINNA_LINE, SAUSKINNA_REFUSED_INSTRUCTION, 1);
    LISTS_NOT(CODE(code), 0, SAUSKINNA_REFUSED_INSTRUCTION, 1);
}

static void bad_words(int32_t operation, int word, const int32_t *values, size_t count)
{
    for (size_t i = 0; i < count; i++) {
        int32_t words[INSTRUCTION] = {operation, 0, 0, 0};
        words[word] = values[i];
        bad(words);
    }
}

#define BAD_WORDS(operation, word, values) bad_words((operation), (word), (values), sizeof(values) / sizeof(values)[0])

/* Each form of fault 2, and each label outside the code of three: the branches are on $0 and $0, so that bne is never taken. */
static void bad_instructions(void)
{
    static const int32_t no_operation[] = {12, 13, -1, 256, 65536, INT32_MIN, INT32_MAX};
    static const int32_t no_register[] = {64, 65, -1, 128, 256, 65536, INT32_MIN, INT32_MAX};
    static const int32_t no_label[] = {3, 4, 65535, 65536, -1, INT32_MIN, INT32_MAX};
    static const int32_t used[] = {1, -1, 256, 65536, INT32_MIN, INT32_MAX};
    BAD_WORDS(0, 0, no_operation);
    for (int32_t operation = SAUSKINNA_HALT; operation <= SAUSKINNA_SLT; operation++)
        for (int word = 1; word < INSTRUCTION; word++)
            switch (operands[operation][word - 1]) {
            case 'r': BAD_WORDS(operation, word, no_register); break;
            case 'l': BAD_WORDS(operation, word, no_label); break;
            case '-': BAD_WORDS(operation, word, used); break;
            default: break;
            }
}

/* The lowest of several: a form of fault 2 before a label outside, and the other way round; and the last place of all. */
static void lowest(void)
{
    static const int32_t form_first[][INSTRUCTION] = {
        {SAUSKINNA_NOP, 0, 0, 0}, {SAUSKINNA_ADD, 64, 0, 0}, {SAUSKINNA_JMP, 4, 0, 0}, {SAUSKINNA_HALT, 1, 0, 0},
    };
    static const int32_t label_first[][INSTRUCTION] = {
        {SAUSKINNA_NOP, 0, 0, 0}, {SAUSKINNA_NOP, 0, 0, 0}, {SAUSKINNA_BNE, 0, 0, 4}, {SAUSKINNA_HALT, 1, 0, 0},
    };
    LISTS_NOT(CODE(form_first), 0, SAUSKINNA_REFUSED_INSTRUCTION, 1);
    LISTS_NOT(CODE(label_first), 0, SAUSKINNA_REFUSED_INSTRUCTION, 2);
    int32_t *words = nops(INSTRUCTION_LIMIT);
    struct code code = {words, CODE_WORD_LIMIT};
    set_at(words, INSTRUCTION_LIMIT - 1, WORDS(SAUSKINNA_BEQ, 1, 2, INSTRUCTION_LIMIT));
    LISTS_NOT(code, 0, SAUSKINNA_REFUSED_INSTRUCTION, INSTRUCTION_LIMIT - 1);
    set_at(words, 40000, WORDS(SAUSKINNA_SLT, 1, 2, 64));
    LISTS_NOT(code, 0, SAUSKINNA_REFUSED_INSTRUCTION, 40000);
    free(words);
}

/* Code with a word more than instructions, and with an instruction too many, whose first is bad, and no room: 13; without them, 21. */
static void order(void)
{
    int32_t *words = nops(INSTRUCTION_LIMIT + 1);
    set_at(words, 0, WORDS(SAUSKINNA_HALT, 0, 0, 1));
    LISTS_NOT(((struct code){words, INSTRUCTION + 1}), 0, SAUSKINNA_REFUSED_CODE_WORDS, 0);
    LISTS_NOT(((struct code){words, INSTRUCTION}), 0, SAUSKINNA_REFUSED_INSTRUCTION, 0);
    LISTS_NOT(((struct code){words, CODE_WORD_LIMIT + INSTRUCTION}), 0, SAUSKINNA_REFUSED_CODE_WORDS, 0);
    LISTS_NOT(((struct code){words, CODE_WORD_LIMIT}), 0, SAUSKINNA_REFUSED_INSTRUCTION, 0);
    free(words);
}

void test_unlisted(void)
{
    code_words();
    bad_instructions();
    lowest();
    order();
}
