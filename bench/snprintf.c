/* snprintf.c: the listing as it is written with the C library: snprintf prints each line, once to measure it and once more to keep it. */
#include <inttypes.h>
#include <stdio.h>
#include <string.h>

#include "plain.h"
#include "sauskinna.h"

enum { MAX_INSTRUCTIONS = SAUSKINNA_CODE_WORDS / 4, LINE_ROOM = 64 };

#define R "$%" PRIu32

static int is_register(uint32_t word)
{
    return word < SAUSKINNA_REGISTERS;
}

/* Whether words are an instruction without a label outside the code; gives that label, or the count where there is none. */
static int check(const uint32_t *words, uint32_t count, uint32_t *label)
{
    uint32_t a = words[1], b = words[2], c = words[3];
    *label = count;
    switch (words[0]) {
    case SAUSKINNA_HALT:
    case SAUSKINNA_NOP: return (a | b | c) == 0;
    case SAUSKINNA_ADDI: return is_register(a) && is_register(c);
    case SAUSKINNA_JMP: *label = a; return (b | c) == 0 && a < count;
    case SAUSKINNA_BNE:
    case SAUSKINNA_BEQ: *label = c; return is_register(a) && is_register(b) && c < count;
    default: return words[0] <= SAUSKINNA_SLT && is_register(a) && is_register(b) && is_register(c);
    }
}

static int print_instruction(char *to, const uint32_t *words)
{
    uint32_t a = words[1], b = words[2], c = words[3];
    switch (words[0]) {
    case SAUSKINNA_HALT: return snprintf(to, LINE_ROOM, "halt\n");
    case SAUSKINNA_NOP: return snprintf(to, LINE_ROOM, "nop\n");
    case SAUSKINNA_ADD: return snprintf(to, LINE_ROOM, "add " R " " R " " R "\n", a, b, c);
    case SAUSKINNA_ADDI: return snprintf(to, LINE_ROOM, "addi " R " %" PRId32 " " R "\n", a, (int32_t)b, c);
    case SAUSKINNA_SUB: return snprintf(to, LINE_ROOM, "sub " R " " R " " R "\n", a, b, c);
    case SAUSKINNA_MUL: return snprintf(to, LINE_ROOM, "mul " R " " R " " R "\n", a, b, c);
    case SAUSKINNA_LOAD: return snprintf(to, LINE_ROOM, "load " R " " R "[" R "]\n", a, b, c);
    case SAUSKINNA_STORE: return snprintf(to, LINE_ROOM, "store " R "[" R "] " R "\n", a, b, c);
    case SAUSKINNA_JMP: return snprintf(to, LINE_ROOM, "jmp L%" PRIu32 "\n", a);
    case SAUSKINNA_BNE: return snprintf(to, LINE_ROOM, "bne " R " " R " L%" PRIu32 "\n", a, b, c);
    case SAUSKINNA_BEQ: return snprintf(to, LINE_ROOM, "beq " R " " R " L%" PRIu32 "\n", a, b, c);
    default: return snprintf(to, LINE_ROOM, "slt " R " " R " " R "\n", a, b, c);
    }
}

/* Prints all lines, into the text or, where that is NULL, nowhere; gives their bytes. */
static size_t print_lines(uint8_t *text, const uint32_t *code, uint32_t count, const uint8_t *named)
{
    size_t bytes = 0;
    for (uint32_t place = 0; place < count; place++) {
        char line[2 * LINE_ROOM];
        int label = named[place] ? snprintf(line, LINE_ROOM, "L%" PRIu32 ": ", place) : 0;
        size_t size = (size_t)(label + print_instruction(line + label, code + 4 * (size_t)place));
        if (text != NULL)
            memcpy(text + bytes, line, size);
        bytes += size;
    }
    return bytes;
}

static uint32_t say(uint32_t answer[3], size_t value, uint32_t number)
{
    answer[0] = (uint32_t)value;
    answer[1] = 0;
    answer[2] = 0;
    return number;
}

uint32_t snprintf_listing(const int32_t *code, size_t code_words, uint8_t *text, size_t text_bytes, uint32_t answer[3])
{
    if (code_words % 4 != 0 || code_words > SAUSKINNA_CODE_WORDS)
        return say(answer, 0, SAUSKINNA_REFUSED_CODE_WORDS);
    const uint32_t *words = (const uint32_t *)code;
    uint32_t count = (uint32_t)(code_words / 4), label;
    uint8_t named[MAX_INSTRUCTIONS + 1] = {0};
    for (uint32_t place = 0; place < count; place++) {
        if (!check(words + 4 * (size_t)place, count, &label))
            return say(answer, place, SAUSKINNA_REFUSED_INSTRUCTION);
        named[label] = 1;
    }
    size_t needed = print_lines(NULL, words, count, named);
    if (text_bytes < needed)
        return say(answer, needed, SAUSKINNA_REFUSED_TEXT_ROOM);
    print_lines(text, words, count, named);
    return say(answer, needed, SAUSKINNA_ACCEPTED);
}
