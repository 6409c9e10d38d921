/* printer.c: the listing in plain C, which tests and benchmarks hold the library against. It measures, and then writes. */
#include "plain.h"

#include <string.h>

enum { MAX_CODE_WORDS = 262144, MAX_INSTRUCTIONS = MAX_CODE_WORDS / 4, REGISTERS = 64 };

enum { HALT, NOP, ADD, ADDI, SUB, MUL, LOAD, STORE, JMP, BNE, BEQ, SLT, OPERATIONS };

/* How the words of an operation are written. */
enum form { BARE, THREE, IMMEDIATE, LOADING, STORING, JUMP, BRANCH };

struct operation {
    char name[6];
    uint8_t name_bytes;
    uint8_t form;
};

static const struct operation operations[OPERATIONS] = {
    [HALT] = {"halt", 4, BARE},
    [NOP] = {"nop", 3, BARE},
    [ADD] = {"add", 3, THREE},
    [ADDI] = {"addi", 4, IMMEDIATE},
    [SUB] = {"sub", 3, THREE},
    [MUL] = {"mul", 3, THREE},
    [LOAD] = {"load", 4, LOADING},
    [STORE] = {"store", 5, STORING},
    [JMP] = {"jmp", 3, JUMP},
    [BNE] = {"bne", 3, BRANCH},
    [BEQ] = {"beq", 3, BRANCH},
    [SLT] = {"slt", 3, THREE},
};

/* ---- Refusal 21, and the lines that jumps name ---- */

static int is_register(int32_t word)
{
    return 0 <= word && word < REGISTERS;
}

static int is_formed(const int32_t *words)
{
    int32_t a = words[1], b = words[2], c = words[3];
    if ((uint32_t)words[0] >= OPERATIONS)
        return 0;
    switch (operations[words[0]].form) {
    case BARE: return (a | b | c) == 0;
    case IMMEDIATE: return is_register(a) && is_register(c);
    case JUMP: return (b | c) == 0;
    case BRANCH: return is_register(a) && is_register(b);
    default: return is_register(a) && is_register(b) && is_register(c);
    }
}

/* The label of a jump, or NULL. */
static const int32_t *label_of(const int32_t *words)
{
    switch (operations[words[0]].form) {
    case JUMP: return words + 1;
    case BRANCH: return words + 3;
    default: return NULL;
    }
}

/* Marks the lines that jumps name; gives the first instruction that cannot be listed, or the count. */
static uint32_t mark(const int32_t *code, uint32_t count, uint8_t named[MAX_INSTRUCTIONS])
{
    memset(named, 0, MAX_INSTRUCTIONS);
    for (uint32_t place = 0; place < count; place++) {
        const int32_t *words = code + 4 * (size_t)place;
        if (!is_formed(words))
            return place;
        const int32_t *label = label_of(words);
        if (label == NULL)
            continue;
        if ((uint32_t)*label >= count)
            return place;
        named[*label] = 1;
    }
    return count;
}

/* ---- Bytes needed ---- */

static size_t digits_of(uint32_t number)
{
    size_t digits = 1;
    for (; number >= 10; number /= 10)
        digits++;
    return digits;
}

static uint32_t magnitude(int32_t number)
{
    return number < 0 ? 0 - (uint32_t)number : (uint32_t)number;
}

static size_t register_bytes(int32_t number)
{
    return number < 10 ? 2 : 3;
}

static size_t number_bytes(int32_t number)
{
    return (number < 0) + digits_of(magnitude(number));
}

static size_t label_bytes(uint32_t label)
{
    return 1 + digits_of(label);
}

/* The words after the name, each with its blank. */
static size_t word_bytes(enum form form, int32_t a, int32_t b, int32_t c)
{
    switch (form) {
    case BARE: return 0;
    case THREE: return 3 + register_bytes(a) + register_bytes(b) + register_bytes(c);
    case IMMEDIATE: return 3 + register_bytes(a) + number_bytes(b) + register_bytes(c);
    case JUMP: return 1 + label_bytes((uint32_t)a);
    case BRANCH: return 3 + register_bytes(a) + register_bytes(b) + label_bytes((uint32_t)c);
    default: return 4 + register_bytes(a) + register_bytes(b) + register_bytes(c);
    }
}

static size_t bytes_needed(const int32_t *code, uint32_t count, const uint8_t *named)
{
    size_t bytes = 0;
    for (uint32_t place = 0; place < count; place++) {
        const int32_t *words = code + 4 * (size_t)place;
        const struct operation *operation = &operations[words[0]];
        if (named[place])
            bytes += label_bytes(place) + 2;
        bytes += operation->name_bytes + word_bytes(operation->form, words[1], words[2], words[3]) + 1;
    }
    return bytes;
}

/* ---- Writing: each function gives the place after what it wrote ---- */

static uint8_t *put_digits(uint8_t *to, uint32_t number)
{
    uint8_t *end = to + digits_of(number);
    to = end;
    do {
        *--to = (uint8_t)('0' + number % 10);
        number /= 10;
    } while (number > 0);
    return end;
}

static uint8_t *put_register(uint8_t *to, int32_t number)
{
    *to++ = '$';
    return put_digits(to, (uint32_t)number);
}

static uint8_t *put_number(uint8_t *to, int32_t number)
{
    if (number < 0)
        *to++ = '-';
    return put_digits(to, magnitude(number));
}

static uint8_t *put_label(uint8_t *to, uint32_t label)
{
    *to++ = 'L';
    return put_digits(to, label);
}

static uint8_t *put_blank(uint8_t *to)
{
    *to = ' ';
    return to + 1;
}

static uint8_t *put_address(uint8_t *to, int32_t base, int32_t index)
{
    to = put_register(to, base);
    *to++ = '[';
    to = put_register(to, index);
    *to++ = ']';
    return to;
}

static uint8_t *put_words(uint8_t *to, enum form form, int32_t a, int32_t b, int32_t c)
{
    if (form == BARE)
        return to;
    to = put_blank(to);
    switch (form) {
    case JUMP: return put_label(to, (uint32_t)a);
    case LOADING: return put_address(put_blank(put_register(to, a)), b, c);
    case STORING: return put_register(put_blank(put_address(to, a, b)), c);
    case IMMEDIATE: return put_register(put_blank(put_number(put_blank(put_register(to, a)), b)), c);
    case BRANCH: return put_label(put_blank(put_register(put_blank(put_register(to, a)), b)), (uint32_t)c);
    default: return put_register(put_blank(put_register(put_blank(put_register(to, a)), b)), c);
    }
}

static uint8_t *put_line(uint8_t *to, const int32_t *words)
{
    const struct operation *operation = &operations[words[0]];
    memcpy(to, operation->name, operation->name_bytes);
    to = put_words(to + operation->name_bytes, operation->form, words[1], words[2], words[3]);
    *to = '\n';
    return to + 1;
}

static void put_lines(uint8_t *to, const int32_t *code, uint32_t count, const uint8_t *named)
{
    for (uint32_t place = 0; place < count; place++) {
        if (named[place]) {
            to = put_label(to, place);
            *to++ = ':';
            to = put_blank(to);
        }
        to = put_line(to, code + 4 * (size_t)place);
    }
}

static uint32_t say(uint32_t answer[3], size_t value, uint32_t number)
{
    answer[0] = (uint32_t)value;
    answer[1] = 0;
    answer[2] = 0;
    return number;
}

uint32_t plain_listing(const int32_t *code, size_t code_words, uint8_t *text, size_t text_bytes, uint32_t answer[3])
{
    if (code_words % 4 != 0 || code_words > MAX_CODE_WORDS)
        return say(answer, 0, 13);
    uint32_t count = (uint32_t)(code_words / 4);
    uint8_t named[MAX_INSTRUCTIONS];
    uint32_t first_bad = mark(code, count, named);
    if (first_bad < count)
        return say(answer, first_bad, 21);
    size_t needed = bytes_needed(code, count, named);
    if (text_bytes < needed)
        return say(answer, needed, 22);
    put_lines(text, code, count, named);
    return say(answer, needed, 0);
}
