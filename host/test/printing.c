/* printing.c: prints code line by line with snprintf, and finds the lines that jumps name in a sorted list of their labels. */
#include "printing.h"

#include <stdio.h>
#include <stdlib.h>

const char *const operands[OPERATIONS] = {
    [HALT] = "---", [NOP] = "---",   [ADD] = "rrr", [ADDI] = "rnr", [SUB] = "rrr", [MUL] = "rrr",
    [LOAD] = "rrr", [STORE] = "rrr", [JMP] = "l--", [BNE] = "rrl",  [BEQ] = "rrl", [SLT] = "rrr",
};

/* No line is as long. */
enum { LINE_ROOM = 64 };

static size_t instructions_in(struct code code)
{
    return code.count / INSTRUCTION;
}

static void *memory_for(size_t size)
{
    void *memory = malloc(size + 1);
    if (memory == NULL)
        give_up("no memory");
    return memory;
}

/* ---- Refusals ---- */

static int fits(char operand, int32_t word, size_t instructions)
{
    switch (operand) {
    case 'r': return 0 <= word && word < REGISTER_COUNT;
    case 'l': return 0 <= word && word < (int32_t)instructions;
    case '-': return word == 0;
    default: return 1;
    }
}

static int can_print(const int32_t *words, size_t instructions)
{
    if (words[0] < HALT || words[0] > SLT)
        return 0;
    for (int word = 1; word < INSTRUCTION; word++)
        if (!fits(operands[words[0]][word - 1], words[word], instructions))
            return 0;
    return 1;
}

static struct printed refusal_of(struct code code)
{
    if (code.count % INSTRUCTION != 0 || code.count > CODE_WORD_LIMIT)
        return (struct printed){13, 0, NULL, 0};
    for (size_t i = 0; i < instructions_in(code); i++)
        if (!can_print(code.words + INSTRUCTION * i, instructions_in(code)))
            return (struct printed){21, (uint32_t)i, NULL, 0};
    return (struct printed){0, 0, NULL, 0};
}

/* ---- Labels ---- */

struct labels {
    int32_t *all;
    size_t count;
};

static int by_number(const void *x, const void *y)
{
    int32_t a = *(const int32_t *)x, b = *(const int32_t *)y;
    return (a > b) - (a < b);
}

static struct labels labels_in(struct code code)
{
    struct labels l = {memory_for(instructions_in(code) * sizeof(int32_t)), 0};
    for (const int32_t *words = code.words; words < code.words + code.count; words += INSTRUCTION)
        for (int word = 1; word < INSTRUCTION; word++)
            if (operands[words[0]][word - 1] == 'l')
                l.all[l.count++] = words[word];
    qsort(l.all, l.count, sizeof(int32_t), by_number);
    return l;
}

static int is_named(const struct labels *l, int32_t place)
{
    return bsearch(&place, l->all, l->count, sizeof(int32_t), by_number) != NULL;
}

/* ---- Lines ---- */

static int print_instruction(char *to, const int32_t *words)
{
    int a = words[1], b = words[2], c = words[3];
    switch (words[0]) {
    case HALT: return snprintf(to, LINE_ROOM, "halt\n");
    case NOP: return snprintf(to, LINE_ROOM, "nop\n");
    case ADD: return snprintf(to, LINE_ROOM, "add $%d $%d $%d\n", a, b, c);
    case ADDI: return snprintf(to, LINE_ROOM, "addi $%d %d $%d\n", a, b, c);
    case SUB: return snprintf(to, LINE_ROOM, "sub $%d $%d $%d\n", a, b, c);
    case MUL: return snprintf(to, LINE_ROOM, "mul $%d $%d $%d\n", a, b, c);
    case LOAD: return snprintf(to, LINE_ROOM, "load $%d $%d[$%d]\n", a, b, c);
    case STORE: return snprintf(to, LINE_ROOM, "store $%d[$%d] $%d\n", a, b, c);
    case JMP: return snprintf(to, LINE_ROOM, "jmp L%d\n", a);
    case BNE: return snprintf(to, LINE_ROOM, "bne $%d $%d L%d\n", a, b, c);
    case BEQ: return snprintf(to, LINE_ROOM, "beq $%d $%d L%d\n", a, b, c);
    default: return snprintf(to, LINE_ROOM, "slt $%d $%d $%d\n", a, b, c);
    }
}

struct printed print_code(struct code code)
{
    struct printed p = refusal_of(code);
    if (p.number != 0)
        return p;
    struct labels labels = labels_in(code);
    p.text = memory_for(2 * LINE_ROOM * instructions_in(code));
    for (size_t i = 0; i < instructions_in(code); i++) {
        if (is_named(&labels, (int32_t)i))
            p.bytes += (size_t)snprintf(p.text + p.bytes, LINE_ROOM, "L%zu: ", i);
        p.bytes += (size_t)print_instruction(p.text + p.bytes, code.words + INSTRUCTION * i);
    }
    free(labels.all);
    return p;
}

void end_printed(struct printed *p)
{
    free(p->text);
}
