/* codes.c: builds the codes that are listed. */
#include "codes.h"

#include <string.h>

#include "plain.h"
#include "rules.h"

static void put(int32_t *code, uint32_t place, int32_t operation, int32_t a, int32_t b, int32_t c)
{
    memcpy(code + 4 * (size_t)place, (int32_t[]){operation, a, b, c}, 4 * sizeof(int32_t));
}

/* A label that is moved to where its rule stands; in a rule that is cut off it may be the last instruction. */
static int32_t moved(int32_t label, uint32_t by, uint32_t instructions)
{
    uint32_t to = (uint32_t)label + by;
    return (int32_t)(to < instructions ? to : instructions - 1);
}

/* Lays a rule's code from a place on, as much of it as the code holds; gives the place after it. */
static uint32_t lay(void (*build)(struct rule *), int32_t *code, uint32_t place, uint32_t instructions)
{
    static int32_t words[SAUSKINNA_ROOM(SAUSKINNA_ROWS)];
    static struct rule r;
    uint32_t answer[SAUSKINNA_ANSWER_WORDS];
    memset(&r, 0, sizeof r);
    build(&r);
    plain_compile(r.declarations, r.declaration_words, r.nodes, r.node_words, UINT64_MAX - 1, words, SAUSKINNA_ROOM(SAUSKINNA_ROWS),
                  answer);
    for (uint32_t i = 0; i < answer[SAUSKINNA_ANSWER_INSTRUCTIONS] && place + i < instructions; i++) {
        int32_t *w = words + 4 * (size_t)i;
        if (w[0] == SAUSKINNA_JMP)
            w[1] = moved(w[1], place, instructions);
        if (w[0] == SAUSKINNA_BNE || w[0] == SAUSKINNA_BEQ)
            w[3] = moved(w[3], place, instructions);
        put(code, place + i, w[0], w[1], w[2], w[3]);
    }
    return place + answer[SAUSKINNA_ANSWER_INSTRUCTIONS];
}

void compiled_code(int32_t *code, uint32_t instructions)
{
    static void (*const rules[])(struct rule *) = {arithmetic_loop, sieve, nested_ifs};
    uint32_t place = 0;
    for (int i = 0; place < instructions; i++)
        place = lay(rules[i % 3], code, place, instructions);
}

void jumps(int32_t *code, uint32_t instructions)
{
    enum { ODD = 40503 };
    for (uint32_t i = 0; i < instructions; i++) {
        int32_t label = (int32_t)((i * ODD + 1) % instructions), a = (int32_t)(i % SAUSKINNA_REGISTERS);
        switch (i % 3) {
        case 0: put(code, i, SAUSKINNA_JMP, label, 0, 0); break;
        case 1: put(code, i, SAUSKINNA_BNE, a, 0, label); break;
        default: put(code, i, SAUSKINNA_BEQ, a, 0, label); break;
        }
    }
}
