/* listings.c: has every side list codes: the timed ones in texts of several lengths, each refusal, and each operation with odd words. */
#include <stdio.h>
#include <string.h>

#include "codes.h"
#include "sauskinna.h"
#include "sides.h"

enum { INSTRUCTIONS = SAUSKINNA_CODE_WORDS / 4, TEXT = SAUSKINNA_LINE * INSTRUCTIONS, BEYOND = 64, UNTOUCHED = 0xa5 };

/* All that a call may change, and bytes beyond it. */
struct listing {
    uint32_t answer[4];
    uint8_t text[TEXT + BEYOND];
};

static int32_t code[SAUSKINNA_CODE_WORDS + 4];

/* Only the bytes of the text that are lent, and those beyond it, are set and looked at. */
static void list_on(const struct side *side, size_t code_words, size_t text_bytes, struct listing *l)
{
    memset(l, UNTOUCHED, sizeof l->answer + text_bytes + BEYOND);
    l->answer[0] = side->listing(code, code_words, l->text, text_bytes, l->answer + 1);
}

/* Gives what the library returns. */
static uint32_t try_text(size_t code_words, size_t text_bytes, const char *what)
{
    static struct listing expected, found;
    list_on(&sides[LIBRARY], code_words, text_bytes, &expected);
    for (const struct side *side = sides + 1; side < sides + SIDES; side++) {
        if (side->listing == NULL)
            continue;
        list_on(side, code_words, text_bytes, &found);
        if (memcmp(&found, &expected, sizeof found.answer + text_bytes + BEYOND) != 0)
            differs(side, what);
    }
    return expected.answer[0];
}

static void try_code(size_t code_words, size_t text_bytes, uint32_t expected, const char *what)
{
    if (try_text(code_words, text_bytes, what) != expected)
        differs(&sides[LIBRARY], what);
}

/* In texts with room for every line, for some, and for none; then with the last word wrong, and without it. */
static void try_built(void (*build)(int32_t *, uint32_t), uint32_t instructions, const char *what)
{
    size_t words = 4 * (size_t)instructions, room = SAUSKINNA_LINE * (size_t)instructions;
    memset(code, 0, sizeof code);
    build(code, instructions);
    try_code(words, room, SAUSKINNA_ACCEPTED, what);
    try_code(words, 5 * instructions, SAUSKINNA_REFUSED_TEXT_ROOM, what);
    try_code(words, 0, SAUSKINNA_REFUSED_TEXT_ROOM, what);
    code[words - 1] = -1;
    try_code(words, room, SAUSKINNA_REFUSED_INSTRUCTION, what);
    try_code(words, 0, SAUSKINNA_REFUSED_INSTRUCTION, what);
    try_code(words - 1, room, SAUSKINNA_REFUSED_CODE_WORDS, what);
}

/* Every operation, and two numbers that are none, with words at the ends of what is a register, a label, a number or unused. */
static void try_operations(void)
{
    static const int32_t words[] = {INT32_MIN, -1, 0, 1, 2, 63, 64};
    enum { WORDS = sizeof words / sizeof words[0], TRIPLES = WORDS * WORDS * WORDS };
    memset(code, 0, sizeof code);
    for (int32_t operation = -1; operation <= SAUSKINNA_SLT + 1; operation++)
        for (int i = 0; i < TRIPLES; i++) {
            int32_t a = words[i % WORDS], b = words[i / WORDS % WORDS], c = words[i / WORDS / WORDS];
            char what[80];
            snprintf(what, sizeof what, "listing operation %d %d %d %d", (int)operation, (int)a, (int)b, (int)c);
            memcpy(code, (int32_t[]){operation, a, b, c}, 4 * sizeof(int32_t));
            try_text(8, 2 * SAUSKINNA_LINE, what);
        }
}

void try_listings(void)
{
    memset(code, 0, sizeof code);
    try_code(0, 0, SAUSKINNA_ACCEPTED, "listing no code");
    try_code(SAUSKINNA_CODE_WORDS + 4, TEXT, SAUSKINNA_REFUSED_CODE_WORDS, "listing 65,537 instructions");
    for (uint32_t instructions = 1; instructions <= INSTRUCTIONS; instructions *= 4) {
        try_built(compiled_code, instructions, "listing compiled code");
        try_built(jumps, instructions, "listing jumps");
    }
    try_operations();
}
