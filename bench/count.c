/* count.c: has a side run or compile a rule, or list code, once or twice, for bench/count, which counts the processor's instructions;
   without words it says what there is to count. */
#include <inttypes.h>
#include <stdio.h>
#include <stdlib.h>

#include "codes.h"
#include "plain.h"
#include "rules.h"
#include "sauskinna.h"
#include "sides.h"

static const struct side counted[] = {
    {"library", sauskinna_compile, sauskinna_run, NULL, sauskinna_listing},
    {"plain C", plain_compile, plain_run, NULL, plain_listing},
    {"C switch", NULL, switch_run, NULL, NULL},
    {"C goto", NULL, goto_run, NULL, NULL},
};

enum { STEPS = 1300, ROWS = 256, LINES = 1024, COUNTED = sizeof counted / sizeof counted[0] };

/* Runs from place 0 under a budget: steps of a long one, or short ones as a whole. */
struct run {
    const char *name, *unit;
    void (*build)(struct rule *);
    uint32_t budget, units;
};

static const struct run runs[] = {
    {"arithmetic loop", "step", arithmetic_loop, STEPS, STEPS},
    {"sieve over an array", "step", sieve, STEPS, STEPS},
    {"nested ifs", "step", nested_ifs, STEPS, STEPS},
    {"long straight line", "step", straight_line, STEPS, STEPS},
    {"run under budget 1", "call", arithmetic_loop, 1, 1},
    {"run under budget 4", "call", arithmetic_loop, 4, 1},
    {"run under budget 16", "call", arithmetic_loop, 16, 1},
};

struct compilation {
    const char *name;
    void (*build)(struct rule *, size_t);
};

static const struct compilation compilations[] = {
    {"nested ifs", deep_chain},
    {"nested whiles", nested_whiles},
    {"balanced expression", balanced},
    {"left sums", left_sums},
    {"left-nested sequences", wide},
    {"the same, 256 names", wide_over_256},
    {"right-nested sequences", right_nested},
};

struct listing {
    const char *name;
    void (*build)(int32_t *, uint32_t);
};

static const struct listing listings[] = {
    {"compiled code", compiled_code},
    {"every line named", jumps},
};

enum {
    RUNS = sizeof runs / sizeof runs[0],
    COMPILATIONS = sizeof compilations / sizeof compilations[0],
    LISTINGS = sizeof listings / sizeof listings[0]
};

static struct rule rule;
static int32_t code[SAUSKINNA_ROOM(SAUSKINNA_ROWS)], memory[SAUSKINNA_CELLS], registers[SAUSKINNA_REGISTERS];
static uint32_t answer[SAUSKINNA_ANSWER_WORDS];

/* Inline, so that what the caller adds to a count stays the same as this file grows. */
static inline uint32_t compile_by(const struct side *side)
{
    return side->compile(rule.declarations, rule.declaration_words, rule.nodes, rule.node_words, UINT64_MAX - 1, code,
                         SAUSKINNA_ROOM(SAUSKINNA_ROWS), answer);
}

static void count_runs(const struct side *side, const struct run *run, int times)
{
    run->build(&rule);
    compile_by(&counted[0]);
    size_t words = 4 * (size_t)answer[SAUSKINNA_ANSWER_INSTRUCTIONS], cells = answer[SAUSKINNA_ANSWER_CELLS];
    for (int i = 0; i < times; i++) {
        uint32_t place = 0;
        side->run(code, words, memory, cells, &place, registers, run->budget, answer);
    }
}

static void count_compilations(const struct side *side, const struct compilation *compilation, int times)
{
    compilation->build(&rule, ROWS);
    for (int i = 0; i < times; i++)
        compile_by(side);
}

/* One call, of so many times the lines: what it takes for no line, such as clearing 65,536 marks, is in one count as in the other. */
static void count_listings(const struct side *side, const struct listing *listing, int times)
{
    static int32_t codes[2][2 * 4 * LINES];
    static uint8_t text[SAUSKINNA_LINE * 2 * LINES];
    listing->build(codes[0], LINES);
    listing->build(codes[1], 2 * LINES);
    side->listing(codes[times - 1], 4 * LINES * (size_t)times, text, sizeof text, answer);
}

/* What is counted, the unit's name, how many units, which side, and the two words to call it by. */
static void print_task(const char *what, const char *unit, uint32_t units, int task, int side)
{
    printf("%s\t%s\t%" PRIu32 "\t%s\t%d\t%d\n", what, unit, units, counted[side].name, task, side);
}

static void list(void)
{
    for (int task = 0; task < RUNS + COMPILATIONS + LISTINGS; task++)
        for (int side = 0; side < COUNTED; side++)
            if (task < RUNS)
                print_task(runs[task].name, runs[task].unit, runs[task].units, task, side);
            else if (task < RUNS + COMPILATIONS && counted[side].compile != NULL)
                print_task(compilations[task - RUNS].name, "row", ROWS, task, side);
            else if (task >= RUNS + COMPILATIONS && counted[side].listing != NULL)
                print_task(listings[task - RUNS - COMPILATIONS].name, "line", LINES, task, side);
}

int main(int words, char **word)
{
    if (words != 4) {
        list();
        return 0;
    }
    int task = atoi(word[1]), side = atoi(word[2]), times = atoi(word[3]);
    if (task < RUNS)
        count_runs(&counted[side], &runs[task], times);
    else if (task < RUNS + COMPILATIONS)
        count_compilations(&counted[side], &compilations[task - RUNS], times);
    else
        count_listings(&counted[side], &listings[task - RUNS - COMPILATIONS], times);
    return 0;
}
