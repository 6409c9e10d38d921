/* bench.c: times the library's functions and the anchors' in turn, or, with --check, compares what they leave. bench/run calls it. */
#define _POSIX_C_SOURCE 200809L

#include <inttypes.h>
#include <stdio.h>
#include <stdlib.h>
#include <string.h>
#include <time.h>

#include "codes.h"
#include "plain.h"
#include "rules.h"
#include "sauskinna.h"
#include "sides.h"

const struct side sides[SIDES] = {
    [LIBRARY] = {"library", sauskinna_compile, sauskinna_run, sauskinna_step, sauskinna_listing},
    [PLAIN_C] = {"plain C", plain_compile, plain_run, plain_step, plain_listing},
    [C_SWITCH] = {"C switch", NULL, switch_run, NULL, NULL},
    [C_GOTO] = {"C goto", NULL, goto_run, NULL, NULL},
    [C_THREADED] = {"C threaded", NULL, threaded_run, NULL, NULL},
    [C_SNPRINTF] = {"C snprintf", NULL, NULL, NULL, snprintf_listing},
#ifdef WITH_RUST
    [PLAIN_RUST] = {"plain Rust", plain_rust_compile, plain_rust_run, plain_rust_step, NULL},
#endif
};

/* ---- What is measured: one call, many times ---- */

static const uint64_t pool = UINT64_MAX - 1;

struct task {
    struct rule rule;
    int32_t code[SAUSKINNA_ROOM(SAUSKINNA_ROWS)];
    size_t code_words;
    int32_t memory[SAUSKINNA_CELLS];
    size_t cells;
    uint32_t place;
    int32_t registers[SAUSKINNA_REGISTERS];
    uint32_t budget;
    uint32_t answer[SAUSKINNA_ANSWER_WORDS];
};

typedef uint32_t call_function(const struct side *, struct task *);

static void restart(struct task *t)
{
    memset(t->memory, 0, t->cells * sizeof(int32_t));
    t->place = 0;
}

static uint32_t compile_once(const struct side *side, struct task *t)
{
    return side->compile(t->rule.declarations, t->rule.declaration_words, t->rule.nodes, t->rule.node_words, pool,
                         t->code, SAUSKINNA_ROOM(SAUSKINNA_ROWS), t->answer);
}

/* One call that goes on where the last one stopped, or from the start after a halt. */
static uint32_t run_on(const struct side *side, struct task *t)
{
    if (t->answer[SAUSKINNA_ANSWER_ENDING] == SAUSKINNA_HALTED)
        restart(t);
    return side->run(t->code, t->code_words, t->memory, t->cells, &t->place, t->registers, t->budget, t->answer);
}

static uint32_t step_on(const struct side *side, struct task *t)
{
    if (t->answer[SAUSKINNA_ANSWER_ENDING] == SAUSKINNA_HALTED)
        restart(t);
    return side->step(t->code, t->code_words, t->memory, t->cells, &t->place, t->registers, t->answer);
}

/* The code that is listed, and its text: too large for a task. */
static int32_t listed[SAUSKINNA_CODE_WORDS];
static uint8_t text[SAUSKINNA_LINE * SAUSKINNA_CODE_WORDS / 4];
static size_t text_bytes;

static uint32_t list_once(const struct side *side, struct task *t)
{
    return side->listing(listed, t->code_words, text, text_bytes, t->answer);
}

/* The same of a long code, for which the slow side takes too long. */
static uint32_t list_long(const struct side *side, struct task *t)
{
    return list_once(side, t);
}

static int can(const struct side *side, call_function *call)
{
    if (call == compile_once)
        return side->compile != NULL;
    if (call == step_on)
        return side->step != NULL;
    if (call == list_once)
        return side->listing != NULL;
    return call == list_long ? side->listing != NULL && side != &sides[C_SNPRINTF] : side->run != NULL;
}

/* ---- Results ---- */

static int differences;

void differs(const struct side *side, const char *what)
{
    if (++differences <= 10)
        printf("DIFFERENT: %s, %s\n", side->name, what);
}

/* After so many calls on each side everything is equal. */
static void compare(call_function *call, const struct task *start, int calls, const char *what)
{
    static struct task expected, found;
    for (int side = 0; side < SIDES; side++) {
        struct task *t = side == LIBRARY ? &expected : &found;
        uint32_t number = 0;
        if (!can(&sides[side], call))
            continue;
        *t = *start;
        for (int i = 0; i < calls; i++)
            number |= call(&sides[side], t);
        if (number != 0 || memcmp(t, &expected, sizeof *t) != 0)
            differs(&sides[side], what);
    }
}

/* ---- Times ---- */

enum { ROUNDS = 61 };

/* Processor time in nanoseconds, so that other work on the machine counts little. */
static double now(void)
{
    struct timespec time;
    clock_gettime(CLOCK_PROCESS_CPUTIME_ID, &time);
    return 1e9 * (double)time.tv_sec + (double)time.tv_nsec;
}

/* Of one call, over so many. The loop that calls is in the time of every side. */
static double sample(call_function *call, const struct side *side, struct task *t, unsigned calls)
{
    restart(t);
    double start = now();
    for (unsigned i = 0; i < calls; i++)
        call(side, t);
    return (now() - start) / calls;
}

/* Calls of the library that take a millisecond or more. */
static unsigned enough_calls(call_function *call, struct task *t)
{
    unsigned calls = 1;
    while (sample(call, &sides[LIBRARY], t, calls) * calls < 1e6)
        calls *= 2;
    return calls;
}

/* The slow side takes about fifteen times as long. */
static unsigned calls_of(int side, unsigned calls)
{
    return side == C_SNPRINTF ? 1 + calls / 16 : calls;
}

static int by_size(const void *x, const void *y)
{
    double a = *(const double *)x, b = *(const double *)y;
    return (a > b) - (a < b);
}

static double median(double numbers[ROUNDS])
{
    qsort(numbers, ROUNDS, sizeof(double), by_size);
    return numbers[ROUNDS / 2];
}

struct figure {
    const char *table, *row;
    uint32_t units; /* steps, budget, rows or lines */
    uint32_t parts; /* what the time of a call is divided by */
};

/* A line for each side: its time, and the library's time as a multiple of it. Each round has every side's turn, and a ratio is of times
   in the same round, so that a change of the machine's pace cancels out. */
static void measure(const struct figure *f, call_function *call, struct task *t)
{
    static double samples[SIDES][ROUNDS], ratios[SIDES][ROUNDS];
    unsigned calls = enough_calls(call, t);
    for (int round = 0; round < ROUNDS; round++) {
        for (int i = 0; i < SIDES; i++) {
            int side = (round + i) % SIDES;
            if (can(&sides[side], call))
                samples[side][round] = sample(call, &sides[side], t, calls_of(side, calls));
        }
        for (int side = 0; side < SIDES; side++)
            ratios[side][round] = samples[LIBRARY][round] / samples[side][round];
    }
    for (int side = 0; side < SIDES; side++)
        if (can(&sides[side], call))
            printf("%s\t%s\t%" PRIu32 "\t%s\t%.4f\t%.4f\n", f->table, f->row, f->units, sides[side].name,
                   median(samples[side]) / f->parts, median(ratios[side]));
}

/* Where the code of each side lies, in bytes behind a multiple of 64. */
static void print_placement(void)
{
    for (const struct side *side = sides; side < sides + SIDES; side++)
        printf("placed\t%s\t%d\n", side->name, (int)((side->run != NULL ? (uintptr_t)side->run : (uintptr_t)side->listing) % 64));
}

/* ---- The benchmark ---- */

static int timed;

/* The calls are those whose results are compared. */
static void treat(const struct figure *f, call_function *call, struct task *t, int calls)
{
    if (timed)
        measure(f, call, t);
    else
        compare(call, t, calls, f->row);
}

static struct task task;

/* A rule's code, and the steps that it takes. */
static uint32_t prepare(const char *what, void (*build)(struct rule *))
{
    memset(&task, 0, sizeof task);
    build(&task.rule);
    if (compile_once(&sides[LIBRARY], &task) != 0)
        differs(&sides[LIBRARY], what);
    task.code_words = 4 * (size_t)task.answer[SAUSKINNA_ANSWER_INSTRUCTIONS];
    task.cells = task.answer[SAUSKINNA_ANSWER_CELLS];
    task.budget = UINT32_MAX;
    if (run_on(&sides[LIBRARY], &task) != 0 || task.answer[SAUSKINNA_ANSWER_ENDING] != SAUSKINNA_HALTED)
        differs(&sides[LIBRARY], what);
    return task.answer[SAUSKINNA_ANSWER_STEPS];
}

static void bench_run(const char *what, void (*build)(struct rule *))
{
    uint32_t steps = prepare(what, build);
    treat(&(struct figure){"run", what, steps, steps}, run_on, &task, 1);
}

static void bench_call(const char *what, call_function *call, uint32_t budget)
{
    prepare(what, arithmetic_loop);
    task.budget = budget;
    treat(&(struct figure){"call", what, budget, 1}, call, &task, 100);
}

static void bench_compile(const char *what, void (*build)(struct rule *, size_t))
{
    for (uint32_t rows = 16; rows <= SAUSKINNA_ROWS; rows *= 4) {
        memset(&task, 0, sizeof task);
        build(&task.rule, rows);
        if (rows_of(&task.rule) != rows)
            differs(&sides[LIBRARY], what);
        treat(&(struct figure){"compile", what, rows, rows}, compile_once, &task, 1);
    }
}

/* How long the text is that is lent: with room for any listing of so many lines, or for this one alone. */
enum room { ANY, EXACT };

/* What the sides leave is compared by try_listings. */
static void bench_listing(const char *what, void (*build)(int32_t *, uint32_t), uint32_t lines, enum room room, call_function *call)
{
    memset(&task, 0, sizeof task);
    text_bytes = sizeof text;
    build(listed, lines);
    task.code_words = 4 * (size_t)lines;
    if (call(&sides[LIBRARY], &task) != 0)
        differs(&sides[LIBRARY], what);
    printf("bytes\t%s\t%" PRIu32 "\t%" PRIu32 "\n", what, lines, task.answer[SAUSKINNA_ANSWER_BYTES]);
    if (room == EXACT)
        text_bytes = task.answer[SAUSKINNA_ANSWER_BYTES];
    measure(&(struct figure){"listing", what, lines, lines}, call, &task);
}

static void bench_listings(void)
{
    enum { FEW = 1024, MOST = SAUSKINNA_CODE_WORDS / 4 };
    bench_listing("compiled code", compiled_code, FEW, ANY, list_once);
    bench_listing("compiled code", compiled_code, MOST, ANY, list_long);
    bench_listing("the same, no byte to spare", compiled_code, FEW, EXACT, list_once);
    bench_listing("every line named", jumps, FEW, ANY, list_once);
    bench_listing("every line named", jumps, MOST, ANY, list_long);
}

int main(int argc, char **argv)
{
    timed = !(argc == 2 && strcmp(argv[1], "--check") == 0);
    if (timed) {
        print_placement();
    } else {
        try_codes();
        try_listings();
    }
    bench_run("arithmetic loop", arithmetic_loop);
    bench_run("sieve over an array", sieve);
    bench_run("nested ifs", nested_ifs);
    bench_run("long straight line", straight_line);
    bench_call("run under budget 1", run_on, 1);
    bench_call("run under budget 4", run_on, 4);
    bench_call("run under budget 16", run_on, 16);
    bench_call("step", step_on, 1);
    bench_compile("nested ifs", deep_chain);
    bench_compile("nested whiles", nested_whiles);
    bench_compile("balanced expression", balanced);
    bench_compile("left sums", left_sums);
    bench_compile("left-nested sequences", wide);
    bench_compile("the same, 256 names", wide_over_256);
    bench_compile("right-nested sequences", right_nested);
    if (timed)
        bench_listings();
    else
        puts(differences == 0 ? "results: equal on all sides" : "results: DIFFERENT");
    return differences == 0 ? EXIT_SUCCESS : EXIT_FAILURE;
}
