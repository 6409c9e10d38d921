/* generated.c: rules and tables at random, compiled and run by the library, by plain C and by a direct reading. */
#include <string.h>

#include "comparing.h"
#include "generator.h"
#include "lent.h"
#include "random.h"
#include "reading.h"
#include "subjects.h"

enum { CASES = 20000, LARGE_CASES = 800 };

/* As many cells as the declarations take; at times fewer or more. */
static uint32_t any_cells(uint32_t cells)
{
    switch (below(6)) {
    case 0: return below(cells + 1);
    case 1: return cells + 40 <= CELL_LIMIT ? cells + below(40) : CELL_LIMIT;
    default: return cells;
    }
}

/* Mostly few steps; at times enough for the longest rule without loops. */
static uint32_t any_budget(size_t rows)
{
    return one_in(4) || rows > 100 ? below(4000) : below(120);
}

static int outside_kept(const int32_t *before, const int32_t *after, uint64_t pool)
{
    for (int k = 0; k < REGISTER_COUNT; k++)
        if ((pool >> k & 1) == 0 && before[k] != after[k])
            return 0;
    return 1;
}

/* Reads a rule directly; its ending, steps and memory are those of the run. */
static void as_meant(const struct rule *r, struct machine *direct, const struct machine *run, uint32_t budget,
                     const uint32_t answer[ANSWER])
{
    struct tables t = {r->declarations, r->nodes};
    uint32_t steps, ending = meaning(&t, (int32_t)rows_of(r) - 1, direct->memory, direct->cells, budget, &steps);
    ANSWERS(answer, ending, ending == FAULTED ? SAUSKINNA_FAULT_ADDRESS : SAUSKINNA_NO_FAULT, steps);
    CHECK(memcmp(run->memory, direct->memory, bytes(run->cells)) == 0);
}

/* Runs an accepted rule, and reads it directly. */
static void run_and_mean(const struct rule *r, const struct compiled *c, uint64_t pool)
{
    struct machine start = any_machine(any_cells(c->answer[SAUSKINNA_ANSWER_CELLS])), m = copy_of(&start), direct = copy_of(&start);
    uint32_t budget = any_budget(rows_of(r)), answer[ANSWER];
    struct code code = {c->code, code_words_of(c)};
    run_both(code, &m, budget, answer);
    as_meant(r, &direct, &m, budget, answer);
    CHECK(outside_kept(start.registers, m.registers, pool));
    if (one_in(8))
        steps_as_run(code, &start, budget);
    if (one_in(8))
        resumed_as_run(code, &start, budget, any_budget(rows_of(r)));
    end_machine(&start);
    end_machine(&m);
    end_machine(&direct);
}

static uint32_t count_of(uint64_t pool)
{
    uint32_t count = 0;
    for (int k = 0; k < REGISTER_COUNT; k++)
        count += pool >> k & 1;
    return count;
}

/* A rule is refused for its need or its room, by the direct reading of both, or accepted and run. */
static void rule_of(const struct rule *r, uint64_t pool)
{
    struct tables t = {r->declarations, r->nodes};
    int32_t last = (int32_t)rows_of(r) - 1;
    uint32_t need = need_of(&t, last), instructions = instructions_of(&t, last) + 1;
    size_t room = one_in(10) ? below(INSTRUCTION * instructions) : SAUSKINNA_ROOM(rows_of(r));
    const struct compiled *c = compile_both(r, pool, room);
    if (need > count_of(pool)) {
        SAME(c->number, SAUSKINNA_REFUSED_REGISTERS);
        SAME(c->answer[SAUSKINNA_ANSWER_VALUE], need);
    } else if (room < INSTRUCTION * (size_t)instructions) {
        SAME(c->number, SAUSKINNA_REFUSED_ROOM);
        SAME(c->answer[SAUSKINNA_ANSWER_VALUE], instructions);
    } else {
        SAME(c->number, SAUSKINNA_ACCEPTED);
        SAME(c->answer[SAUSKINNA_ANSWER_INSTRUCTIONS], instructions);
        SAME(c->answer[SAUSKINNA_ANSWER_NEED], need);
        run_and_mean(r, c, pool);
    }
}

static void small_rule(void)
{
    struct rule r = any_rule();
    rule_of(&r, any_pool());
}

static void large_rule(void)
{
    struct rule r = any_large_rule();
    rule_of(&r, one_in(4) ? any_pool() : ALL_BUT_ZERO);
}

void test_rules(void)
{
    many(small_rule, CASES);
    many(large_rule, LARGE_CASES);
}

/* Changes one of so many words. */
static void damage(int32_t *words, size_t count, const struct rule *r)
{
    int32_t *word = words + below((uint32_t)count);
    *word = one_in(2) ? any_value() : (int32_t)below((uint32_t)rows_of(r) + 2);
}

/* A rule with a few words changed, and at times a length, the pool or the room. */
static void damaged(struct rule r)
{
    for (uint32_t i = 1 + below(3); i > 0; i--) {
        if (one_in(3))
            damage(r.declarations, r.declaration_words, &r);
        else
            damage(r.nodes, r.node_words, &r);
    }
    if (one_in(10))
        r.declaration_words -= below(3);
    if (one_in(10))
        r.node_words -= below(5);
    uint64_t pool = any_pool();
    if (one_in(40))
        pool |= 1;
    const struct compiled *c = compile_both(&r, pool, one_in(10) ? below(40) : SAUSKINNA_ROOM(rows_of(&r)));
    if (c->number == SAUSKINNA_ACCEPTED)
        run_and_mean(&r, c, pool);
}

static void small_table(void)
{
    damaged(any_rule());
}

static void large_table(void)
{
    damaged(any_large_rule());
}

void test_tables(void)
{
    many(small_table, CASES);
    many(large_table, LARGE_CASES);
    for (int number = SAUSKINNA_ACCEPTED; number <= SAUSKINNA_REFUSED_ROOM; number++)
        CHECK(refused[number] > 0);
}
