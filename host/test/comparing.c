/* comparing.c: calls of the library and of plain C whose results must be the same in every word. */
#include "comparing.h"

#include <string.h>

#include "generator.h"
#include "lent.h"
#include "plain.h"
#include "random.h"

unsigned long refused[REFUSAL_COUNT + 1], faulted[FAULT_COUNT + 1], ended[ENDINGS];

/* Counts a number, which is one of so many. */
static void meet(unsigned long *met, uint32_t count, uint32_t number)
{
    CHECK(number < count);
    if (number < count)
        met[number]++;
}

static int same_compiled(const struct compiled *c, const struct compiled *d, size_t code_words)
{
    return c->number == d->number && memcmp(c->answer, d->answer, sizeof c->answer) == 0 &&
           memcmp(c->code, d->code, bytes(words_held(code_words))) == 0;
}

const struct compiled *compile_both(const struct rule *r, uint64_t pool, size_t code_words)
{
    static struct compiled c, d;
    struct rule h = in_header(r);
    CHECK(compile_with(sauskinna_compile, &h, pool, code_words, &c));
    compile_with(plain_compile, r, pool, code_words, &d);
    CHECK(same_compiled(&c, &d, code_words));
    meet(refused, REFUSAL_COUNT + 1, c.number);
    return &c;
}

void run_both(struct code code, struct machine *m, uint32_t budget, uint32_t answer[ANSWER])
{
    struct machine n = copy_of(m);
    uint32_t plain[ANSWER];
    SAME(run_machine(code, m, budget, answer), SAUSKINNA_ACCEPTED);
    plain_run(code.words, code.count, n.memory, n.cells, n.place, n.registers, budget, plain);
    CHECK(memcmp(answer, plain, sizeof plain) == 0);
    CHECK(same_machine(m, &n));
    meet(ended, ENDINGS, answer[SAUSKINNA_ANSWER_ENDING]);
    meet(faulted, FAULT_COUNT + 1, answer[SAUSKINNA_ANSWER_FAULT]);
    end_machine(&n);
}

void steps_as_run(struct code code, const struct machine *start, uint32_t budget)
{
    struct machine m = copy_of(start), n = copy_of(start);
    uint32_t run[ANSWER], step[ANSWER] = {SAUSKINNA_WENT_ON, 0, 0}, steps = 0;
    CHECK(run_machine(code, &m, budget, run) == SAUSKINNA_ACCEPTED);
    for (uint32_t i = 0; i < budget && step[SAUSKINNA_ANSWER_ENDING] == SAUSKINNA_WENT_ON; i++) {
        CHECK(step_machine(code, &n, step) == SAUSKINNA_ACCEPTED);
        steps += step[SAUSKINNA_ANSWER_STEPS];
    }
    CHECK(same_machine(&m, &n));
    uint32_t ending = step[SAUSKINNA_ANSWER_ENDING];
    ANSWERS(run, ending == SAUSKINNA_WENT_ON ? SAUSKINNA_UNFINISHED : ending, step[SAUSKINNA_ANSWER_FAULT], steps);
    end_machine(&m);
    end_machine(&n);
}

void resumed_as_run(struct code code, const struct machine *start, uint32_t first, uint32_t second)
{
    struct machine m = copy_of(start), n = copy_of(start);
    uint32_t whole[ANSWER], part[ANSWER], rest[ANSWER];
    run_machine(code, &m, first + second, whole);
    run_machine(code, &n, first, part);
    if (part[SAUSKINNA_ANSWER_ENDING] == SAUSKINNA_UNFINISHED) {
        run_machine(code, &n, second, rest);
        CHECK(same_machine(&m, &n));
        ANSWERS(whole, rest[SAUSKINNA_ANSWER_ENDING], rest[SAUSKINNA_ANSWER_FAULT],
                part[SAUSKINNA_ANSWER_STEPS] + rest[SAUSKINNA_ANSWER_STEPS]);
    }
    end_machine(&m);
    end_machine(&n);
}

struct machine any_machine(size_t cells)
{
    enum { FEW_CELLS = 512 };
    struct machine m = machine_of(cells);
    uint32_t first = any(), step = any() | 1;
    for (size_t i = 0; i < cells; i++)
        m.memory[i] = (int32_t)(first + step * (uint32_t)i);
    for (size_t i = 0; i < cells && i < FEW_CELLS; i++)
        m.memory[i] = any_value();
    for (int k = 0; k < REGISTER_COUNT; k++)
        m.registers[k] = any_value();
    return m;
}
