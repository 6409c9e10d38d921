/* station.c: a station host that compiles the antenna-change rule, lists its code, and runs it epoch by epoch beside its own registers. */
#include <inttypes.h>
#include <stdio.h>
#include <stdlib.h>
#include <string.h>

#include "sauskinna.h"

/* The rule: cut_over := local_time - (zone_hours * 3600 + zone_minutes * 60). */
enum { LOCAL_TIME, ZONE_HOURS, ZONE_MINUTES, CUT_OVER, HOUR, MINUTE };

static const int32_t declarations[] = {
    SAUSKINNA_VARIABLE, 0,    /* local_time, cell 0 */
    SAUSKINNA_VARIABLE, 0,    /* zone_hours, cell 1 */
    SAUSKINNA_VARIABLE, 0,    /* zone_minutes, cell 2 */
    SAUSKINNA_VARIABLE, 0,    /* cut_over, cell 3 */
    SAUSKINNA_CONSTANT, 3600, /* hour */
    SAUSKINNA_CONSTANT, 60,   /* minute */
};

static const int32_t nodes[] = {
    SAUSKINNA_IDENTIFIER, LOCAL_TIME, 0, 0,   /* 0 */
    SAUSKINNA_IDENTIFIER, ZONE_HOURS, 0, 0,   /* 1 */
    SAUSKINNA_IDENTIFIER, HOUR, 0, 0,         /* 2 */
    SAUSKINNA_TIMES, 1, 2, 0,                 /* 3: zone_hours * 3600 */
    SAUSKINNA_IDENTIFIER, ZONE_MINUTES, 0, 0, /* 4 */
    SAUSKINNA_IDENTIFIER, MINUTE, 0, 0,       /* 5 */
    SAUSKINNA_TIMES, 4, 5, 0,                 /* 6: zone_minutes * 60 */
    SAUSKINNA_PLUS, 3, 6, 0,                  /* 7: the zone's offset */
    SAUSKINNA_MINUS, 0, 7, 0,                 /* 8: nested on the right */
    SAUSKINNA_ASSIGN, CUT_OVER, 8, 0,         /* 9 */
};

enum { DECLARATION_WORDS = sizeof declarations / sizeof declarations[0], NODE_WORDS = sizeof nodes / sizeof nodes[0] };
enum { CELLS = 4, CODE_WORDS = SAUSKINNA_ROOM(NODE_WORDS / 4), TEXT_BYTES = SAUSKINNA_LINE * CODE_WORDS / 4 };

/* $24 to $63 are the host's 40; the rule may use $1 to $23. */
enum { FIRST_OWN = 24 };
static const uint64_t pool = (UINT64_C(1) << FIRST_OWN) - 2;

/* Steps that an epoch's slot leaves for the rule, and the slots in which it has to be done. */
enum { SLOT = 6, SLOTS = 4 };

struct station {
    int32_t code[CODE_WORDS];
    size_t code_words;
    int32_t memory[CELLS];
    uint32_t place;
    int32_t registers[SAUSKINNA_REGISTERS];
};

struct epoch {
    int32_t local_time;
    int32_t zone_hours;
    int32_t zone_minutes;
};

static int32_t own_value(int k)
{
    return 1000 * k + 7;
}

/* Compiles the rule and says what came of it. */
static int prepare(struct station *s)
{
    uint32_t answer[SAUSKINNA_ANSWER_WORDS];
    uint32_t refusal = sauskinna_compile(declarations, DECLARATION_WORDS, nodes, NODE_WORDS, pool, s->code, CODE_WORDS, answer);
    if (refusal != SAUSKINNA_ACCEPTED) {
        printf("the rule is refused with number %" PRIu32 ", value %" PRIu32 "\n", refusal, answer[SAUSKINNA_ANSWER_VALUE]);
        return 0;
    }
    printf("compiled: %" PRIu32 " instructions, %" PRIu32 " cells, %" PRIu32 " registers of the pool's 23\n",
           answer[SAUSKINNA_ANSWER_INSTRUCTIONS], answer[SAUSKINNA_ANSWER_CELLS], answer[SAUSKINNA_ANSWER_NEED]);
    s->code_words = 4 * (size_t)answer[SAUSKINNA_ANSWER_INSTRUCTIONS];
    for (int k = 0; k < SAUSKINNA_REGISTERS; k++)
        s->registers[k] = own_value(k);
    return answer[SAUSKINNA_ANSWER_CELLS] == CELLS;
}

/* Prints the code, as it goes into the change log. */
static int show_listing(const struct station *s)
{
    uint8_t text[TEXT_BYTES];
    uint32_t answer[SAUSKINNA_ANSWER_WORDS];
    uint32_t refusal = sauskinna_listing(s->code, s->code_words, text, TEXT_BYTES, answer);
    if (refusal != SAUSKINNA_ACCEPTED) {
        printf("the listing is refused with number %" PRIu32 ", value %" PRIu32 "\n", refusal, answer[SAUSKINNA_ANSWER_VALUE]);
        return 0;
    }
    return fwrite(text, 1, answer[SAUSKINNA_ANSWER_BYTES], stdout) == answer[SAUSKINNA_ANSWER_BYTES];
}

/* A pool of three registers is too small, and the refusal says how many it takes. */
static int show_refusal(void)
{
    int32_t code[CODE_WORDS];
    uint32_t answer[SAUSKINNA_ANSWER_WORDS];
    uint32_t refusal = sauskinna_compile(declarations, DECLARATION_WORDS, nodes, NODE_WORDS, 0xe, code, CODE_WORDS, answer);
    printf("with a pool of 3: refusal %" PRIu32 ", too few registers, %" PRIu32 " needed\n", refusal, answer[SAUSKINNA_ANSWER_VALUE]);
    return refusal == SAUSKINNA_REFUSED_REGISTERS;
}

static void begin(struct station *s, const struct epoch *e)
{
    s->memory[LOCAL_TIME] = e->local_time;
    s->memory[ZONE_HOURS] = e->zone_hours;
    s->memory[ZONE_MINUTES] = e->zone_minutes;
    s->memory[CUT_OVER] = 0;
    s->place = 0;
}

/* Runs the rule in slots until it ends; gives the steps, or 0 if it does not halt in them. */
static uint32_t run_in_slots(struct station *s, int *slots)
{
    uint32_t steps = 0, answer[SAUSKINNA_ANSWER_WORDS];
    for (*slots = 1; *slots <= SLOTS; ++*slots) {
        if (sauskinna_run(s->code, s->code_words, s->memory, CELLS, &s->place, s->registers, SLOT, answer) != SAUSKINNA_ACCEPTED)
            return 0;
        steps += answer[SAUSKINNA_ANSWER_STEPS];
        if (answer[SAUSKINNA_ANSWER_ENDING] != SAUSKINNA_UNFINISHED)
            return answer[SAUSKINNA_ANSWER_ENDING] == SAUSKINNA_HALTED ? steps : 0;
    }
    return 0;
}

/* Takes single steps, as many as all slots have, until the rule ends; gives their number, or 0 if it does not halt. */
static uint32_t run_by_steps(struct station *s)
{
    uint32_t steps = 0, answer[SAUSKINNA_ANSWER_WORDS];
    for (int i = 0; i < SLOT * SLOTS; i++) {
        if (sauskinna_step(s->code, s->code_words, s->memory, CELLS, &s->place, s->registers, answer) != SAUSKINNA_ACCEPTED)
            return 0;
        steps += answer[SAUSKINNA_ANSWER_STEPS];
        if (answer[SAUSKINNA_ANSWER_ENDING] != SAUSKINNA_WENT_ON)
            return answer[SAUSKINNA_ANSWER_ENDING] == SAUSKINNA_HALTED ? steps : 0;
    }
    return 0;
}

static int own_registers_untouched(const struct station *s)
{
    for (int k = FIRST_OWN; k < SAUSKINNA_REGISTERS; k++)
        if (s->registers[k] != own_value(k))
            return 0;
    return s->registers[0] == own_value(0);
}

static void print_clock(const char *name, int32_t seconds)
{
    printf("%s %02d:%02d:%02d", name, (int)(seconds / 3600), (int)(seconds / 60 % 60), (int)(seconds % 60));
}

/* One epoch, in slots and then again in single steps. */
static int run_epoch(struct station *s, const struct epoch *e)
{
    int32_t expected = e->local_time - (e->zone_hours * 3600 + e->zone_minutes * 60);
    int slots;
    begin(s, e);
    uint32_t steps = run_in_slots(s, &slots);
    int32_t cut_over = s->memory[CUT_OVER];
    begin(s, e);
    uint32_t single = run_by_steps(s);
    int right = steps != 0 && steps == single && cut_over == expected && s->memory[CUT_OVER] == expected;
    int untouched = own_registers_untouched(s);
    print_clock("local", e->local_time);
    printf(", zone %+d h %+d min: ", (int)e->zone_hours, (int)e->zone_minutes);
    print_clock("cut-over", cut_over);
    printf(" universal, %s; %" PRIu32 " steps in %d slots; $24 to $63 %s\n", right ? "right" : "WRONG", steps, slots,
           untouched ? "untouched" : "CHANGED");
    return right && untouched;
}

int main(void)
{
    if (sauskinna_version() != SAUSKINNA_VERSION) {
        puts("station (C): the archive and the header are of different versions");
        return EXIT_FAILURE;
    }
    static const struct epoch epochs[] = {
        {36000, 0, 0}, {41400, 5, 45}, {25200, -3, -30}, {61200, 9, 30}, {32399, 1, 0},
    };
    static struct station s;
    int fine = prepare(&s) && show_listing(&s);
    for (size_t i = 0; fine && i < sizeof epochs / sizeof epochs[0]; i++)
        fine = run_epoch(&s, &epochs[i]);
    fine = show_refusal() && fine;
    puts(fine ? "station (C): all well" : "station (C): something is off");
    return fine ? EXIT_SUCCESS : EXIT_FAILURE;
}
