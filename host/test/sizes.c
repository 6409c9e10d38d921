/* sizes.c: refusals 1 to 5, 11 and 12 at each boundary. */
#include "compiling.h"
#include "subjects.h"

/* A rule of 1,024 rows: x := 0 and 511 skips take 515 instructions with the end. */
enum { LONG_RULE_INSTRUCTIONS = 515 };

static void node_words(void)
{
    struct rule r = rows_rule(SAUSKINNA_ROWS);
    ANSWERS(ACCEPT(r, ALL_BUT_ZERO)->answer, LONG_RULE_INSTRUCTIONS, 1, 2);
    for (size_t words = NODE * (ROW_LIMIT - 1) + 1; words < NODE * ROW_LIMIT; words++) {
        r.node_words = words;
        REFUSE(r, ALL_BUT_ZERO, SAUSKINNA_REFUSED_NODE_WORDS, 0);
    }
    r = rows_rule(SAUSKINNA_ROWS + 2);
    REFUSE(r, ALL_BUT_ZERO, SAUSKINNA_REFUSED_NODE_WORDS, 0);
    for (size_t words = NODE * SAUSKINNA_ROWS + 1; words <= NODE * (SAUSKINNA_ROWS + 1); words++) {
        r.node_words = words;
        REFUSE(r, ALL_BUT_ZERO, SAUSKINNA_REFUSED_NODE_WORDS, 0);
    }
    for (size_t words = 0; words < NODE; words++) {
        r.node_words = words;
        REFUSE(r, ALL_BUT_ZERO, SAUSKINNA_REFUSED_NODE_WORDS, 0);
    }
}

static void declaration_words(void)
{
    struct rule r = names_rule(SAUSKINNA_DECLARATIONS);
    const struct compiled *c = ACCEPT(r, ALL_BUT_ZERO);
    ANSWERS(c->answer, 4, NAME_LIMIT, 2);
    SAME(c->code[INSTRUCTION + 2], NAME_LIMIT - 1);
    r.declaration_words--;
    REFUSE(r, ALL_BUT_ZERO, SAUSKINNA_REFUSED_DECLARATION_WORDS, 0);
    r = names_rule(SAUSKINNA_DECLARATIONS + 1);
    REFUSE(r, ALL_BUT_ZERO, SAUSKINNA_REFUSED_DECLARATION_WORDS, 0);
    r.declaration_words--;
    REFUSE(r, ALL_BUT_ZERO, SAUSKINNA_REFUSED_DECLARATION_WORDS, 0);
    r = skip_rule();
    ACCEPT(r, ALL_BUT_ZERO);
    r.declaration_words = 1;
    REFUSE(r, ALL_BUT_ZERO, SAUSKINNA_REFUSED_DECLARATION_WORDS, 0);
    r = names_rule(0);
    REFUSE(r, ALL_BUT_ZERO, SAUSKINNA_REFUSED_NAME, 1);
}

static void pools(void)
{
    struct rule r = assign_rule(2);
    REFUSE(r, 1, SAUSKINNA_REFUSED_POOL, 0);
    REFUSE(r, UINT64_MAX, SAUSKINNA_REFUSED_POOL, 0);
    ACCEPT(r, UINT64_MAX - 1);
    const struct compiled *c = ACCEPT(r, UINT64_C(1) << 63 | UINT64_C(1) << 40);
    SAME(c->code[1], 40);
    SAME(c->code[INSTRUCTION + 1], 63);
    REFUSE(r, UINT64_C(1) << 63, SAUSKINNA_REFUSED_REGISTERS, 2);
    REFUSE(r, 0, SAUSKINNA_REFUSED_REGISTERS, 2);
}

static void bad_declaration(int32_t kind, int32_t value)
{
    struct rule r = assign_rule(2);
    declare(&r, kind, value);
    REFUSE(r, ALL_BUT_ZERO, SAUSKINNA_REFUSED_DECLARATION, 1);
}

static void declarations(void)
{
    static const int32_t kinds[] = {0, 4, -1, INT32_MIN, INT32_MAX, 257};
    for (size_t i = 0; i < sizeof kinds / sizeof kinds[0]; i++)
        bad_declaration(kinds[i], 0);
    bad_declaration(SAUSKINNA_VARIABLE, 1);
    bad_declaration(SAUSKINNA_VARIABLE, -1);
    bad_declaration(SAUSKINNA_ARRAY, 0);
    bad_declaration(SAUSKINNA_ARRAY, -1);
    bad_declaration(SAUSKINNA_ARRAY, INT32_MIN);
    bad_declaration(SAUSKINNA_ARRAY, SAUSKINNA_CELLS + 1);
    bad_declaration(SAUSKINNA_ARRAY, INT32_MAX);
}

static void cells(void)
{
    struct rule r = assign_rule(2);
    declare(&r, SAUSKINNA_CONSTANT, INT32_MIN);
    declare(&r, SAUSKINNA_ARRAY, SAUSKINNA_CELLS - 1);
    declare(&r, SAUSKINNA_CONSTANT, INT32_MAX);
    SAME(ACCEPT(r, ALL_BUT_ZERO)->answer[SAUSKINNA_ANSWER_CELLS], CELL_LIMIT);
    declare(&r, SAUSKINNA_ARRAY, 1);
    REFUSE(r, ALL_BUT_ZERO, SAUSKINNA_REFUSED_CELLS, 4);
    r = skip_rule();
    for (int i = 0; i < SAUSKINNA_DECLARATIONS; i++)
        declare(&r, SAUSKINNA_ARRAY, SAUSKINNA_CELLS);
    REFUSE(r, ALL_BUT_ZERO, SAUSKINNA_REFUSED_CELLS, 1);
}

static void room(void)
{
    static struct compiled c;
    struct rule r = assign_rule(2);
    for (size_t words = 0; words < 4 * INSTRUCTION; words++)
        REFUSE_IN(r, pool_of(1, 2), words, SAUSKINNA_REFUSED_ROOM, 4);
    CHECK(compile_with(sauskinna_compile, &r, pool_of(1, 2), 4 * INSTRUCTION, &c));
    SAME(c.number, SAUSKINNA_ACCEPTED);
    r = rows_rule(SAUSKINNA_ROWS);
    size_t enough = INSTRUCTION * LONG_RULE_INSTRUCTIONS;
    REFUSE_IN(r, pool_of(1, 2), enough - 1, SAUSKINNA_REFUSED_ROOM, LONG_RULE_INSTRUCTIONS);
    CHECK(compile_with(sauskinna_compile, &r, pool_of(1, 2), enough, &c));
    SAME(c.number, SAUSKINNA_ACCEPTED);
}

/* not of not of .. 0: the deepest expression that rows allow, whose need is one register a row. */
static void most_registers(void)
{
    struct rule r = over_x();
    int32_t row = add(&r, SAUSKINNA_VALUE, 0, 0, 0);
    while (rows_of(&r) < SAUSKINNA_ROWS - 1)
        row = add(&r, SAUSKINNA_NOT, row, 0, 0);
    add(&r, SAUSKINNA_ASSIGN, 0, row, 0);
    REFUSE(r, ALL_BUT_ZERO, SAUSKINNA_REFUSED_REGISTERS, ROW_LIMIT - 1);
}

/* The registers of every pool of so many are enough for as many nots and the assignment. */
static void need_by_pool(void)
{
    for (int count = 1; count < SAUSKINNA_REGISTERS; count++) {
        struct rule r = over_x();
        int32_t row = add(&r, SAUSKINNA_VALUE, 0, 0, 0);
        for (int i = 0; i < count; i++)
            row = add(&r, SAUSKINNA_NOT, row, 0, 0);
        add(&r, SAUSKINNA_ASSIGN, 0, row, 0);
        REFUSE(r, pool_of(SAUSKINNA_REGISTERS - count, SAUSKINNA_REGISTERS - 1), SAUSKINNA_REFUSED_REGISTERS, (uint32_t)count + 1);
        if (count + 1 < SAUSKINNA_REGISTERS)
            ACCEPT(r, pool_of(1, count + 1));
    }
}

void test_sizes(void)
{
    node_words();
    declaration_words();
    pools();
    declarations();
    cells();
    room();
    most_registers();
    need_by_pool();
}
