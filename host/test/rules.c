/* rules.c: builds the tables of rules from the header's constants. */
#include "rules.h"

#include "checks.h"
#include "sauskinna.h"

size_t rows_of(const struct rule *r)
{
    return r->node_words / NODE;
}

size_t names_of(const struct rule *r)
{
    return r->declaration_words / DECLARATION;
}

int32_t declare(struct rule *r, int32_t kind, int32_t value)
{
    if (names_of(r) == NAME_LIMIT + SPARE_ROWS)
        give_up("a rule of the test has too many names");
    r->declarations[r->declaration_words++] = kind;
    r->declarations[r->declaration_words++] = value;
    return (int32_t)names_of(r) - 1;
}

int32_t add(struct rule *r, int32_t kind, int32_t a, int32_t b, int32_t c)
{
    if (rows_of(r) == ROW_LIMIT + SPARE_ROWS)
        give_up("a rule of the test has too many rows");
    int32_t *node = r->nodes + r->node_words;
    node[0] = kind;
    node[1] = a;
    node[2] = b;
    node[3] = c;
    r->node_words += NODE;
    return (int32_t)rows_of(r) - 1;
}

void set_word(struct rule *r, int32_t row, int word, int32_t value)
{
    r->nodes[NODE * row + word] = value;
}

uint64_t pool_of(int low, int high)
{
    uint64_t pool = 0;
    for (int k = low; k <= high; k++)
        pool |= UINT64_C(1) << k;
    return pool;
}

struct rule empty_rule(void)
{
    return (struct rule){{0}, 0, {0}, 0};
}

static struct rule over_names(int names)
{
    struct rule r = empty_rule();
    for (int i = 0; i < names; i++)
        declare(&r, SAUSKINNA_VARIABLE, 0);
    return r;
}

struct rule over_x(void)
{
    return over_names(1);
}

struct rule skip_rule(void)
{
    struct rule r = empty_rule();
    add(&r, SAUSKINNA_SKIP, 0, 0, 0);
    return r;
}

struct rule assign_rule(int32_t v)
{
    struct rule r = over_x();
    add(&r, SAUSKINNA_VALUE, v, 0, 0);
    add(&r, SAUSKINNA_ASSIGN, 0, 0, 0);
    return r;
}

struct rule names_rule(int names)
{
    struct rule r = over_names(names);
    add(&r, SAUSKINNA_VALUE, 5, 0, 0);
    add(&r, SAUSKINNA_ASSIGN, names - 1, 0, 0);
    return r;
}

struct rule rows_rule(size_t rows)
{
    struct rule r = assign_rule(0);
    int32_t last = 1;
    while (rows_of(&r) < rows) {
        int32_t skip = add(&r, SAUSKINNA_SKIP, 0, 0, 0);
        last = add(&r, SAUSKINNA_SEQUENCE, last, skip, 0);
    }
    return r;
}

struct rule every_kind(void)
{
    static const int32_t nodes[][NODE] = {
        {SAUSKINNA_VALUE, 7, 0, 0},        {SAUSKINNA_SKIP, 0, 0, 0},       {SAUSKINNA_IDENTIFIER, 0, 0, 0},
        {SAUSKINNA_IDENTIFIER, 1, 0, 0},   {SAUSKINNA_PLUS, 2, 3, 0},       {SAUSKINNA_ELEMENT, 2, 4, 0},
        {SAUSKINNA_MINUS, 0, 5, 0},        {SAUSKINNA_VALUE, 3, 0, 0},      {SAUSKINNA_TIMES, 6, 7, 0},
        {SAUSKINNA_VALUE, 1, 0, 0},        {SAUSKINNA_LESS, 8, 9, 0},       {SAUSKINNA_VALUE, 2, 0, 0},
        {SAUSKINNA_EQUAL, 10, 11, 0},      {SAUSKINNA_VALUE, 1, 0, 0},      {SAUSKINNA_AND, 12, 13, 0},
        {SAUSKINNA_VALUE, 0, 0, 0},        {SAUSKINNA_OR, 14, 15, 0},       {SAUSKINNA_NOT, 16, 0, 0},
        {SAUSKINNA_ASSIGN, 1, 17, 0},      {SAUSKINNA_VALUE, 0, 0, 0},      {SAUSKINNA_VALUE, 1, 0, 0},
        {SAUSKINNA_ASSIGN_ELEMENT, 2, 19, 20}, {SAUSKINNA_SEQUENCE, 18, 21, 0}, {SAUSKINNA_IDENTIFIER, 1, 0, 0},
        {SAUSKINNA_IF, 23, 22, 1},         {SAUSKINNA_VALUE, 0, 0, 0},      {SAUSKINNA_SKIP, 0, 0, 0},
        {SAUSKINNA_WHILE, 25, 26, 0},      {SAUSKINNA_SEQUENCE, 24, 27, 0},
    };
    struct rule r = empty_rule();
    declare(&r, SAUSKINNA_CONSTANT, 5);
    declare(&r, SAUSKINNA_VARIABLE, 0);
    declare(&r, SAUSKINNA_ARRAY, 4);
    for (size_t i = 0; i < sizeof nodes / sizeof nodes[0]; i++)
        add(&r, nodes[i][0], nodes[i][1], nodes[i][2], nodes[i][3]);
    return r;
}
