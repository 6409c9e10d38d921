/* rules.c: builds the rules that are run and compiled, row by row. */
#include "rules.h"

#include <stdio.h>
#include <stdlib.h>
#include <string.h>

/* ---- Rows ---- */

size_t rows_of(const struct rule *r)
{
    return r->node_words / 4;
}

static void declare(struct rule *r, int32_t kind, int32_t value)
{
    r->declarations[r->declaration_words++] = kind;
    r->declarations[r->declaration_words++] = value;
}

static void declare_variables(struct rule *r, int32_t count)
{
    for (int32_t i = 0; i < count; i++)
        declare(r, SAUSKINNA_VARIABLE, 0);
}

static int32_t add(struct rule *r, int32_t kind, int32_t a, int32_t b, int32_t c)
{
    if (r->node_words == 4 * SAUSKINNA_ROWS) {
        puts("a rule of the benchmark has too many rows");
        exit(2);
    }
    memcpy(r->nodes + r->node_words, (int32_t[]){kind, a, b, c}, 4 * sizeof(int32_t));
    r->node_words += 4;
    return (int32_t)rows_of(r) - 1;
}

static int32_t value(struct rule *r, int32_t v)
{
    return add(r, SAUSKINNA_VALUE, v, 0, 0);
}

static int32_t name(struct rule *r, int32_t n)
{
    return add(r, SAUSKINNA_IDENTIFIER, n, 0, 0);
}

static int32_t element(struct rule *r, int32_t array, int32_t index)
{
    return add(r, SAUSKINNA_ELEMENT, array, index, 0);
}

static int32_t binary(struct rule *r, int32_t kind, int32_t left, int32_t right)
{
    return add(r, kind, left, right, 0);
}

static int32_t negation(struct rule *r, int32_t operand)
{
    return add(r, SAUSKINNA_NOT, operand, 0, 0);
}

static int32_t skip(struct rule *r)
{
    return add(r, SAUSKINNA_SKIP, 0, 0, 0);
}

static int32_t assign(struct rule *r, int32_t variable, int32_t expression)
{
    return add(r, SAUSKINNA_ASSIGN, variable, expression, 0);
}

static int32_t assign_element(struct rule *r, int32_t array, int32_t index, int32_t expression)
{
    return add(r, SAUSKINNA_ASSIGN_ELEMENT, array, index, expression);
}

static int32_t sequence(struct rule *r, int32_t first, int32_t second)
{
    return add(r, SAUSKINNA_SEQUENCE, first, second, 0);
}

static int32_t choice(struct rule *r, int32_t test, int32_t then, int32_t otherwise)
{
    return add(r, SAUSKINNA_IF, test, then, otherwise);
}

static int32_t loop(struct rule *r, int32_t test, int32_t body)
{
    return add(r, SAUSKINNA_WHILE, test, body, 0);
}

/* variable := variable + by */
static int32_t increase(struct rule *r, int32_t variable, int32_t by)
{
    int32_t old = name(r, variable);
    return assign(r, variable, binary(r, SAUSKINNA_PLUS, old, value(r, by)));
}

/* variable < limit */
static int32_t is_below(struct rule *r, int32_t variable, int32_t limit)
{
    int32_t left = name(r, variable);
    return binary(r, SAUSKINNA_LESS, left, value(r, limit));
}

/* left operator right, of two variables */
static int32_t of_names(struct rule *r, int32_t kind, int32_t left, int32_t right)
{
    int32_t first = name(r, left);
    return binary(r, kind, first, name(r, right));
}

/* ---- Rules that are run ---- */

/* while i < 20000 do (s := s * 31 + i; s := s - i * i; i := i + 1) */
void arithmetic_loop(struct rule *r)
{
    enum { I, S };
    declare_variables(r, 2);
    int32_t test = is_below(r, I, 20000);
    int32_t old = name(r, S);
    int32_t product = binary(r, SAUSKINNA_TIMES, old, value(r, 31));
    int32_t first = assign(r, S, binary(r, SAUSKINNA_PLUS, product, name(r, I)));
    old = name(r, S);
    int32_t second = assign(r, S, binary(r, SAUSKINNA_MINUS, old, of_names(r, SAUSKINNA_TIMES, I, I)));
    int32_t body = sequence(r, first, second);
    loop(r, test, sequence(r, body, increase(r, I, 1)));
}

/* i := 2; while i * i < 8192 do (if not A[i] then (j := i * i; while j < 8192 do (A[j] := 1; j := j + i)) else skip; i := i + 1) */
void sieve(struct rule *r)
{
    enum { I, J, A, SIZE = 8192 };
    declare_variables(r, 2);
    declare(r, SAUSKINNA_ARRAY, SIZE);
    int32_t start = assign(r, I, value(r, 2));
    int32_t square = of_names(r, SAUSKINNA_TIMES, I, I);
    int32_t test = binary(r, SAUSKINNA_LESS, square, value(r, SIZE));
    int32_t prime = negation(r, element(r, A, name(r, I)));
    int32_t from = assign(r, J, of_names(r, SAUSKINNA_TIMES, I, I));
    int32_t inner_test = is_below(r, J, SIZE);
    int32_t index = name(r, J);
    int32_t mark = assign_element(r, A, index, value(r, 1));
    int32_t next = assign(r, J, of_names(r, SAUSKINNA_PLUS, J, I));
    int32_t marks = loop(r, inner_test, sequence(r, mark, next));
    int32_t strike = sequence(r, from, marks);
    int32_t body = choice(r, prime, strike, skip(r));
    int32_t outer = loop(r, test, sequence(r, body, increase(r, I, 1)));
    sequence(r, start, outer);
}

/* if i < x then (if x = y and i < y then x := x + 1 else y := y + 3) else (if x < y or i = y then .. else ..), in a loop */
void nested_ifs(struct rule *r)
{
    enum { I, X, Y };
    declare_variables(r, 3);
    int32_t test = is_below(r, I, 10000);
    int32_t outer = of_names(r, SAUSKINNA_LESS, I, X);
    int32_t equal = of_names(r, SAUSKINNA_EQUAL, X, Y);
    int32_t both = binary(r, SAUSKINNA_AND, equal, of_names(r, SAUSKINNA_LESS, I, Y));
    int32_t grow_x = increase(r, X, 1);
    int32_t upper = choice(r, both, grow_x, increase(r, Y, 3));
    int32_t less = of_names(r, SAUSKINNA_LESS, X, Y);
    int32_t either = binary(r, SAUSKINNA_OR, less, of_names(r, SAUSKINNA_EQUAL, I, Y));
    int32_t odd = negation(r, of_names(r, SAUSKINNA_LESS, Y, X));
    int32_t jump_x = increase(r, X, 5);
    int32_t inner = choice(r, odd, jump_x, increase(r, Y, 7));
    int32_t lower = choice(r, either, inner, increase(r, X, 2));
    int32_t body = choice(r, outer, upper, lower);
    loop(r, test, sequence(r, body, increase(r, I, 1)));
}

/* v(k) := v(k + 1) * 3 + v(k + 2), over 16 variables, 146 times */
void straight_line(struct rule *r)
{
    declare_variables(r, 16);
    int32_t whole = skip(r);
    for (int32_t k = 0; k < 146; k++) {
        int32_t factor = name(r, (k + 1) % 16);
        int32_t product = binary(r, SAUSKINNA_TIMES, factor, value(r, 3));
        int32_t sum = binary(r, SAUSKINNA_PLUS, product, name(r, (k + 2) % 16));
        whole = sequence(r, whole, assign(r, k % 16, sum));
    }
}

/* ---- Rules that are compiled, of exactly so many rows: 16, 64, 256 or 1,024 ---- */

/* if x then (if x then .. else skip) else skip */
void deep_chain(struct rule *r, size_t rows)
{
    declare_variables(r, 1);
    int32_t whole = skip(r);
    while (rows_of(r) < rows) {
        int32_t test = name(r, 0);
        whole = choice(r, test, whole, skip(r));
    }
}

static int32_t whiles(struct rule *r, size_t levels)
{
    int32_t test = name(r, 0);
    return levels == 0 ? assign(r, 0, test) : loop(r, test, whiles(r, levels - 1));
}

/* while x do while x do .. x := x */
void nested_whiles(struct rule *r, size_t rows)
{
    declare_variables(r, 1);
    whiles(r, rows / 2 - 1);
}

static int32_t balanced_tree(struct rule *r, size_t leaves)
{
    if (leaves == 1)
        return rows_of(r) % 3 == 0 ? name(r, 1) : value(r, 5);
    int32_t left = balanced_tree(r, leaves / 2);
    return binary(r, SAUSKINNA_PLUS + (int32_t)(leaves / 2 % 3), left, balanced_tree(r, leaves / 2));
}

/* x := one balanced expression */
void balanced(struct rule *r, size_t rows)
{
    declare_variables(r, 2);
    assign(r, 0, balanced_tree(r, rows / 2));
}

/* x := ((x + x) + x) + .. */
static int32_t left_sum(struct rule *r, size_t depth)
{
    int32_t sum = name(r, 0);
    for (size_t i = 0; i < depth; i++)
        sum = binary(r, SAUSKINNA_PLUS, sum, name(r, 0));
    return assign(r, 0, sum);
}

/* skip; x := ((x + x) + x) + ..; ..: sums of one depth d, 2 * d + 3 rows each with their sequence, as few as do: 1, 1, 3 and 11 of
   depths 6, 30, 41 and 45. Each level takes a register, so that a sum deeper than 60 is refused. */
void left_sums(struct rule *r, size_t rows)
{
    size_t sums = 1;
    while ((rows - 1) % sums != 0 || (rows - 1) / sums > 2 * 60 + 3)
        sums++;
    declare_variables(r, 1);
    int32_t whole = skip(r);
    for (size_t i = 0; i < sums; i++)
        whole = sequence(r, whole, left_sum(r, ((rows - 1) / sums - 3) / 2));
}

/* n(k) := n(k + 1) */
static int32_t copy_next(struct rule *r, int32_t k, int32_t names)
{
    return assign(r, k % names, name(r, (k + 1) % names));
}

/* (skip; n(0) := n(1)); n(1) := n(2); .. */
static void wide_over(struct rule *r, size_t rows, int32_t names)
{
    declare_variables(r, names);
    int32_t whole = skip(r);
    for (int32_t k = 0; rows_of(r) < rows; k++)
        whole = sequence(r, whole, copy_next(r, k, names));
}

void wide(struct rule *r, size_t rows)
{
    wide_over(r, rows, 2);
}

void wide_over_256(struct rule *r, size_t rows)
{
    wide_over(r, rows, 256);
}

static int32_t right_sequences(struct rule *r, size_t levels)
{
    if (levels == 0)
        return skip(r);
    int32_t first = copy_next(r, (int32_t)levels, 2);
    return sequence(r, first, right_sequences(r, levels - 1));
}

/* n(1) := n(0); (n(0) := n(1); .. (n(1) := n(0); skip)) */
void right_nested(struct rule *r, size_t rows)
{
    declare_variables(r, 2);
    right_sequences(r, rows / 3);
}
