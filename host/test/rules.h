/* rules.h: the tables of a rule, and rules that several subjects use. */
#ifndef RULES_H
#define RULES_H

#include <stddef.h>
#include <stdint.h>

#include "paper.h"

/* Room for tables that are too large, for which the library has refusals. */
enum { SPARE_ROWS = 8 };

struct rule {
    int32_t declarations[DECLARATION * (NAME_LIMIT + SPARE_ROWS)];
    size_t declaration_words;
    int32_t nodes[NODE * (ROW_LIMIT + SPARE_ROWS)];
    size_t node_words;
};

size_t rows_of(const struct rule *r);
size_t names_of(const struct rule *r);

/* Appends a row; gives its number. */
int32_t declare(struct rule *r, int32_t kind, int32_t value);
int32_t add(struct rule *r, int32_t kind, int32_t a, int32_t b, int32_t c);

void set_word(struct rule *r, int32_t row, int word, int32_t value);

/* The pool of $low to $high, and of all but $0. */
uint64_t pool_of(int low, int high);
#define ALL_BUT_ZERO pool_of(1, REGISTER_COUNT - 1)

/* A rule without rows; the same over one variable, x. */
struct rule empty_rule(void);
struct rule over_x(void);

/* skip */
struct rule skip_rule(void);

/* x := v */
struct rule assign_rule(int32_t v);

/* The last of so many variables := 5. */
struct rule names_rule(int names);

/* x := 0 and skips, in a sequence: so many rows, an even number. */
struct rule rows_rule(size_t rows);

/* Every kind of node, over a constant, a variable and an array. Row 0 is an expression, row 1 a command. */
struct rule every_kind(void);

#endif
