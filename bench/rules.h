/* rules.h: the rules that are run and compiled. */
#ifndef RULES_H
#define RULES_H

#include <stddef.h>
#include <stdint.h>

#include "sauskinna.h"

struct rule {
    int32_t declarations[2 * SAUSKINNA_DECLARATIONS];
    size_t declaration_words;
    int32_t nodes[4 * SAUSKINNA_ROWS];
    size_t node_words;
};

size_t rows_of(const struct rule *r);

/* To be run; they halt. */
void arithmetic_loop(struct rule *r);
void sieve(struct rule *r);
void nested_ifs(struct rule *r);
void straight_line(struct rule *r);

/* To be compiled, of exactly so many rows: 16, 64, 256 or 1,024. */
void deep_chain(struct rule *r, size_t rows);
void nested_whiles(struct rule *r, size_t rows);
void balanced(struct rule *r, size_t rows);
void left_sums(struct rule *r, size_t rows);
void wide(struct rule *r, size_t rows);
void wide_over_256(struct rule *r, size_t rows);
void right_nested(struct rule *r, size_t rows);

#endif
