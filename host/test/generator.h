/* generator.h: rules at random, in the scope's own numbers. */
#ifndef GENERATOR_H
#define GENERATOR_H

#include "rules.h"

/* A rule of few rows over few names. */
struct rule any_rule(void);

/* A rule of hundreds of rows, at times all 1,024, over up to 256 names and 65,536 cells. Most of them run to their end. */
struct rule any_large_rule(void);

/* The same rule with the header's constants for the scope's numbers of kinds: what a program in C would hand in. */
struct rule in_header(const struct rule *r);

#endif
