/* compiling.h: calls of compile, in which only what may change has changed. */
#ifndef COMPILING_H
#define COMPILING_H

#include "checks.h"
#include "rules.h"
#include "sauskinna.h"

struct compiled {
    uint32_t number;
    uint32_t answer[SAUSKINNA_ANSWER_WORDS];
    int32_t code[SAUSKINNA_ROOM(SAUSKINNA_ROWS)];
};

typedef uint32_t compile_function(const int32_t *, size_t, const int32_t *, size_t, uint64_t, int32_t *, size_t, uint32_t *);

/* Code words of an accepted rule. */
size_t code_words_of(const struct compiled *c);

/* Words of a code buffer of so many that stand in a struct compiled. */
size_t words_held(size_t code_words);

/* Compiles through lent buffers into a code buffer of so many words; gives whether nothing else was changed. */
int compile_with(compile_function *compile, const struct rule *r, uint64_t pool, size_t code_words, struct compiled *c);

/* The rule is accepted in a buffer of SAUSKINNA_ROOM words. What it gives stands until the next call. */
const struct compiled *accept_at(const struct rule *r, uint64_t pool, struct where where);

/* The rule is refused with this number and value, in a buffer of so many words. */
void refuse_at(const struct rule *r, uint64_t pool, size_t code_words, uint32_t number, uint32_t value, struct where where);

void answers_at(const uint32_t found[ANSWER], uint32_t first, uint32_t second, uint32_t third, struct where where);

#define ACCEPT(rule, pool) accept_at(&(rule), (pool), HERE)
#define REFUSE(rule, pool, number, value) REFUSE_IN(rule, pool, SAUSKINNA_ROOM(rows_of(&(rule))), number, value)
#define REFUSE_IN(rule, pool, words, number, value) refuse_at(&(rule), (pool), (words), (number), (value), HERE)
#define ANSWERS(found, first, second, third) answers_at((found), (first), (second), (third), HERE)

#endif
