/* compiling.c: compiles through lent buffers and looks at every word that was lent. */
#include "compiling.h"

#include <string.h>

#include "lent.h"

size_t code_words_of(const struct compiled *c)
{
    return INSTRUCTION * (size_t)c->answer[SAUSKINNA_ANSWER_INSTRUCTIONS];
}

size_t words_held(size_t code_words)
{
    size_t most = sizeof((struct compiled *)NULL)->code / sizeof(int32_t);
    return code_words < most ? code_words : most;
}

static int code_kept(const struct compiled *c, const struct lent *code)
{
    if (c->number != SAUSKINNA_ACCEPTED)
        return kept(code);
    return code_words_of(c) <= code->count && kept_beyond(code, code_words_of(c));
}

int compile_with(compile_function *compile, const struct rule *r, uint64_t pool, size_t code_words, struct compiled *c)
{
    struct lent declarations = lend(r->declarations, r->declaration_words);
    struct lent nodes = lend(r->nodes, r->node_words);
    struct lent code = lend(NULL, code_words);
    struct lent answer = lend(NULL, ANSWER);
    c->number = compile(declarations.words, declarations.count, nodes.words, nodes.count, pool, code.words, code.count,
                        (uint32_t *)answer.words);
    memcpy(c->answer, answer.words, bytes(ANSWER));
    int fine = kept(&declarations) && kept(&nodes) && kept_beyond(&answer, ANSWER) && code_kept(c, &code);
    memcpy(c->code, code.words, bytes(words_held(code_words)));
    give_back(&declarations);
    give_back(&nodes);
    give_back(&code);
    give_back(&answer);
    return fine;
}

const struct compiled *accept_at(const struct rule *r, uint64_t pool, struct where where)
{
    static struct compiled c;
    check_at(compile_with(sauskinna_compile, r, pool, SAUSKINNA_ROOM(rows_of(r)), &c), "compile changes the code alone", where);
    same_at(c.number, SAUSKINNA_ACCEPTED, "accepted", where);
    return &c;
}

void refuse_at(const struct rule *r, uint64_t pool, size_t code_words, uint32_t number, uint32_t value, struct where where)
{
    static struct compiled c;
    check_at(compile_with(sauskinna_compile, r, pool, code_words, &c), "a refusal changes nothing", where);
    same_at(c.number, number, "the refusal's number", where);
    same_at(c.answer[SAUSKINNA_ANSWER_VALUE], value, "the number returned", where);
    check_at(c.answer[1] == 0 && c.answer[2] == 0, "two words of 0", where);
}

void answers_at(const uint32_t found[ANSWER], uint32_t first, uint32_t second, uint32_t third, struct where where)
{
    same_at(found[0], first, "the answer's first word", where);
    same_at(found[1], second, "the answer's second word", where);
    same_at(found[2], third, "the answer's third word", where);
}
