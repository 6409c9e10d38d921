/* generator.c: builds trees at random from the shapes of the kinds. */
#include "generator.h"

#include "random.h"
#include "reading.h"
#include "sauskinna.h"

/* What the rules are like that are being built. */
struct taste {
    uint32_t names;   /* at most so many */
    uint32_t cells;   /* at most so many in an array */
    size_t last_deep; /* the last row from which a tree may go deep */
    int tame;         /* indices within their arrays, and no loops */
};

enum { FEW_ROWS = 30 };

static const struct taste small = {6, 20, FEW_ROWS, 0};

/* ---- Declarations ---- */

static uint32_t cells_left(const struct rule *r)
{
    uint32_t left = CELL_LIMIT;
    for (const int32_t *d = r->declarations; d < r->declarations + r->declaration_words; d += DECLARATION)
        left -= d[0] == CONSTANT ? 0 : d[0] == VARIABLE ? 1 : (uint32_t)d[1];
    return left;
}

/* An array of few cells, or of many while cells are left for the other names. */
static int32_t any_array(const struct rule *r, const struct taste *taste)
{
    uint32_t left = cells_left(r), others = NAME_LIMIT * small.cells;
    if (left <= others || one_in(2))
        return 1 + (int32_t)below(small.cells);
    uint32_t most = left - others < taste->cells ? left - others : taste->cells;
    return 1 + (int32_t)below(most);
}

static struct rule any_declarations(const struct taste *taste)
{
    struct rule r = empty_rule();
    for (uint32_t names = one_in(4) ? taste->names : 1 + below(taste->names); names > 0; names--) {
        int32_t kind = CONSTANT + (int32_t)below(ARRAY);
        declare(&r, kind, kind == CONSTANT ? any_value() : kind == VARIABLE ? 0 : any_array(&r, taste));
    }
    return r;
}

static int fits(const struct rule *r, int32_t name, char shape)
{
    int32_t kind = r->declarations[DECLARATION * name];
    return shape == 'a' ? kind == ARRAY : shape == 'x' ? kind == VARIABLE : kind != ARRAY;
}

/* A name of a shape, or -1 where there is none. */
static int32_t any_name(const struct rule *r, char shape)
{
    int32_t names = (int32_t)names_of(r), from = (int32_t)below((uint32_t)names);
    for (int32_t i = 0; i < names; i++)
        if (fits(r, (from + i) % names, shape))
            return (from + i) % names;
    return -1;
}

/* ---- Trees ---- */

static int32_t any_tree(struct rule *r, const struct taste *taste, char sort, int depth);

static int32_t any_kind(const struct taste *taste, char sort, int depth)
{
    static const int32_t commands[] = {SKIP, ASSIGN, ASSIGN, ASSIGN_ELEMENT, ASSIGN_ELEMENT, SEQUENCE, SEQUENCE, IF, WHILE};
    uint32_t count = sizeof commands / sizeof commands[0];
    if (sort == 'e')
        return depth <= 0 ? VALUE + (int32_t)below(2) : VALUE + (int32_t)below(NOT);
    return depth <= 0 ? SKIP + (int32_t)below(2) : commands[below(taste->tame ? count - 1 : count)];
}

static int is_name(char shape)
{
    return shape == 's' || shape == 'x' || shape == 'a';
}

/* An index: a number within the array, or any expression. */
static int32_t any_index(struct rule *r, const struct taste *taste, int32_t array, int depth)
{
    uint32_t cells = (uint32_t)r->declarations[DECLARATION * array + 1];
    if (!taste->tame && one_in(2))
        return any_tree(r, taste, 'e', depth);
    return add(r, VALUE, (int32_t)(one_in(4) ? cells - 1 : below(cells)), 0, 0);
}

/* A tree of this kind, its children's rows in any order. */
static int32_t any_tree_of(struct rule *r, const struct taste *taste, int32_t kind, int depth)
{
    int32_t words[NODE - 1] = {0, 0, 0};
    const char *shape = shapes[kind];
    if (is_name(shape[0]))
        words[0] = any_name(r, shape[0]);
    if (shape[0] == 'v')
        words[0] = any_value();
    for (uint32_t i = 0, first = below(NODE - 1); i < NODE - 1; i++) {
        uint32_t word = (first + i) % (NODE - 1);
        if (shape[0] == 'a' && word == 1)
            words[word] = any_index(r, taste, words[0], depth - 1);
        else if (shape[word] == 'e' || shape[word] == 'c')
            words[word] = any_tree(r, taste, shape[word], depth - 1);
    }
    return add(r, kind, words[0], words[1], words[2]);
}

static int32_t any_tree(struct rule *r, const struct taste *taste, char sort, int depth)
{
    if (rows_of(r) > taste->last_deep)
        depth = 0;
    int32_t kind = any_kind(taste, sort, depth);
    if (is_name(shapes[kind][0]) && any_name(r, shapes[kind][0]) < 0)
        kind = sort == 'e' ? VALUE : SKIP;
    return any_tree_of(r, taste, kind, depth);
}

/* ---- Rules ---- */

struct rule any_rule(void)
{
    struct rule r = any_declarations(&small);
    any_tree(&r, &small, 'c', 1 + (int)below(5));
    return r;
}

/* Skips in a sequence with the last row until there are exactly 1,024 rows; an if first where that makes them even. */
static void fill(struct rule *r)
{
    int32_t last = (int32_t)rows_of(r) - 1;
    if ((ROW_LIMIT - rows_of(r)) % 2 == 1) {
        int32_t test = add(r, VALUE, any_value(), 0, 0);
        int32_t other = add(r, SKIP, 0, 0, 0);
        last = add(r, IF, test, last, other);
    }
    while (rows_of(r) < ROW_LIMIT) {
        int32_t skip = add(r, SKIP, 0, 0, 0);
        last = add(r, SEQUENCE, last, skip, 0);
    }
}

struct rule any_large_rule(void)
{
    enum { DEEP = 5, LONGEST_TREE = 60 };
    size_t rows = one_in(2) ? ROW_LIMIT - LONGEST_TREE : 100 + below(ROW_LIMIT - LONGEST_TREE - 100);
    struct taste taste = {NAME_LIMIT, CELL_LIMIT, 0, !one_in(4)};
    struct rule r = any_declarations(&taste);
    if (names_of(&r) < NAME_LIMIT && one_in(2))
        declare(&r, ARRAY, (int32_t)cells_left(&r));
    taste.last_deep = FEW_ROWS;
    int32_t last = any_tree(&r, &taste, 'c', DEEP);
    while (rows_of(&r) < rows) {
        taste.last_deep = rows_of(&r) + FEW_ROWS;
        if (taste.last_deep > rows)
            taste.last_deep = rows;
        int32_t next = any_tree(&r, &taste, 'c', 1 + (int)below(DEEP));
        last = add(&r, SEQUENCE, last, next, 0);
    }
    if (rows == ROW_LIMIT - LONGEST_TREE)
        fill(&r);
    return r;
}

/* ---- The header's constants ---- */

struct rule in_header(const struct rule *r)
{
    static const int32_t declarations[ARRAY + 1] = {0, SAUSKINNA_CONSTANT, SAUSKINNA_VARIABLE, SAUSKINNA_ARRAY};
    static const int32_t nodes[KINDS] = {
        [VALUE] = SAUSKINNA_VALUE, [IDENTIFIER] = SAUSKINNA_IDENTIFIER, [ELEMENT] = SAUSKINNA_ELEMENT, [PLUS] = SAUSKINNA_PLUS,
        [MINUS] = SAUSKINNA_MINUS, [TIMES] = SAUSKINNA_TIMES, [LESS] = SAUSKINNA_LESS, [EQUAL] = SAUSKINNA_EQUAL,
        [AND] = SAUSKINNA_AND, [OR] = SAUSKINNA_OR, [NOT] = SAUSKINNA_NOT, [SKIP] = SAUSKINNA_SKIP, [ASSIGN] = SAUSKINNA_ASSIGN,
        [ASSIGN_ELEMENT] = SAUSKINNA_ASSIGN_ELEMENT, [SEQUENCE] = SAUSKINNA_SEQUENCE, [IF] = SAUSKINNA_IF, [WHILE] = SAUSKINNA_WHILE,
    };
    struct rule h = *r;
    for (size_t i = 0; i < h.declaration_words; i += DECLARATION)
        if (CONSTANT <= h.declarations[i] && h.declarations[i] <= ARRAY)
            h.declarations[i] = declarations[h.declarations[i]];
    for (size_t i = 0; i < h.node_words; i += NODE)
        if (0 <= h.nodes[i] && h.nodes[i] < KINDS && shapes[h.nodes[i]] != NULL)
            h.nodes[i] = nodes[h.nodes[i]];
    return h;
}
