/* reading.c: the scope's meaning of a rule, its steps, need and instructions, read directly from the rows. */
#include "reading.h"

const char *const shapes[KINDS] = {
    [VALUE] = "v--", [IDENTIFIER] = "s--", [ELEMENT] = "ae-",
    [PLUS] = "ee-",  [MINUS] = "ee-",      [TIMES] = "ee-",          [LESS] = "ee-",     [EQUAL] = "ee-",
    [AND] = "ee-",   [OR] = "ee-",         [NOT] = "e--",
    [SKIP] = "---",  [ASSIGN] = "xe-",     [ASSIGN_ELEMENT] = "aee", [SEQUENCE] = "cc-", [IF] = "ecc",     [WHILE] = "ec-",
};

struct reading {
    const struct tables *tables;
    int32_t *memory;
    size_t cells;
    uint32_t left;
    uint32_t ending; /* WENT_ON until it ends */
};

/* Takes n steps, or all that are left. */
static void take(struct reading *d, uint32_t n)
{
    if (d->ending != WENT_ON)
        return;
    if (d->left < n) {
        d->left = 0;
        d->ending = UNFINISHED;
    } else {
        d->left -= n;
    }
}

static int64_t first_cell(const int32_t *declarations, int32_t name)
{
    int64_t first = 0;
    for (const int32_t *d = declarations; d < declarations + DECLARATION * name; d += DECLARATION)
        first += d[0] == CONSTANT ? 0 : d[0] == VARIABLE ? 1 : d[1];
    return first;
}

/* The cell that a step reads or stores, or NULL where the rule ends before. The step is taken if it does not fault. */
static int32_t *cell_of(struct reading *d, int32_t name, int32_t index)
{
    int64_t address = first_cell(d->tables->declarations, name) + index;
    take(d, 1);
    if (d->ending == WENT_ON && d->left > 0 && (address < 0 || address >= (int64_t)d->cells))
        d->ending = FAULTED;
    take(d, 1);
    return d->ending == WENT_ON ? d->memory + address : NULL;
}

static int32_t wrapped(int64_t exact)
{
    int64_t low = exact & 0xffffffff;
    return (int32_t)(low > INT32_MAX ? low - (INT64_C(1) << 32) : low);
}

static int32_t apply(struct reading *d, int32_t kind, int32_t left, int32_t right)
{
    switch (kind) {
    case PLUS: take(d, 1); return wrapped((int64_t)left + right);
    case MINUS: take(d, 1); return wrapped((int64_t)left - right);
    case TIMES: take(d, 1); return wrapped((int64_t)left * right);
    case LESS: take(d, 1); return left < right;
    case EQUAL: take(d, left == right ? 2 : 3); return left == right;
    case AND: take(d, left == 0 ? 2 : right == 0 ? 3 : 4); return left != 0 && right != 0;
    default: take(d, left != 0 ? 2 : right != 0 ? 3 : 4); return left != 0 || right != 0;
    }
}

static int32_t read_cell(struct reading *d, int32_t name, int32_t index)
{
    const int32_t *cell = cell_of(d, name, index);
    return cell == NULL ? 0 : *cell;
}

static int32_t named(struct reading *d, int32_t name)
{
    const int32_t *declaration = d->tables->declarations + DECLARATION * name;
    if (declaration[0] != CONSTANT)
        return read_cell(d, name, 0);
    take(d, 1);
    return declaration[1];
}

static int32_t value_of(struct reading *d, int32_t row)
{
    const int32_t *node = d->tables->nodes + NODE * row;
    int32_t left, right;
    switch (node[0]) {
    case VALUE: take(d, 1); return node[1];
    case IDENTIFIER: return named(d, node[1]);
    case ELEMENT: return read_cell(d, node[1], value_of(d, node[2]));
    case NOT:
        left = value_of(d, node[1]);
        take(d, left == 0 ? 2 : 3);
        return left == 0;
    default:
        left = value_of(d, node[1]);
        right = value_of(d, node[2]);
        return apply(d, node[0], left, right);
    }
}

static void assign(struct reading *d, int32_t name, int32_t index, int32_t value)
{
    int32_t *cell = cell_of(d, name, index);
    if (cell != NULL)
        *cell = value;
}

/* A test of an if or a while, with the step after it. */
static int holds(struct reading *d, int32_t row)
{
    int32_t value = value_of(d, row);
    take(d, 1);
    return d->ending == WENT_ON && value != 0;
}

static void perform(struct reading *d, int32_t row)
{
    const int32_t *node = d->tables->nodes + NODE * row;
    int32_t index;
    if (d->ending != WENT_ON)
        return;
    switch (node[0]) {
    case SKIP: take(d, 1); break;
    case ASSIGN: assign(d, node[1], 0, value_of(d, node[2])); break;
    case ASSIGN_ELEMENT:
        index = value_of(d, node[2]);
        assign(d, node[1], index, value_of(d, node[3]));
        break;
    case SEQUENCE:
        perform(d, node[1]);
        perform(d, node[2]);
        break;
    case IF:
        if (holds(d, node[1])) {
            perform(d, node[2]);
            take(d, 1);
        } else {
            perform(d, node[3]);
        }
        break;
    default:
        while (holds(d, node[1])) {
            perform(d, node[2]);
            take(d, 1);
        }
        break;
    }
}

uint32_t meaning(const struct tables *t, int32_t row, int32_t *memory, size_t cells, uint32_t budget, uint32_t *steps)
{
    struct reading d = {t, memory, cells, budget, WENT_ON};
    perform(&d, row);
    take(&d, 1);
    *steps = budget - d.left;
    return d.ending == WENT_ON ? HALTED : d.ending;
}

static uint32_t most(uint32_t x, uint32_t y)
{
    return x < y ? y : x;
}

uint32_t need_of(const struct tables *t, int32_t row)
{
    const int32_t *n = t->nodes + NODE * row;
    switch (n[0]) {
    case VALUE: case SKIP: return 0;
    case IDENTIFIER: return t->declarations[DECLARATION * n[1]] == CONSTANT ? 0 : 1;
    case ELEMENT: case ASSIGN: return 1 + most(1, need_of(t, n[2]));
    case NOT: return 1 + need_of(t, n[1]);
    case ASSIGN_ELEMENT: return most(3, most(1 + need_of(t, n[2]), 2 + need_of(t, n[3])));
    case SEQUENCE: return most(need_of(t, n[1]), need_of(t, n[2]));
    case IF: return most(1 + need_of(t, n[1]), most(need_of(t, n[2]), need_of(t, n[3])));
    case WHILE: return most(1 + need_of(t, n[1]), need_of(t, n[2]));
    default: return most(1 + need_of(t, n[1]), 2 + need_of(t, n[2]));
    }
}

uint32_t instructions_of(const struct tables *t, int32_t row)
{
    static const uint32_t own[KINDS] = {
        [VALUE] = 1, [IDENTIFIER] = 2, [ELEMENT] = 2,
        [PLUS] = 1,  [MINUS] = 1,      [TIMES] = 1,          [LESS] = 1,     [EQUAL] = 4, [AND] = 4, [OR] = 4, [NOT] = 3,
        [SKIP] = 1,  [ASSIGN] = 2,     [ASSIGN_ELEMENT] = 2, [SEQUENCE] = 0, [IF] = 2,    [WHILE] = 2,
    };
    const int32_t *n = t->nodes + NODE * row;
    uint32_t sum = own[n[0]];
    if (n[0] == IDENTIFIER && t->declarations[DECLARATION * n[1]] == CONSTANT)
        sum = 1;
    for (int word = 1; word < NODE; word++)
        if (shapes[n[0]][word - 1] == 'e' || shapes[n[0]][word - 1] == 'c')
            sum += instructions_of(t, n[word]);
    return sum;
}
