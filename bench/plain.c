/* plain.c: the compiler and the machine in plain C, which tests and benchmarks hold the library against. */
#include "plain.h"

enum { MAX_NAMES = 256, MAX_ROWS = 1024, MAX_CELLS = 65536, MAX_CODE_WORDS = 262144 };

enum { CONSTANT = 1, VARIABLE, ARRAY };

enum {
    VALUE = 1, IDENTIFIER, ELEMENT, PLUS, MINUS, TIMES, LESS, EQUAL, AND, OR, NOT,
    SKIP = 16, ASSIGN, ASSIGN_ELEMENT, SEQUENCE, IF, WHILE
};

enum { HALT, NOP, ADD, ADDI, SUB, MUL, LOAD, STORE, JMP, BNE, BEQ, SLT };

enum { WENT_ON, HALTED, FAULTED, UNFINISHED };

/* ---- The tables of a rule, and refusals 1 to 10 ---- */

struct rule {
    const int32_t *declarations;
    size_t names;
    const int32_t *nodes;
    size_t rows;
    uint32_t cells;
    uint32_t address[MAX_NAMES];
    uint32_t need[MAX_ROWS];
    uint32_t size[MAX_ROWS];
    uint16_t uses[MAX_ROWS];
};

struct refusal {
    uint32_t number;
    uint32_t value;
};

static const struct refusal accepted = {0, 0};

/* What a word of a node row is. */
enum class { UNUSED, NUMBER, SCALAR_NAME, VARIABLE_NAME, ARRAY_NAME, EXPRESSION, COMMAND };

static const uint8_t classes[WHILE + 1][3] = {
    [VALUE] = {NUMBER, UNUSED, UNUSED},
    [IDENTIFIER] = {SCALAR_NAME, UNUSED, UNUSED},
    [ELEMENT] = {ARRAY_NAME, EXPRESSION, UNUSED},
    [PLUS] = {EXPRESSION, EXPRESSION, UNUSED},
    [MINUS] = {EXPRESSION, EXPRESSION, UNUSED},
    [TIMES] = {EXPRESSION, EXPRESSION, UNUSED},
    [LESS] = {EXPRESSION, EXPRESSION, UNUSED},
    [EQUAL] = {EXPRESSION, EXPRESSION, UNUSED},
    [AND] = {EXPRESSION, EXPRESSION, UNUSED},
    [OR] = {EXPRESSION, EXPRESSION, UNUSED},
    [NOT] = {EXPRESSION, UNUSED, UNUSED},
    [SKIP] = {UNUSED, UNUSED, UNUSED},
    [ASSIGN] = {VARIABLE_NAME, EXPRESSION, UNUSED},
    [ASSIGN_ELEMENT] = {ARRAY_NAME, EXPRESSION, EXPRESSION},
    [SEQUENCE] = {COMMAND, COMMAND, UNUSED},
    [IF] = {EXPRESSION, COMMAND, COMMAND},
    [WHILE] = {EXPRESSION, COMMAND, UNUSED},
};

static int is_expression(int32_t kind)
{
    return VALUE <= kind && kind <= NOT;
}

static int is_command(int32_t kind)
{
    return SKIP <= kind && kind <= WHILE;
}

static int32_t kind_of(const struct rule *rule, size_t row)
{
    return rule->nodes[4 * row];
}

static size_t child(const struct rule *rule, size_t row, int word)
{
    return (size_t)rule->nodes[4 * row + word];
}

static struct refusal check_sizes(size_t declaration_words, size_t node_words, uint64_t pool)
{
    if (node_words % 4 != 0 || node_words == 0 || node_words > 4 * MAX_ROWS)
        return (struct refusal){1, 0};
    if (declaration_words % 2 != 0 || declaration_words > 2 * MAX_NAMES)
        return (struct refusal){2, 0};
    if (pool & 1)
        return (struct refusal){3, 0};
    return accepted;
}

/* The cells of a declaration, or -1 where it is none. */
static int64_t cells_of(int32_t kind, int32_t value)
{
    switch (kind) {
    case CONSTANT: return 0;
    case VARIABLE: return value == 0 ? 1 : -1;
    case ARRAY: return 1 <= value && value <= MAX_CELLS ? value : -1;
    default: return -1;
    }
}

/* Refusals 4 and 5; gives out the cells. */
static struct refusal give_cells(struct rule *rule)
{
    rule->cells = 0;
    for (size_t row = 0; row < rule->names; row++) {
        int64_t cells = cells_of(rule->declarations[2 * row], rule->declarations[2 * row + 1]);
        if (cells < 0)
            return (struct refusal){4, (uint32_t)row};
        rule->address[row] = rule->cells;
        rule->cells += (uint32_t)cells;
        if (rule->cells > MAX_CELLS)
            return (struct refusal){5, (uint32_t)row};
    }
    return accepted;
}

/* The refusals that one word can give, and more than each where it gives none. */
enum { NONE = 10 };

static uint32_t check_child(struct rule *rule, size_t row, enum class class, int32_t word)
{
    if ((uint32_t)word >= row)
        return 6;
    rule->uses[word]++;
    int32_t kind = kind_of(rule, (size_t)word);
    return (class == EXPRESSION ? is_expression(kind) : is_command(kind)) ? NONE : 7;
}

static uint32_t check_name(const struct rule *rule, enum class class, int32_t word)
{
    if ((uint32_t)word >= rule->names)
        return 8;
    int32_t kind = rule->declarations[2 * (size_t)word];
    switch (class) {
    case SCALAR_NAME: return kind != ARRAY ? NONE : 9;
    case VARIABLE_NAME: return kind == VARIABLE ? NONE : 9;
    default: return kind == ARRAY ? NONE : 9;
    }
}

static uint32_t check_word(struct rule *rule, size_t row, enum class class, int32_t word)
{
    switch (class) {
    case UNUSED: return word == 0 ? NONE : 6;
    case NUMBER: return NONE;
    case EXPRESSION:
    case COMMAND: return check_child(rule, row, class, word);
    default: return check_name(rule, class, word);
    }
}

static uint32_t check_row(struct rule *rule, size_t row)
{
    const int32_t *node = rule->nodes + 4 * row;
    if (!is_expression(node[0]) && !is_command(node[0]))
        return 6;
    uint32_t lowest = row + 1 == rule->rows && is_expression(node[0]) ? 7 : NONE;
    for (int word = 1; word <= 3; word++) {
        uint32_t number = check_word(rule, row, classes[node[0]][word - 1], node[word]);
        if (number < lowest)
            lowest = number;
    }
    return lowest;
}

/* Refusals 6 to 9; counts the uses of each row. */
static struct refusal check_rows(struct rule *rule)
{
    for (size_t row = 0; row < rule->rows; row++)
        rule->uses[row] = 0;
    for (size_t row = 0; row < rule->rows; row++) {
        uint32_t number = check_row(rule, row);
        if (number != NONE)
            return (struct refusal){number, (uint32_t)row};
    }
    return accepted;
}

static struct refusal check_uses(const struct rule *rule)
{
    for (size_t row = 0; row + 1 < rule->rows; row++)
        if (rule->uses[row] != 1)
            return (struct refusal){10, (uint32_t)row};
    return accepted;
}

/* ---- Registers needed and instructions, from the lowest row up ---- */

static uint32_t larger(uint32_t x, uint32_t y)
{
    return x < y ? y : x;
}

static uint32_t need_of(const struct rule *rule, size_t row)
{
    const uint32_t *need = rule->need;
    size_t a = child(rule, row, 1), b = child(rule, row, 2), c = child(rule, row, 3);
    switch (kind_of(rule, row)) {
    case VALUE:
    case SKIP: return 0;
    case IDENTIFIER: return rule->declarations[2 * a] == VARIABLE;
    case ELEMENT:
    case ASSIGN: return 1 + larger(1, need[b]);
    case NOT: return 1 + need[a];
    case ASSIGN_ELEMENT: return larger(larger(1 + need[b], 2 + need[c]), 3);
    case SEQUENCE: return larger(need[a], need[b]);
    case IF: return larger(1 + need[a], larger(need[b], need[c]));
    case WHILE: return larger(1 + need[a], need[b]);
    default: return larger(1 + need[a], 2 + need[b]);
    }
}

static uint32_t size_of(const struct rule *rule, size_t row)
{
    const uint32_t *size = rule->size;
    size_t a = child(rule, row, 1), b = child(rule, row, 2), c = child(rule, row, 3);
    switch (kind_of(rule, row)) {
    case VALUE:
    case SKIP: return 1;
    case IDENTIFIER: return rule->declarations[2 * a] == VARIABLE ? 2 : 1;
    case ELEMENT:
    case ASSIGN: return size[b] + 2;
    case PLUS:
    case MINUS:
    case TIMES:
    case LESS: return size[a] + size[b] + 1;
    case NOT: return size[a] + 3;
    case ASSIGN_ELEMENT: return size[b] + size[c] + 2;
    case SEQUENCE: return size[a] + size[b];
    case IF: return size[a] + size[b] + size[c] + 2;
    case WHILE: return size[a] + size[b] + 2;
    default: return size[a] + size[b] + 4;
    }
}

/* Refusals 11 and 12. */
static struct refusal check_room(struct rule *rule, uint64_t pool, size_t code_words)
{
    for (size_t row = 0; row < rule->rows; row++) {
        rule->need[row] = need_of(rule, row);
        rule->size[row] = size_of(rule, row);
    }
    uint32_t need = rule->need[rule->rows - 1];
    uint32_t instructions = rule->size[rule->rows - 1] + 1;
    if (need > (uint32_t)__builtin_popcountll(pool))
        return (struct refusal){11, need};
    if (code_words < 4 * (size_t)instructions)
        return (struct refusal){12, instructions};
    return accepted;
}

static struct refusal check(struct rule *rule, uint64_t pool, size_t code_words)
{
    struct refusal found = give_cells(rule);
    if (found.number == 0)
        found = check_rows(rule);
    if (found.number == 0)
        found = check_uses(rule);
    if (found.number == 0)
        found = check_room(rule, pool, code_words);
    return found;
}

/* ---- Emission ---- */

struct emitter {
    const struct rule *rule;
    int32_t *code;
    int32_t at;
};

static int32_t lowest(uint64_t pool)
{
    return __builtin_ctzll(pool);
}

static uint64_t without_lowest(uint64_t pool)
{
    return pool & (pool - 1);
}

static void put_at(struct emitter *e, int32_t at, int32_t op, int32_t a, int32_t b, int32_t c)
{
    int32_t *words = e->code + 4 * (size_t)at;
    words[0] = op;
    words[1] = a;
    words[2] = b;
    words[3] = c;
}

static void put(struct emitter *e, int32_t op, int32_t a, int32_t b, int32_t c)
{
    put_at(e, e->at++, op, a, b, c);
}

static void emit_equal(struct emitter *e, int32_t target, int32_t t1, int32_t t2)
{
    int32_t equal = e->at + 3;
    put(e, BEQ, t1, t2, equal);
    put(e, ADDI, target, 0, 0);
    put(e, JMP, equal + 1, 0, 0);
    put(e, ADDI, target, 1, 0);
}

static void emit_not(struct emitter *e, int32_t target, int32_t t1)
{
    int32_t end = e->at + 3;
    put(e, ADDI, target, 1, 0);
    put(e, BEQ, t1, 0, end);
    put(e, ADDI, target, 0, 0);
}

/* and, or: the first value stays where one operand makes the branch. */
static void emit_both(struct emitter *e, int32_t branch, int32_t first, int32_t target, int32_t t1, int32_t t2)
{
    int32_t end = e->at + 4;
    put(e, ADDI, target, first, 0);
    put(e, branch, t1, 0, end);
    put(e, branch, t2, 0, end);
    put(e, ADDI, target, 1 - first, 0);
}

static void emit_operator(struct emitter *e, int32_t kind, int32_t target, int32_t t1, int32_t t2)
{
    switch (kind) {
    case PLUS: put(e, ADD, target, t1, t2); break;
    case MINUS: put(e, SUB, target, t1, t2); break;
    case TIMES: put(e, MUL, target, t1, t2); break;
    case LESS: put(e, SLT, target, t1, t2); break;
    case EQUAL: emit_equal(e, target, t1, t2); break;
    case AND: emit_both(e, BEQ, 0, target, t1, t2); break;
    default: emit_both(e, BNE, 1, target, t1, t2); break;
    }
}

static void emit_load(struct emitter *e, size_t name, int32_t index, int32_t target, uint64_t pool)
{
    int32_t base = lowest(pool);
    put(e, ADDI, base, (int32_t)e->rule->address[name], 0);
    put(e, LOAD, target, base, index);
}

static void emit_store(struct emitter *e, size_t name, int32_t index, int32_t value, uint64_t pool)
{
    int32_t base = lowest(pool);
    put(e, ADDI, base, (int32_t)e->rule->address[name], 0);
    put(e, STORE, base, index, value);
}

static void emit_identifier(struct emitter *e, size_t name, int32_t target, uint64_t pool)
{
    const int32_t *declaration = e->rule->declarations + 2 * name;
    if (declaration[0] == CONSTANT)
        put(e, ADDI, target, declaration[1], 0);
    else
        emit_load(e, name, 0, target, pool);
}

static void emit_expression(struct emitter *e, size_t row, int32_t target, uint64_t pool)
{
    const struct rule *rule = e->rule;
    int32_t kind = kind_of(rule, row);
    if (kind == VALUE) {
        put(e, ADDI, target, rule->nodes[4 * row + 1], 0);
        return;
    }
    if (kind == IDENTIFIER) {
        emit_identifier(e, child(rule, row, 1), target, pool);
        return;
    }
    int32_t t1 = lowest(pool);
    uint64_t rest = without_lowest(pool);
    emit_expression(e, child(rule, row, kind == ELEMENT ? 2 : 1), t1, rest);
    if (kind == ELEMENT) {
        emit_load(e, child(rule, row, 1), t1, target, rest);
    } else if (kind == NOT) {
        emit_not(e, target, t1);
    } else {
        int32_t t2 = lowest(rest);
        emit_expression(e, child(rule, row, 2), t2, without_lowest(rest));
        emit_operator(e, kind, target, t1, t2);
    }
}

static void emit_command(struct emitter *e, size_t row, uint64_t pool);

static void emit_assign(struct emitter *e, size_t row, uint64_t pool)
{
    int32_t t1 = lowest(pool);
    uint64_t rest = without_lowest(pool);
    emit_expression(e, child(e->rule, row, 2), t1, rest);
    emit_store(e, child(e->rule, row, 1), 0, t1, rest);
}

static void emit_assign_element(struct emitter *e, size_t row, uint64_t pool)
{
    int32_t t1 = lowest(pool);
    uint64_t rest = without_lowest(pool);
    emit_expression(e, child(e->rule, row, 2), t1, rest);
    int32_t t2 = lowest(rest);
    uint64_t left = without_lowest(rest);
    emit_expression(e, child(e->rule, row, 3), t2, left);
    emit_store(e, child(e->rule, row, 1), t1, t2, left);
}

static void emit_if(struct emitter *e, size_t row, uint64_t pool)
{
    int32_t t = lowest(pool);
    emit_expression(e, child(e->rule, row, 1), t, without_lowest(pool));
    int32_t branch = e->at++;
    emit_command(e, child(e->rule, row, 2), pool);
    int32_t jump = e->at++;
    put_at(e, branch, BEQ, t, 0, e->at);
    emit_command(e, child(e->rule, row, 3), pool);
    put_at(e, jump, JMP, e->at, 0, 0);
}

static void emit_while(struct emitter *e, size_t row, uint64_t pool)
{
    int32_t loop = e->at;
    int32_t t = lowest(pool);
    emit_expression(e, child(e->rule, row, 1), t, without_lowest(pool));
    int32_t branch = e->at++;
    emit_command(e, child(e->rule, row, 2), pool);
    put(e, JMP, loop, 0, 0);
    put_at(e, branch, BEQ, t, 0, e->at);
}

static void emit_command(struct emitter *e, size_t row, uint64_t pool)
{
    switch (kind_of(e->rule, row)) {
    case SKIP: put(e, NOP, 0, 0, 0); break;
    case ASSIGN: emit_assign(e, row, pool); break;
    case ASSIGN_ELEMENT: emit_assign_element(e, row, pool); break;
    case SEQUENCE:
        emit_command(e, child(e->rule, row, 1), pool);
        emit_command(e, child(e->rule, row, 2), pool);
        break;
    case IF: emit_if(e, row, pool); break;
    default: emit_while(e, row, pool); break;
    }
}

static uint32_t say(uint32_t answer[3], uint32_t first, uint32_t second, uint32_t third, uint32_t number)
{
    answer[0] = first;
    answer[1] = second;
    answer[2] = third;
    return number;
}

uint32_t plain_compile(const int32_t *declarations, size_t declaration_words,
                       const int32_t *nodes, size_t node_words,
                       uint64_t pool, int32_t *code, size_t code_words,
                       uint32_t answer[3])
{
    struct refusal found = check_sizes(declaration_words, node_words, pool);
    if (found.number != 0)
        return say(answer, found.value, 0, 0, found.number);
    struct rule rule;
    rule.declarations = declarations;
    rule.names = declaration_words / 2;
    rule.nodes = nodes;
    rule.rows = node_words / 4;
    found = check(&rule, pool, code_words);
    if (found.number != 0)
        return say(answer, found.value, 0, 0, found.number);
    struct emitter e = {&rule, code, 0};
    emit_command(&e, rule.rows - 1, pool);
    put(&e, HALT, 0, 0, 0);
    return say(answer, (uint32_t)e.at, rule.cells, rule.need[rule.rows - 1], 0);
}

/* ---- The machine ---- */

struct machine {
    const int32_t *code;
    uint32_t count;
    int32_t *memory;
    size_t cells;
    int32_t *registers;
    uint32_t place;
};

/* What one instruction leads to: 1 to 5 are the faults. */
enum next { GO, PLACE_FAULT, FORM_FAULT, ZERO_FAULT, ADDRESS_FAULT, JUMP_FAULT, STOP };

static inline int is_register(int32_t r)
{
    return 0 <= r && r < 64;
}

static inline int32_t read_register(const struct machine *m, int32_t r)
{
    return r == 0 ? 0 : m->registers[r];
}

static inline enum next write_register(struct machine *m, int32_t r, uint32_t value)
{
    if (r == 0)
        return ZERO_FAULT;
    m->registers[r] = (int32_t)value;
    m->place++;
    return GO;
}

static inline int in_memory(const struct machine *m, int64_t address)
{
    return 0 <= address && (uint64_t)address < m->cells;
}

static inline int64_t address_of(const struct machine *m, int32_t base, int32_t index)
{
    return (int64_t)read_register(m, base) + read_register(m, index);
}

static inline enum next load(struct machine *m, int32_t target, int32_t base, int32_t index)
{
    int64_t address = address_of(m, base, index);
    if (target == 0)
        return ZERO_FAULT;
    if (!in_memory(m, address))
        return ADDRESS_FAULT;
    return write_register(m, target, (uint32_t)m->memory[address]);
}

static inline enum next store(struct machine *m, int32_t base, int32_t index, int32_t source)
{
    int64_t address = address_of(m, base, index);
    if (!in_memory(m, address))
        return ADDRESS_FAULT;
    m->memory[address] = read_register(m, source);
    m->place++;
    return GO;
}

static inline enum next jump(struct machine *m, int32_t label)
{
    if ((uint32_t)label >= m->count)
        return JUMP_FAULT;
    m->place = (uint32_t)label;
    return GO;
}

static inline enum next branch(struct machine *m, int taken, int32_t label)
{
    if (taken)
        return jump(m, label);
    m->place++;
    return GO;
}

static inline enum next go_on(struct machine *m)
{
    m->place++;
    return GO;
}

static inline enum next advance(struct machine *m)
{
    if (m->place >= m->count)
        return PLACE_FAULT;
    const int32_t *words = m->code + 4 * (size_t)m->place;
    int32_t a = words[1], b = words[2], c = words[3];
    int is_three = is_register(a) && is_register(b) && is_register(c);
    switch (words[0]) {
    case HALT: return (a | b | c) == 0 ? STOP : FORM_FAULT;
    case NOP: return (a | b | c) == 0 ? go_on(m) : FORM_FAULT;
    case ADD:
        if (!is_three)
            return FORM_FAULT;
        return write_register(m, a, (uint32_t)read_register(m, b) + (uint32_t)read_register(m, c));
    case ADDI:
        if (!is_register(a) || !is_register(c))
            return FORM_FAULT;
        return write_register(m, a, (uint32_t)b + (uint32_t)read_register(m, c));
    case SUB:
        if (!is_three)
            return FORM_FAULT;
        return write_register(m, a, (uint32_t)read_register(m, b) - (uint32_t)read_register(m, c));
    case MUL:
        if (!is_three)
            return FORM_FAULT;
        return write_register(m, a, (uint32_t)read_register(m, b) * (uint32_t)read_register(m, c));
    case LOAD: return is_three ? load(m, a, b, c) : FORM_FAULT;
    case STORE: return is_three ? store(m, a, b, c) : FORM_FAULT;
    case JMP: return (b | c) == 0 ? jump(m, a) : FORM_FAULT;
    case BNE:
        if (!is_register(a) || !is_register(b))
            return FORM_FAULT;
        return branch(m, read_register(m, a) != read_register(m, b), c);
    case BEQ:
        if (!is_register(a) || !is_register(b))
            return FORM_FAULT;
        return branch(m, read_register(m, a) == read_register(m, b), c);
    case SLT:
        if (!is_three)
            return FORM_FAULT;
        return write_register(m, a, read_register(m, b) < read_register(m, c));
    default: return FORM_FAULT;
    }
}

static uint32_t check_machine(size_t code_words, size_t cells)
{
    if (code_words % 4 != 0 || code_words > MAX_CODE_WORDS)
        return 13;
    return cells > MAX_CELLS ? 14 : 0;
}

uint32_t plain_run(const int32_t *code, size_t code_words,
                   int32_t *memory, size_t cells, uint32_t *place,
                   int32_t registers[64], uint32_t budget, uint32_t answer[3])
{
    uint32_t number = check_machine(code_words, cells);
    if (number != 0)
        return say(answer, 0, 0, 0, number);
    struct machine m = {code, (uint32_t)(code_words / 4), memory, cells, registers, *place};
    uint32_t left = budget;
    enum next next = GO;
    while (left > 0 && (next = advance(&m)) == GO)
        left--;
    *place = m.place;
    if (next == STOP)
        return say(answer, HALTED, 0, budget - left + 1, 0);
    if (next != GO)
        return say(answer, FAULTED, next, budget - left, 0);
    return say(answer, UNFINISHED, 0, budget, 0);
}

uint32_t plain_step(const int32_t *code, size_t code_words,
                    int32_t *memory, size_t cells, uint32_t *place,
                    int32_t registers[64], uint32_t answer[3])
{
    uint32_t number = plain_run(code, code_words, memory, cells, place, registers, 1, answer);
    if (answer[0] == UNFINISHED)
        answer[0] = WENT_ON;
    return number;
}
