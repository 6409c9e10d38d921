/* rows.c: refusals 6 to 10, in every word of every kind of row. */
#include "compiling.h"
#include "reading.h"
#include "subjects.h"

/* Rows and names of `every_kind`. */
enum { AN_EXPRESSION = 0, A_COMMAND = 1, THE_CONSTANT = 0, THE_VARIABLE = 1, THE_ARRAY = 2, NO_NAME = 3 };

/* With one word changed, a row gives this refusal. */
static void changed(int32_t row, int word, int32_t value, uint32_t number)
{
    struct rule r = every_kind();
    set_word(&r, row, word, value);
    REFUSE(r, ALL_BUT_ZERO, number, (uint32_t)row);
}

static void changed_child(int32_t row, int word, int32_t of_other_sort)
{
    changed(row, word, row, SAUSKINNA_REFUSED_NODE);
    changed(row, word, row + 1, SAUSKINNA_REFUSED_NODE);
    changed(row, word, -1, SAUSKINNA_REFUSED_NODE);
    changed(row, word, INT32_MIN, SAUSKINNA_REFUSED_NODE);
    changed(row, word, INT32_MAX, SAUSKINNA_REFUSED_NODE);
    changed(row, word, of_other_sort, SAUSKINNA_REFUSED_SORT);
}

static void changed_name(int32_t row, int word, char shape)
{
    changed(row, word, NO_NAME, SAUSKINNA_REFUSED_NAME);
    changed(row, word, -1, SAUSKINNA_REFUSED_NAME);
    changed(row, word, INT32_MIN, SAUSKINNA_REFUSED_NAME);
    changed(row, word, INT32_MAX, SAUSKINNA_REFUSED_NAME);
    if (shape != 's')
        changed(row, word, THE_CONSTANT, SAUSKINNA_REFUSED_NAME_KIND);
    changed(row, word, shape == 'a' ? THE_VARIABLE : THE_ARRAY, SAUSKINNA_REFUSED_NAME_KIND);
}

static void changed_word(int32_t row, int word, char shape)
{
    switch (shape) {
    case '-':
        changed(row, word, 1, SAUSKINNA_REFUSED_NODE);
        changed(row, word, INT32_MIN, SAUSKINNA_REFUSED_NODE);
        break;
    case 'e': changed_child(row, word, A_COMMAND); break;
    case 'c': changed_child(row, word, AN_EXPRESSION); break;
    case 's':
    case 'x':
    case 'a': changed_name(row, word, shape); break;
    default: break;
    }
}

static void every_word(void)
{
    static const int32_t unknown[] = {0, 12, 13, 14, 15, 22, 23, 32, -1, INT32_MIN, INT32_MAX};
    struct rule r = every_kind();
    ACCEPT(r, ALL_BUT_ZERO);
    for (int32_t row = A_COMMAND + 1; row < (int32_t)rows_of(&r); row++) {
        for (int word = 1; word < NODE; word++)
            changed_word(row, word, shapes[r.nodes[NODE * row]][word - 1]);
        for (size_t i = 0; i < sizeof unknown / sizeof unknown[0]; i++)
            changed(row, 0, unknown[i], SAUSKINNA_REFUSED_NODE);
    }
}

/* The table ends with its first row of the kind, an expression. */
static void ends_with(int32_t kind)
{
    struct rule r = every_kind();
    int32_t row = 0;
    while (r.nodes[NODE * row] != kind)
        row++;
    r.node_words = NODE * ((size_t)row + 1);
    REFUSE(r, ALL_BUT_ZERO, SAUSKINNA_REFUSED_SORT, (uint32_t)row);
}

static void uses(void)
{
    struct rule r = skip_rule();
    add(&r, SAUSKINNA_SKIP, 0, 0, 0);
    REFUSE(r, 0, SAUSKINNA_REFUSED_USES, 0);
    add(&r, SAUSKINNA_SEQUENCE, 0, 0, 0);
    REFUSE(r, 0, SAUSKINNA_REFUSED_USES, 0);
    set_word(&r, 2, 1, 1);
    ACCEPT(r, 0);
    set_word(&r, 2, 2, 1);
    REFUSE(r, 0, SAUSKINNA_REFUSED_USES, 0);
    set_word(&r, 2, 1, 0);
    ACCEPT(r, 0);
    add(&r, SAUSKINNA_SEQUENCE, 1, 2, 0);
    REFUSE(r, 0, SAUSKINNA_REFUSED_USES, 1);
}

/* In the longest table: a row far down that is used twice, and one that is not used. */
static void far_uses(void)
{
    struct rule r = rows_rule(SAUSKINNA_ROWS);
    int32_t last = ROW_LIMIT - 1;
    set_word(&r, last, 2, last - 3);
    REFUSE(r, ALL_BUT_ZERO, SAUSKINNA_REFUSED_USES, (uint32_t)last - 3);
    set_word(&r, last, 2, last - 1);
    ACCEPT(r, ALL_BUT_ZERO);
    set_word(&r, last, 0, SAUSKINNA_SKIP);
    REFUSE(r, ALL_BUT_ZERO, SAUSKINNA_REFUSED_NODE, (uint32_t)last);
    set_word(&r, last, 1, 0);
    set_word(&r, last, 2, 0);
    REFUSE(r, ALL_BUT_ZERO, SAUSKINNA_REFUSED_USES, (uint32_t)last - 2);
}

void test_rows(void)
{
    every_word();
    for (int32_t kind = VALUE; kind <= NOT; kind++)
        ends_with(kind);
    uses();
    far_uses();
}
