/* order.c: which of several refusals is given. */
#include "compiling.h"
#include "subjects.h"

/* A kind and a value that no declaration has, and a kind that no node has. */
enum { NO_DECLARATION = 9, NO_NODE = 99 };

static void of_sizes(void)
{
    struct rule r = names_rule(SAUSKINNA_DECLARATIONS + 1);
    declare(&r, NO_DECLARATION, 0);
    r.node_words = NODE - 1;
    REFUSE(r, 1, SAUSKINNA_REFUSED_NODE_WORDS, 0);
    r.node_words = 2 * NODE;
    REFUSE(r, 1, SAUSKINNA_REFUSED_DECLARATION_WORDS, 0);
    r = names_rule(1);
    declare(&r, NO_DECLARATION, 0);
    REFUSE(r, 1, SAUSKINNA_REFUSED_POOL, 0);
    REFUSE(r, 0, SAUSKINNA_REFUSED_DECLARATION, 1);
}

static void of_declarations(void)
{
    struct rule r = names_rule(1);
    declare(&r, SAUSKINNA_ARRAY, SAUSKINNA_CELLS + 1);
    REFUSE(r, 0, SAUSKINNA_REFUSED_DECLARATION, 1);
    r = names_rule(1);
    declare(&r, SAUSKINNA_ARRAY, SAUSKINNA_CELLS);
    declare(&r, NO_DECLARATION, 0);
    set_word(&r, 0, 0, NO_NODE);
    REFUSE(r, 0, SAUSKINNA_REFUSED_CELLS, 1);
    r = names_rule(1);
    declare(&r, NO_DECLARATION, 0);
    declare(&r, SAUSKINNA_ARRAY, SAUSKINNA_CELLS);
    set_word(&r, 0, 0, NO_NODE);
    REFUSE(r, 0, SAUSKINNA_REFUSED_DECLARATION, 1);
    r = names_rule(1);
    set_word(&r, 0, 0, NO_NODE);
    REFUSE(r, 0, SAUSKINNA_REFUSED_NODE, 0);
}

static void in_a_row(void)
{
    struct rule r = every_kind();
    set_word(&r, 18, 1, 3); /* no name, and a child that is a command */
    set_word(&r, 18, 2, 1);
    REFUSE(r, 0, SAUSKINNA_REFUSED_SORT, 18);
    set_word(&r, 18, 1, 0); /* a name of the wrong kind */
    REFUSE(r, 0, SAUSKINNA_REFUSED_SORT, 18);
    set_word(&r, 18, 3, 1); /* an unused word */
    REFUSE(r, 0, SAUSKINNA_REFUSED_NODE, 18);
    r = every_kind();
    set_word(&r, 24, 1, 1); /* the first child of the wrong sort, the last no lower row */
    set_word(&r, 24, 3, 24);
    REFUSE(r, 0, SAUSKINNA_REFUSED_NODE, 24);
    r = every_kind();
    r.node_words = NODE * 3; /* the last row is an expression */
    set_word(&r, 2, 1, 3);   /* no name */
    REFUSE(r, 0, SAUSKINNA_REFUSED_SORT, 2);
    set_word(&r, 2, 1, 2); /* a name of the wrong kind */
    REFUSE(r, 0, SAUSKINNA_REFUSED_SORT, 2);
    set_word(&r, 2, 2, 1); /* an unused word */
    REFUSE(r, 0, SAUSKINNA_REFUSED_NODE, 2);
}

static void of_rows(void)
{
    struct rule r = every_kind();
    set_word(&r, 2, 1, 2); /* a name of the wrong kind */
    set_word(&r, 3, 1, 3); /* no name */
    set_word(&r, 4, 1, 1); /* a child of the wrong sort */
    set_word(&r, 5, 0, 0); /* no kind */
    REFUSE(r, 0, SAUSKINNA_REFUSED_NAME_KIND, 2);
    set_word(&r, 2, 1, 0);
    REFUSE(r, 0, SAUSKINNA_REFUSED_NAME, 3);
    set_word(&r, 3, 1, 1);
    REFUSE(r, 0, SAUSKINNA_REFUSED_SORT, 4);
    set_word(&r, 4, 1, 2);
    REFUSE(r, 0, SAUSKINNA_REFUSED_NODE, 5);
    set_word(&r, 5, 0, SAUSKINNA_ELEMENT);
    set_word(&r, 27, 2, 1); /* row 1 is used twice, row 26 never */
    set_word(&r, 28, 2, 3); /* a child of the wrong sort */
    REFUSE(r, 0, SAUSKINNA_REFUSED_SORT, 28);
    set_word(&r, 28, 2, 27);
    REFUSE_IN(r, 0, 0, SAUSKINNA_REFUSED_USES, 1);
    set_word(&r, 27, 2, 26);
    ACCEPT(r, ALL_BUT_ZERO);
}

static void of_registers_and_room(void)
{
    struct rule r = assign_rule(2);
    REFUSE_IN(r, pool_of(1, 1), 0, SAUSKINNA_REFUSED_REGISTERS, 2);
    REFUSE_IN(r, pool_of(1, 2), 0, SAUSKINNA_REFUSED_ROOM, 4);
    r = rows_rule(SAUSKINNA_ROWS);
    REFUSE_IN(r, pool_of(1, 1), 0, SAUSKINNA_REFUSED_REGISTERS, 2);
}

void test_order(void)
{
    of_sizes();
    of_declarations();
    in_a_row();
    of_rows();
    of_registers_and_room();
}
