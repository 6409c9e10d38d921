/* printing.h: code in the notation of its published lines, printed by the test itself. */
#ifndef PRINTING_H
#define PRINTING_H

#include <stddef.h>
#include <stdint.h>

#include "machines.h"
#include "paper.h"

/* What the three words of each operation are: r register, n number, l label, - unused. */
extern const char *const operands[OPERATIONS];

/* What has to come of a code's listing: the number of its refusal, with the value, or 0 and the text. */
struct printed {
    uint32_t number;
    uint32_t value;
    char *text;
    size_t bytes;
};

/* It is to be ended. */
struct printed print_code(struct code code);
void end_printed(struct printed *p);

#endif
