/* lent.h: words lent to the library between guards, and what they held when they were lent. */
#ifndef LENT_H
#define LENT_H

#include <stddef.h>
#include <stdint.h>

enum { GUARD = 8, GUARD_WORD = 0x5a5a5a5a };

struct lent {
    int32_t *all;
    int32_t *words;
    int32_t *before;
    size_t count;
};

size_t bytes(size_t words);

/* Memory for so many words, each of them GUARD_WORD. */
int32_t *guarded(size_t words);

/* Lends these words; where they are NULL, words that hold GUARD_WORD. */
struct lent lend(const int32_t *words, size_t count);

/* Whether everything is kept; everything but the first words. */
int kept(const struct lent *l);
int kept_beyond(const struct lent *l, size_t words);

void give_back(struct lent *l);

#endif
