/* lent.c: buffers with guards before and after them. */
#include "lent.h"

#include <stdlib.h>
#include <string.h>

#include "checks.h"

size_t bytes(size_t words)
{
    return words * sizeof(int32_t);
}

int32_t *guarded(size_t words)
{
    int32_t *all = malloc(bytes(words));
    if (all == NULL)
        give_up("no memory");
    for (size_t i = 0; i < words; i++)
        all[i] = GUARD_WORD;
    return all;
}

struct lent lend(const int32_t *words, size_t count)
{
    size_t whole = count + 2 * GUARD;
    struct lent l = {guarded(whole), NULL, guarded(whole), count};
    l.words = l.all + GUARD;
    if (words != NULL)
        memcpy(l.words, words, bytes(count));
    memcpy(l.before, l.all, bytes(whole));
    return l;
}

int kept(const struct lent *l)
{
    return memcmp(l->all, l->before, bytes(l->count + 2 * GUARD)) == 0;
}

int kept_beyond(const struct lent *l, size_t words)
{
    size_t from = GUARD + words;
    return memcmp(l->all, l->before, bytes(GUARD)) == 0 &&
           memcmp(l->all + from, l->before + from, bytes(l->count + GUARD - words)) == 0;
}

void give_back(struct lent *l)
{
    free(l->all);
    free(l->before);
}
