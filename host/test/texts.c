/* texts.c: lists code into a text between guards, and looks at every byte that was lent. */
#include "texts.h"

#include <stdlib.h>
#include <string.h>

#include "lent.h"
#include "printing.h"
#include "sauskinna.h"

/* Bytes before and after a text, which so begins at an odd address, and what they and the text hold: a byte that no listing has. */
enum { AROUND = 4097, UNTOUCHED = 0xa5 };

/* What is expected of a call. */
struct expected {
    uint32_t number;
    uint32_t value; /* the bytes written, or the refusal's */
    const char *text;
    size_t bytes;
};

static uint8_t *untouched(size_t size)
{
    uint8_t *all = malloc(size);
    if (all == NULL)
        give_up("no memory");
    memset(all, UNTOUCHED, size);
    return all;
}

/* Whether of a text and what is around it the listing's bytes have changed, and no others. */
static int holds(const uint8_t *all, size_t text_bytes, const struct expected *e)
{
    size_t size = AROUND + text_bytes + AROUND;
    uint8_t *due = untouched(size);
    memcpy(due + AROUND, e->text, e->bytes);
    int same = memcmp(all, due, size) == 0;
    free(due);
    return same;
}

static void call_at(struct code code, size_t text_bytes, const struct expected *e, struct where where)
{
    struct lent words = lend(code.words, code.count), answer = lend(NULL, ANSWER);
    uint8_t *all = untouched(AROUND + text_bytes + AROUND);
    uint32_t number = sauskinna_listing(words.words, words.count, all + AROUND, text_bytes, (uint32_t *)answer.words);
    same_at(number, e->number, "what is returned", where);
    same_at(answer.words[number == SAUSKINNA_ACCEPTED ? SAUSKINNA_ANSWER_BYTES : SAUSKINNA_ANSWER_VALUE], e->value,
            "the bytes written, or the refusal's value", where);
    check_at(answer.words[1] == 0 && answer.words[2] == 0, "two words of 0", where);
    check_at(kept_beyond(&answer, ANSWER), "nothing beyond the answer changes", where);
    check_at(kept(&words), "the code is kept", where);
    check_at(holds(all, text_bytes, e), "the text is the listing, and all else stays", where);
    give_back(&words);
    give_back(&answer);
    free(all);
}

void lists_at(struct code code, const char *text, struct where where)
{
    struct expected e = {SAUSKINNA_ACCEPTED, (uint32_t)strlen(text), text, strlen(text)};
    call_at(code, e.bytes, &e, where);
    call_at(code, e.bytes + SAUSKINNA_LINE, &e, where);
}

void lists_not_at(struct code code, size_t text_bytes, uint32_t number, uint32_t value, struct where where)
{
    struct expected e = {number, value, "", 0};
    call_at(code, text_bytes, &e, where);
}

static void printed_at(struct code code, const struct printed *p, size_t text_bytes, struct where where)
{
    struct expected listed = {SAUSKINNA_ACCEPTED, (uint32_t)p->bytes, p->text, p->bytes};
    if (p->number != 0)
        lists_not_at(code, text_bytes, p->number, p->value, where);
    else if (text_bytes < p->bytes)
        lists_not_at(code, text_bytes, SAUSKINNA_REFUSED_TEXT_ROOM, (uint32_t)p->bytes, where);
    else
        call_at(code, text_bytes, &listed, where);
}

void as_printed_at(struct code code, size_t text_bytes, struct where where)
{
    struct printed p = print_code(code);
    printed_at(code, &p, text_bytes, where);
    end_printed(&p);
}

size_t all_as_printed_at(struct code code, struct where where)
{
    struct printed p = print_code(code);
    printed_at(code, &p, SAUSKINNA_LINE * (code.count / INSTRUCTION), where);
    end_printed(&p);
    return p.bytes;
}
