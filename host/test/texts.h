/* texts.h: calls of listing, in which only what may change has changed. */
#ifndef TEXTS_H
#define TEXTS_H

#include <stddef.h>
#include <stdint.h>

#include "checks.h"
#include "machines.h"

/* The code is listed as this text, in exactly so many bytes and in more. */
void lists_at(struct code code, const char *text, struct where where);

/* The listing is refused with this number and value, in a text of so many bytes. */
void lists_not_at(struct code code, size_t text_bytes, uint32_t number, uint32_t value, struct where where);

/* In a text of so many bytes, the code is listed or refused as the test's own printing of it says. */
void as_printed_at(struct code code, size_t text_bytes, struct where where);

/* So in a text that has room for any listing of the code; gives the bytes of the listing, or 0. */
size_t all_as_printed_at(struct code code, struct where where);

#define LISTS(code, text) lists_at((code), (text), HERE)
#define LISTS_NOT(code, text_bytes, number, value) lists_not_at((code), (text_bytes), (number), (value), HERE)
#define AS_PRINTED(code, text_bytes) as_printed_at((code), (text_bytes), HERE)
#define ALL_AS_PRINTED(code) all_as_printed_at((code), HERE)

#endif
