/* sides.h: what is compared and measured: the library, and the anchors that it is held against. */
#ifndef SIDES_H
#define SIDES_H

#include <stddef.h>
#include <stdint.h>

typedef uint32_t compile_function(const int32_t *, size_t, const int32_t *, size_t, uint64_t, int32_t *, size_t, uint32_t[3]);
typedef uint32_t run_function(const int32_t *, size_t, int32_t *, size_t, uint32_t *, int32_t[64], uint32_t, uint32_t[3]);
typedef uint32_t step_function(const int32_t *, size_t, int32_t *, size_t, uint32_t *, int32_t[64], uint32_t[3]);
typedef uint32_t listing_function(const int32_t *, size_t, uint8_t *, size_t, uint32_t[3]);

/* A function is NULL where a side has none. */
struct side {
    const char *name;
    compile_function *compile;
    run_function *run;
    step_function *step;
    listing_function *listing;
};

enum {
    LIBRARY,
    PLAIN_C,
    C_SWITCH,
    C_GOTO,
    C_THREADED,
    C_SNPRINTF,
#ifdef WITH_RUST
    PLAIN_RUST,
#endif
    SIDES
};

extern const struct side sides[SIDES];

/* Says that a side and the library differ, or the library and what is expected of it. */
void differs(const struct side *side, const char *what);

/* Has every side run and step codes of one or two instructions. */
void try_codes(void);

/* Has every side list codes. */
void try_listings(void);

#endif
