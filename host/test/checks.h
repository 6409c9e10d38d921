/* checks.h: checks that are counted, each with the place where it stands. */
#ifndef CHECKS_H
#define CHECKS_H

struct where {
    const char *file;
    int line;
};

#define HERE ((struct where){__FILE__, __LINE__})

extern unsigned long passed, failed;

/* Whether the test ends at its first difference. */
extern int stops_at_first;

void check_at(int holds, const char *what, struct where where);
void same_at(long long found, long long expected, const char *what, struct where where);

/* Ends the test, which cannot go on. */
_Noreturn void give_up(const char *why);

/* Does one case many times, until some checks in them have failed. */
void many(void (*one)(void), int cases);

#define CHECK(condition) check_at((condition), #condition, HERE)
#define SAME(found, expected) same_at((long long)(found), (long long)(expected), #found, HERE)

#endif
