/* checks.c: counts what held and what did not, and says where. */
#include "checks.h"

#include <stdio.h>
#include <stdlib.h>

unsigned long passed, failed;
int stops_at_first;

enum { FAILURES_SHOWN = 10 };

void check_at(int holds, const char *what, struct where where)
{
    if (holds) {
        passed++;
        return;
    }
    failed++;
    printf("failed: %s:%d: %s\n", where.file, where.line, what);
    if (stops_at_first)
        exit(EXIT_FAILURE);
}

void same_at(long long found, long long expected, const char *what, struct where where)
{
    if (found != expected)
        printf("found %lld, expected %lld\n", found, expected);
    check_at(found == expected, what, where);
}

void give_up(const char *why)
{
    printf("failed: the test cannot go on: %s\n", why);
    exit(EXIT_FAILURE);
}

void many(void (*one)(void), int cases)
{
    unsigned long before = failed;
    for (int i = 0; i < cases && failed < before + FAILURES_SHOWN; i++)
        one();
}
