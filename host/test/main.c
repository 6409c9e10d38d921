/* main.c: holds the library to the build scope, subject by subject. Usage: test [--first] [SUBJECT..] */
#include <stdio.h>
#include <stdlib.h>
#include <string.h>

#include "checks.h"
#include "subjects.h"

static const struct subject {
    const char *name;
    void (*test)(void);
} subjects[] = {
    {"constants", test_constants}, /* the header's constants beside the scope's numbers */
    {"names", test_names},         /* what the header's names do in rules and code */
    {"examples", test_examples},   /* the settled examples */
    {"sizes", test_sizes},         /* refusals 1 to 5, 11 and 12 */
    {"rows", test_rows},           /* refusals 6 to 10 */
    {"order", test_order},         /* which of several refusals is given */
    {"machine", test_machine},     /* single steps and faults */
    {"lengths", test_lengths},     /* refusals 13 and 14 */
    {"far", test_far},             /* the last names, cells, places and labels */
    {"rules", test_rules},         /* generated rules */
    {"tables", test_tables},       /* generated tables that are mostly no rules */
    {"codes", test_codes},         /* generated code */
    {"listing", test_listing},     /* the lines of a listing, and refusal 22 */
    {"unlisted", test_unlisted},   /* refusals 13 and 21 of a listing */
    {"listings", test_listings},   /* listings of generated code */
    {"stack", test_stack},         /* the bytes of stack that a call takes */
};

enum { SUBJECTS = sizeof subjects / sizeof subjects[0] };

static const struct subject *subject_of(const char *name)
{
    for (int i = 0; i < SUBJECTS; i++)
        if (strcmp(subjects[i].name, name) == 0)
            return &subjects[i];
    printf("no subject '%s'\n", name);
    exit(2);
}

int main(int argc, char **argv)
{
    setvbuf(stdout, NULL, _IOLBF, BUFSIZ);
    int first = 1;
    if (first < argc && strcmp(argv[first], "--first") == 0) {
        stops_at_first = 1;
        first++;
    }
    for (int i = first; i < argc; i++)
        subject_of(argv[i])->test();
    for (int i = 0; first == argc && i < SUBJECTS; i++)
        subjects[i].test();
    printf("%lu passed, %lu failed\n", passed, failed);
    return failed == 0 ? EXIT_SUCCESS : EXIT_FAILURE;
}
