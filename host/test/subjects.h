/* subjects.h: what is tested, a function a subject. */
#ifndef SUBJECTS_H
#define SUBJECTS_H

void test_constants(void);
void test_names(void);
void test_examples(void);
void test_sizes(void);
void test_rows(void);
void test_order(void);
void test_machine(void);
void test_lengths(void);
void test_far(void);
void test_rules(void);
void test_tables(void);
void test_codes(void);
void test_listing(void);
void test_unlisted(void);
void test_listings(void);
void test_stack(void);

#endif
