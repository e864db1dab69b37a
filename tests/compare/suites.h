/* The suites of the comparison. Each is a file of its own; compare.c runs them in turn, those that read text on each code
   page. */
#ifndef SUITES_H
#define SUITES_H

#include <stdbool.h>
#include <stddef.h>
#include <stdint.h>

#include "paper.h"

/* rules.c: each rule broken alone, each set of a rule's fields, and each pair of rules at once. */
void each_rule_alone(void);
void each_set_of_fields(void);
void each_pair_of_rules(void);
void with_each_rule_broken(void (*then)(verdict told));             /* the draft is not yet lent */
void break_rules_at_random(void);                   /* in the draft; what is then due is not known */
void fit_payment(size_t record, payment_kind kind); /* of the draft, so that the next one breaks one rule and no other */
bool break_rule(unsigned rule, size_t record, payment_kind kind);   /* of 20 to 35, if the kind can; 33 by digits alone */
void random_rule_alone(void);
void random_pair_of_rules(void);

/* pairs.c: prepare and restore. */
void prepare_pair(bool sound);                      /* the draft, which the caller knows to be sound, or does not know */
bool have_pair(void);                               /* whether the last one gave a pair */
void random_rooms(void);
void random_change(void);
void each_room_and_pair(void);
void some_rooms_and_changes(void);                  /* of the last pair, which may be long */

/* amounts.c: rule 33, and which of T14a and T14b it points to. */
void each_amount(void);

/* pages.c: what request A2 names of the code page. It names pages of its own, and leaves page 0 in use. */
void each_code_page(void);
void random_reading(void);
uint32_t no_such_page(void);                        /* a number that no page has */
void random_page_number(void);                      /* such a number, with the draft as it is lent */

/* cuts.c: what request A3 names of files as they arrive, on both pages; it leaves page 0 in use. */
void each_arrival(void);
void long_arrivals(void);
void random_arrival(void);                          /* of the draft, with the lists in use */

/* verdicts.c: what is due of each call, on the draft as it is lent, without taken numbers. The verdict on it is known. */
void judge_lent(verdict told);
void read_lent(verdict told);                       /* by the judge, and in cuts */
void judge_for_payroll_hosts(verdict told);         /* on page 0; on another one there is no such call */
void judge_each_way(verdict told);                  /* in all three ways */
void judge_by_turns(verdict told);                  /* every fourth time in all three, else by the judge alone */
void another_call(size_t turn, verdict told);
void show_part(uint64_t record, uint64_t field, bool walked);       /* walked: no rule of 1 to 5 is broken */

/* The lent file in both ways of prepare, and the M8 records of what comes back. What is due of the strict way is said before;
   its answer. Where that one tells no T rule, the default way leaves the same and returns nothing; else what it returns
   begins with the payment that is told. */
const uint64_t *prepare_both_ways(size_t room, size_t places);

/* cases.c: the cases that document 01 names, lists and numbers, every length, long files. */
void named_cases(void);
void each_length(void);
void long_files(void);
void random_taken_numbers(bool sound);
void random_parts(void);
void spoil_structure(void);                         /* of the draft; what is then due is not known */

/* countries.c: request A4, the search of the country lists. */
void each_country_list(void);
void random_country_list(void);                     /* it leaves the annexes in use */

/* examples.c: request A5, worked out by hand; it leaves the annexes in use. */
void each_sorted_example(void);

/* sorting.c: request A5, the good payments sent on, on both pages; it leaves page 0 in use. */
void each_sorting(void);
void long_sorting(void);
void random_sorting(void);                          /* with the annexes, on the page in use */

/* m8.c: request A6, M8 records for the returned payments, on both pages; it leaves page 0 in use. */
void each_m8(void);

/* book.c: requests A7 and A8, the book of taken files. */
void each_book(void);
void random_book(void);

/* sweep.c: what people send by mistake; every byte at every place; every date, wrong totals; and every pair of
   characters in the short fields, numbers of payments. Of these the first two read text. */
void each_mistake(void);
void each_byte(void);
void near_misses(void);
void sweep(void);
void random_near_miss(void);                        /* with the annexes */

#endif
