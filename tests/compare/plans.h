/* Plans: the steps of a reading, request A3 of document 02. A plan cuts the lent file and asks for ends. */
#ifndef PLANS_H
#define PLANS_H

#include "drafts.h"

/* Which of the lent lists a cut comes with. */
enum { SAME_LISTS = 0, OTHER_TRANSFERS = 1, OTHER_CHEQUES = 2, OTHER_LISTS = 3 };

void begin_plan(void);
void cut_to(size_t place, unsigned lists);          /* the next cut, to that place of the lent file; it may be empty */
void end_with(bool other_taken);                    /* the taken numbers, or the other ones */

/* Cuts up to that place at random; each cut comes with some of the other lists that are allowed. */
void random_cuts_to(size_t place, unsigned allowed);

/* Which lists the cut has that holds this byte of the file. */
unsigned lists_at(size_t byte);

/* Reads by the plan, and asks what is due at each end: the seven numbers, or nothing if null. */
void read_by_plan(const uint64_t *numbers);

/* The judge's answer on what is lent, and the number of changes: what is due of every plan that cuts all of the lent file
   and lends the same lists with each cut. */
const uint64_t *judged_with_changes(void);

/* Judges what is lent, and reads it in some cuts; the judge's answer. */
const uint64_t *judge_and_read(void);

/* Near an edge between records of a file of that many bytes, or at its start or its end. */
enum { NEAR = 6 };                                  /* a record's head has five bytes */
size_t random_place_near_an_edge(size_t n);

#endif
