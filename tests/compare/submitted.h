/* A draft that is submitted, what is broken in it, and what is due of it by the default way of prepare, request A5 of document
   02, and of its M8 records, request A6. Which rules are broken is known, for they are broken here, one by one. */
#ifndef SUBMITTED_H
#define SUBMITTED_H

#include "drafts.h"

/* ---- The draft and its faults --------------------------------------------------------------- */

extern payment_kind kinds[MOST_PAYMENTS + 1];       /* by record */
extern unsigned lowest[MOST_PAYMENTS + 1];          /* the lowest rule that was broken in each payment but 21; 0 for none */
extern verdict before, behind;                      /* a broken rule of structure or Q; and one of Z */

/* The draft as it is has none. */
void begin_faults(void);

/* A sound draft by the annexes: of the kinds above, or of any. */
void submit_kinds(size_t count);
void submit(size_t count);

/* Breaks a rule of 20 to 35 in that payment, if its kind can; of several, the highest first, so that what breaks the lowest
   stays. Z is made to fit. */
void break_payment(size_t record, unsigned rule);

void put_non_digit(size_t record, int at);          /* in T14 */

/* The first rule that a payment breaks; 0 for none. */
unsigned first_rule(size_t record);

/* ---- What is due of it ---------------------------------------------------------------------- */

void lend_submitted(void);

/* What is lent, in one of these ways: of output, note places and list each as much as is needed, one less, none, or more.
   Way 0 is just enough of all; then 1 is a list, 4 are note places and 16 is an output that is one short. Its M8 records too,
   in the way of filed.h with that number. */
enum { ROOMS = 64 };
void in_room(size_t way);

/* The kept file and the forwarded one are sound. By itself the kept file is forwarded as it was here, in both ways, and the
   pair gives it back. Only where nothing refuses what is lent. */
void follow_what_goes_on(void);

/* Lends the draft to all calls that have to do with it: in just enough room, in two others, to the judge and the strict way;
   and follows what goes on. */
void sort_submitted(void);

#endif
