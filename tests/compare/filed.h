/* The M8 records of what is lent, request A6 of document 02: tables of codes and rooms, and what is then due. */
#ifndef FILED_H
#define FILED_H

#include "drafts.h"

/* Tables of codes, of any length: NAMED has the rule's number in each code, ODD has all kinds of bytes. In both no code
   stands twice. */
enum { NAMED, ODD };
void lend_codes(int table, size_t n);

/* What is answered of so many records with the codes that are lent: what refuses the file, then 62, then 60. */
uint64_t filed_number(uint64_t refused, size_t room, size_t records);

/* Asks for the records with the codes that are lent. told is what refuses the file before codes and room are looked at, by
   A5's numbers up to 43; else its rule is 0, and it is these payments that come back. */
void file_in(size_t room, verdict told, const uint32_t *returned, size_t n);

/* In one of these ways: a room that is just large enough, a byte short, a record short, none, or more than enough; tables of
   the right length and of others. Way 0 is the right table and just enough room, 1 to 3 are the same table and less room. */
enum { FILINGS = 65 };
void file_returned(size_t way, verdict told, const uint32_t *returned, size_t n);

/* In one of them by turns, after the default way of prepare has told this of the lent file, in the last call; whether a rule
   of 20 to 35 is broken. */
void file_after_prepare(const uint64_t *sorted, bool t_rule);

#endif
