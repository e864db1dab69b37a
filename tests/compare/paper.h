/* What the tests themselves take from document 01 and from requests A1 to A3, A5 and A6 of document 02: where text stands,
   what the table makes of it, dates, lists, where a broken rule points to, what goes on where payments are returned, what is
   filed of those. Both sides of the comparison are held to what follows. */
#ifndef PAPER_H
#define PAPER_H

#include <stdbool.h>
#include <stddef.h>
#include <stdint.h>

#include "../sample.h"

/* Text fields as numbered for display: 1 stands in Q, 2 to 9 in T. First and last offset in the record. */
typedef struct { int first, last; } place;
extern const place text_field[10];

enum { MOST_NOTES = 140 + 9999 * 553 };             /* every character of every text field */

/* Code pages: 0 is DIN 66003, 1 is ISO 8859-1, and any other is 7. The codes of the four German characters on each. */
enum { PAGES = 2 };
extern const char german[PAGES][5];

/* What stands in the forwarded file for a byte of a text field. */
uint8_t becomes(uint32_t page, uint8_t b);

/* Whether a place of a sound file of n bytes lies in a text field. */
bool in_text(size_t at, size_t n);

/* The forwarded file of a sound file, and its notes; answers how many there are. */
size_t forwarded_of(uint32_t page, const uint8_t *file, size_t n, uint8_t *forwarded, uint32_t *notes);

/* How many characters of a sound file the table changes. */
size_t changes_of(uint32_t page, const uint8_t *file, size_t n);

/* Whether a year 2000 to 2099 has this day. */
bool has_day(unsigned year, unsigned month, unsigned day);

bool is_listed(const uint8_t *list, size_t n, const uint8_t country[2]);

/* The judge's first three numbers: the first broken rule, its record, and where in the record the lowest-placed field
   begins that breaks the rule. All are 0 for a sound file. */
typedef struct { uint64_t rule, record, at; } verdict;

/* The verdict where a rule is broken by what stands at this place of the record. If the rule has several fields, the one
   with the place in it is told. Rule 0: sound, whatever the record and the place. */
verdict broken_at(uint64_t rule, uint64_t record, int place);

/* Whether a rule can be told with this place: a field of the rule begins there, or it has none and the place is 0. */
bool may_point_to(uint64_t rule, uint64_t at);

/* What is told where both hold of a file: the first by record, then by rule, then by place. */
verdict first_of(verdict one, verdict other);

/* ---- Request A5 ---------------------------------------------------------------------------- */

/* What the default way of prepare owes of a file whose figures are right, in rooms that are large enough, where it returns
   these payments, each named as record * 100 + rule: its answer, the kept file, and what that one is forwarded as. */
typedef struct {
    uint64_t answer[7];                             /* number, record, notes, kept, returned, euros kept, euros returned */
    size_t n;                                       /* bytes of the kept file */
    uint8_t kept[MOST_FILE], forwarded[MOST_FILE];
    uint32_t notes[MOST_NOTES];
} sent;
void send_all_but(uint32_t page, const uint8_t *file, size_t n, const uint32_t *returned, size_t returned_n, sent *s);

/* How many payments a file of whole records has. */
size_t payments_of(size_t n);

/* Whether T14a or T14b of a payment has a non-digit. */
bool non_digit_in_t14(const uint8_t *t);

/* Whether the default way of prepare may tell this number and this record of the file: what the order of its refusals says,
   which rules its payments break being left aside. */
bool may_tell_sorted(const uint8_t *file, size_t n, uint64_t number, uint64_t record);

/* ---- Request A6 ---------------------------------------------------------------------------- */

/* An M8 record: first and last offset of DM8-1 to DM8-11, table 15 of source document 000. A code for each rule of 20 to
   35. */
enum { M8_BYTES = 124, M8_FIELDS = 11, CODE_BYTES = 6, TABLE_BYTES = 96 };
extern const place m8_field[M8_FIELDS + 1];

/* The record that is due for a returned payment, which is named as record * 100 + rule. */
void m8_of(uint32_t page, const uint8_t *file, uint32_t returned, const uint8_t *codes, uint8_t record[M8_BYTES]);

/* Whether a record may be that of some payment of the file behind the given one, by whichever rule; the payment's number, or
   0. */
size_t m8_behind(uint32_t page, const uint8_t *file, size_t n, size_t behind, const uint8_t *codes, const uint8_t *record);

/* Amounts, added up: whole euros, and cents, which are not carried into them. */
typedef struct { uint64_t euros, cents; } amount;
amount amount_of_payments(const uint8_t *file, const uint32_t *returned, size_t n);
amount amount_of_records(const uint8_t *records, size_t n);

/* Whether this number and this record may be told where M8 records are asked for with a table of codes and a room of so
   many bytes: what the order of the refusals says, which rules the payments break being left aside. */
bool may_tell_filed(const uint8_t *file, size_t n, size_t codes_n, size_t room, uint64_t number, uint64_t record);

#endif
