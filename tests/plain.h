/* The second opinion of the comparison: the calls of document 01 and of requests A3, A5, A6, A7 and A8 of document 02 in
   plain C, written from document 01, requests A1, A2, A3, A5, A6, A7 and A8 and, for A6, table 15 of source document 000
   alone, for plainness and not for speed.

   In every call a file, a list or a table of codes is lent as a pointer and its length; with length 0 the pointer is not
   followed. transfer and cheque are the country lists, two bytes a country, a lone last byte ignored. Memory lent for
   writing (out, notes, returned) must not overlap anything else that is lent. A refused call writes nothing to it.
   Prepare, restore and the book work in memory of their own that they hold once: not for two threads at a time.

   page is the code page: 0 for DIN 66003, 1 for ISO 8859-1. Any other is 7, before every other number; all other
   numbers of the answer are then 0. */
#ifndef PLAIN_H
#define PLAIN_H

#include <stdbool.h>
#include <stddef.h>
#include <stdint.h>

typedef struct { uint64_t number, record, at, payments, euros, cents; } plain_judgement;
typedef struct { uint64_t number, record, at, payments, euros, cents, changes; } plain_answer;
typedef struct { uint64_t number, record, notes; } plain_strict;
typedef struct { uint64_t number, record, notes, kept, returned, kept_euros, returned_euros; } plain_prepared;
typedef struct { uint64_t number, record; } plain_restored;
typedef struct { uint64_t number, record, count; } plain_returns;
typedef struct { uint64_t start, length; } plain_part;   /* length 0: no such field; then start is 0 too */

/* Judge, as called without taken numbers, on page 0: record * 100 + number. */
uint64_t plain_judge(const uint8_t *file, size_t n,
                    const uint8_t *transfer, size_t nt, const uint8_t *cheque, size_t nc);

/* Judge: number, record, and at, the offset in the record of the lowest-placed field that breaks the rule; payments,
   euros and cents are 0 if refused. For 50 the record is 0. at is 0 for rules 1 to 5, 7, 50 and a sound file. */
plain_judgement plain_judge_full(uint32_t page, const uint8_t *file, size_t n,
                               const uint8_t *transfer, size_t nt, const uint8_t *cheque, size_t nc,
                               const uint64_t *taken, size_t taken_n);

/* What is done with a reader: the next bytes are handed in with the country lists, or the end is asked for with the
   taken numbers. A cut may be empty. */
typedef struct {
    bool is_end;
    size_t length;                              /* of a cut; 0 for an end */
    const uint8_t *transfer, *cheque;           /* of a cut */
    size_t nt, nc;
    const uint64_t *taken;                      /* of an end */
    size_t taken_n;
} plain_step;

/* Read a file as it arrives: what the end answers that is asked for last; there has to be one. bytes are those of all
   cuts, joined, also of those that are handed in after an end. The answer is the judge's over the bytes of the cuts
   before the first end, with the number of characters that prepare would change, 0 if refused; each payment is judged
   by the country lists of the cut that completes it. */
plain_answer plain_read_in_steps(uint32_t page, const uint8_t *bytes, const plain_step *steps, size_t steps_n);

/* Prepare as in document 01: 7, then soundness, then 60, then 61. An unsound file tells its record; 60, 61 and success
   have record 0. If 0, out begins with the forwarded file and notes begins with the notes; the rest of both is left as
   it was. The answer's notes is their number, 0 when refused. */
plain_strict plain_prepare_strict(uint32_t page, const uint8_t *file, size_t n,
                                  const uint8_t *transfer, size_t nt, const uint8_t *cheque, size_t nc,
                                  uint8_t *out, size_t out_n, uint32_t *notes, size_t notes_n);

/* Prepare, the default way: payments that break a rule of 20 to 35 are returned, the rest goes on as the kept file, with
   Z3 and Z4 of its own; out and notes are those of the strict way for it. returned begins with record * 100 + first
   broken rule of each returned payment, rising; the rest is left as it was. 7, then structure, the Q rules, 33 for a
   non-digit in T14a or T14b by rising record, 40 to 42 of the submitted file; then 43 where none is kept, 60 and 61 of
   the kept file, and 63 where returned has too few places, these four at record 0. Refused: notes, counts and euros are
   0. */
plain_prepared plain_prepare(uint32_t page, const uint8_t *file, size_t n,
                             const uint8_t *transfer, size_t nt, const uint8_t *cheque, size_t nc,
                             uint8_t *out, size_t out_n, uint32_t *notes, size_t notes_n,
                             uint32_t *returned, size_t returned_n);

/* M8 records for the payments that the default way of prepare returns, 124 bytes each, in order, by table 15 of source
   document 000. codes has six bytes for each rule from 20 to 35, in order. The numbers of the default way up to 43 first,
   7 before all of them; then 62 where codes is not 96 bytes, also where nothing is returned, and 60 where out is too
   short, both at record 0. If 0, out begins with the records and the rest is left as it was. The answer's count is their
   number, 0 when refused. */
plain_returns plain_m8(uint32_t page, const uint8_t *file, size_t n,
                       const uint8_t *transfer, size_t nt, const uint8_t *cheque, size_t nc,
                       const uint8_t *codes, size_t codes_n, uint8_t *out, size_t out_n);

/* Restore, which stays strict: 7, then 60, then 70; the record is always 0. If 0, out begins with the original, of the
   default way the kept file; the rest is left as it was. All lent notes count. */
plain_restored plain_restore(uint32_t page, const uint8_t *forwarded, size_t n, const uint32_t *notes, size_t notes_n,
                           const uint8_t *transfer, size_t nt, const uint8_t *cheque, size_t nc,
                           uint8_t *out, size_t out_n);

/* Show a field: where its part of the file begins and how long it is. The part is empty exactly when the walk refuses,
   the record doesn't exist, or that record has no such field. */
plain_part plain_show(const uint8_t *file, size_t n, uint64_t record, uint64_t field);

/* The book of taken files as it stands: its day, how many files are held, the payments and the whole euros of all of them
   together, and 200 places, of which the first so many hold the files, in the order in which they were taken: the number,
   the day on which it was taken, the file's payments and its whole euros. Taking one answers 0 or its refusal, 53, 52, 50
   or 51, and the book as it then stands. */
enum { PLAIN_PLACES = 200, PLAIN_TAKES = 10000 };
typedef struct { uint64_t number; uint32_t day; uint64_t payments, euros; } plain_entry;
typedef struct { uint32_t day; uint64_t held, payments, euros; plain_entry places[PLAIN_PLACES]; } plain_book;
typedef struct { plain_book book; uint64_t number; } plain_taken;
typedef struct { uint64_t files, payments, euros; } plain_totals;

/* Opens a new book, which is the answer, or any book; takes a file in the one that was opened last, at most PLAIN_TAKES
   times. What is done with a book that no take leaves is what hosts/c/desk.h says. Where held is more than 200, all places
   count. Each place counts by itself, also where a number stands in two. A number with a later day than that of the take is
   held. No take reads the totals of a book that is opened: after one that is not refused they are the sums over the
   places that are then held, modulo 2^64, and there are zeros behind the held files. */
plain_book plain_open_new_book(void);
void plain_open_book(plain_book book);
plain_taken plain_take(uint64_t number, uint32_t day, uint64_t payments, uint64_t euros);

/* The totals as they are stored in the book that was opened last, and how many files it says that it holds. */
plain_totals plain_kept_totals(void);

#endif
