/* The desk's library for hosts written in C, and for whatever can call C. It comes as libdesk.a and as libdesk.so, for x86-64:
   `bash hosts/library` writes both to target/library; a release has them in lib, and the papers that are named here in
   share/doc/kaaravizhe. This header is all of it. Behind the version and the sizes it has two parts: first the calls, which
   are proved to meet the definitions that state the rules of docs/RULES.md; then tables and texts, which are tested and not
   proved.

   Lent memory passes as a pointer and a count of elements. Where the count is 0 the pointer may be null: nothing is read or
   written through it. What is lent for writing (out, notes, returned) overlaps nothing else that is lent. Any bytes, any
   country lists, any room and any page number may be handed in: every call ends with an answer or a numbered refusal, and a
   refused call changes no byte that it was lent.

   Threads: no function here keeps anything or has a state of its own, so any number of threads may call any of them at the
   same time. While a call runs, nobody else writes to what it was lent, and what it was lent for writing nobody else reads
   either.

   The page says at which codes the office writes the four German characters. Restore needs the page and the country lists
   that prepare had; with others it may refuse the pair. So store the page with the forwarded file and its notes. */
#ifndef DESK_H
#define DESK_H

#include <stdbool.h>
#include <stddef.h>
#include <stdint.h>

#ifdef __cplusplus
extern "C" {
#endif

/* The version that this header is of. CHANGELOG.md tells what each has changed: where the second number is another one, a host
   is compiled anew. */
#define DESK_VERSION "4.9.1"

/* The version that the library is of; it lives as long as the program. A host that loads libdesk.so may compare the two. */
const char *desk_version(void);

/* The largest file that rule 1 lets pass, in bytes, and its payments. */
#define DESK_MOST_BYTES 7679744
#define DESK_MOST_PAYMENTS 9999

/* Rooms that are always sufficient, for a file of n bytes: with these no call answers 60, 61 or 63. A file that goes on has
   256 bytes for Q, 768 for each payment and 256 for Z, so n / 768 are its payments; and of a file that does not, nothing is
   written.
   - output bytes of desk_prepare and desk_prepare_strict: what goes on is the file, or shorter by what comes back;
   - note places: only text changes, of which Q has 140 bytes (Q5) and a payment 553 (T8, T9b, T10b, T12, T15, T20, T23, T24).
     A file of cheques may have as many changes; a transfer has one fewer, for the / before its account stays;
   - places of the returned list, and the bytes of desk_m8's records: for each payment. One has to go on, so one place, or 124
     bytes, are left;
   - output bytes of desk_restore, where n is the length of the forwarded file: what is restored is as long. */
#define DESK_OUTPUT_BYTES(n) (n)
#define DESK_NOTE_PLACES(n) (140 + (n) / 768 * 553)
#define DESK_RETURNED_PLACES(n) ((n) / 768)
#define DESK_M8_BYTES(n) ((n) / 768 * DESK_M8_RECORD)
#define DESK_RESTORED_BYTES(n) (n)

/* ---- The calls: proved --------------------------------------------------------------------------- */

/* Code pages (docs/RULES.md, 3.1): where the umlauts of A, O and U and the sharp s stand, which become A, O, U and S. Any
   other number is refused with 7. */
enum desk_page {
    DESK_DIN_66003 = 0,            /* hex 5B, 5C, 5D and 7E */
    DESK_ISO_8859_1 = 1            /* hex C4, D6, DC and DF */
};

/* Refusal numbers. */
enum desk_number {
    DESK_SOUND = 0,                /* of desk_prepare: what is kept goes on; of desk_m8: the records are written */
    DESK_TOO_LONG = 1,             /* file longer than 7,679,744 bytes */
    DESK_CUT = 2,                  /* file ends inside a record, or where one is due */
    DESK_LENGTH_DIGITS = 3,        /* length digits wrong for the letter */
    DESK_LETTER = 4,               /* letter not allowed here */
    DESK_AFTER_Z = 5,              /* bytes after Z */
    DESK_NO_SUCH_PAGE = 7,         /* code page neither 0 nor 1 */
    DESK_Q3 = 10,                  /* Q3 is not 50400042 */
    DESK_Q4 = 11,                  /* Q4 is not eight zeros and two digits */
    DESK_Q5 = 12,                  /* first line of Q5 blank */
    DESK_Q6 = 13,                  /* Q6 is no date YYMMDD */
    DESK_Q_DIGITS = 14,            /* a non-digit in Q7, Q8, Q10 or Q11 */
    DESK_Q9 = 15,                  /* Q9 is not N */
    DESK_Q12 = 16,                 /* Q12 not all spaces */
    DESK_ACCOUNT = 20,             /* a non-digit in T3 or T4b, or T4a not EUR */
    DESK_OTHER_ACCOUNT = 21,       /* T3 or T4b differs from record 1 */
    DESK_T5_T7 = 22,               /* T5, T6 or T7b not all zeros, or T7a not spaces */
    DESK_T22 = 23,                 /* T22 is not 00, 20 or 22 */
    DESK_T21 = 24,                 /* T21 not 00, 01 or 02; for a cheque, not 00 */
    DESK_CHEQUE_BANK = 25,         /* cheque: T8 or T9b not blank, or T9a not spaces */
    DESK_T9A = 26,                 /* transfer: T9a wrong */
    DESK_NO_BANK = 27,             /* transfer: T8 has no BIC shape and T9b is blank */
    DESK_T10A = 28,                /* T10a not a listed country and a space */
    DESK_T10B = 29,                /* first line of T10b blank; for a cheque, also line 3 or 4 */
    DESK_T11 = 30,                 /* T11 not all spaces */
    DESK_T12 = 31,                 /* transfer: no / and a non-space; cheque: T12 not blank */
    DESK_T13 = 32,                 /* T13 not EUR */
    DESK_AMOUNT = 33,              /* a non-digit in T14, last digit not 0, or amount zero */
    DESK_T16_T27 = 34,             /* a non-digit in T16 to T19 or T25, or T27 not 00 */
    DESK_T26 = 35,                 /* T26 not all spaces */
    DESK_Z_FORM = 40,              /* a non-digit in Z3 or Z4, or Z5 not all spaces */
    DESK_Z4 = 41,                  /* Z4 is not the number of T records */
    DESK_Z3 = 42,                  /* Z3 is not the sum of all T14a */
    DESK_ALL_RETURNED = 43,        /* every payment would be returned */
    DESK_TAKEN = 50,               /* the file number is a taken one */
    DESK_BOOK_FULL = 51,           /* book: 200 numbers are held */
    DESK_EARLIER_DAY = 52,         /* book: the day is earlier than the book's */
    DESK_LARGE_FIGURES = 53,       /* book: more than 9,999 payments, or more than 999,999,999,999,999 euros */
    DESK_OUTPUT_ROOM = 60,         /* output room shorter than the file that goes on or is restored, or than the M8 records */
    DESK_NOTE_ROOM = 61,           /* more changes in the file that goes on than note places */
    DESK_CODE_TABLE = 62,          /* the table of M8 codes is not 96 bytes */
    DESK_RETURN_ROOM = 63,         /* returned list has fewer places than returned payments */
    DESK_NO_SUCH_PAIR = 70         /* restore: no sound file yields this pair */
};

/* A host that was built with an older header is to be compiled anew: answers have grown, so that one would be written
   beyond its room, and calls have got more arguments. What desk_prepare was before, desk_prepare_strict is now: a host whose
   files go on as a whole or not at all asks for it by that name. */
typedef struct { uint64_t number, record, at, payments, euros, cents; } desk_judgement;
typedef struct { uint64_t number, record, at, payments, euros, cents, changes; } desk_answer;
typedef struct { uint64_t number, record, notes, kept, returned, kept_euros, returned_euros; } desk_prepared;
typedef struct { uint64_t number, record, notes; } desk_strict;
typedef struct { uint64_t number, record; } desk_restored;
typedef struct { uint64_t number, record, count; } desk_returns;
typedef struct { uint64_t start, length; } desk_part;

/* A reader is a value, which may be copied and kept. What is in it is the desk's own, and a newer desk may have another. */
typedef struct { uint64_t own[118]; } desk_reader;
typedef struct { desk_reader reader; desk_answer answer; } desk_read;

/* A file number in a book, the business day on which it was taken, and how many payments and whole euros the file has. */
typedef struct { uint64_t number; uint32_t day; uint64_t payments, euros; } desk_entry;

/* A book of taken file numbers is a value, which may be copied and kept: the day of the last take that was not refused, how
   many file numbers are held, the payments and the whole euros of all held files together, and the places. The first so many
   hold the files, in the order in which they were taken. */
enum { DESK_BOOK_PLACES = 200 };
typedef struct { uint32_t day; uint64_t held, payments, euros; desk_entry places[DESK_BOOK_PLACES]; } desk_book;
typedef struct { desk_book book; uint64_t number; } desk_taken; /* number: 0, or why the take is refused */
typedef struct { uint64_t files, payments, euros; } desk_totals;

/* Judges a file on page 0 (DIN 66003) without taken numbers: record * 100 + number; 0 for a sound file. For a file in ISO
   8859-1 there is desk_judge_full with page 1; here its umlauts would be read as spaces.
   transfer and cheque are country lists, two bytes a country; a lone last byte is ignored. */
uint64_t desk_judge(const uint8_t *file, size_t n,
                    const uint8_t *transfer, size_t nt, const uint8_t *cheque, size_t nc);

/* Judges a file, also by the taken file numbers; a file's number is its Q4, Q6 and Q7 as one number (docs/RULES.md, 5.6).
   Number 0: record and at 0, with the number of payments, the sum of their whole euros and the sum of their cents, which
   are not carried. Refused: the first broken rule, its record, at, and three zeros. at is the offset, in that record, of
   the lowest-placed field that breaks the rule (desk_columns_at has its name and columns); it is 0 for rules 1 to 5. For 7,
   which comes before every other number, and for 50, which comes after, record and at are 0. */
desk_judgement desk_judge_full(uint32_t page, const uint8_t *file, size_t n,
                               const uint8_t *transfer, size_t nt, const uint8_t *cheque, size_t nc,
                               const uint64_t *taken, size_t taken_n);

/* Judges a file as it arrives, in cuts of any size, empty ones too. Nobody has to hold the file: the reader keeps one
   unfinished record. It takes a new reader, each cut in turn, and then the end:
       desk_reader reader = desk_reader_new(DESK_ISO_8859_1);
       while ((n = fread(cut, 1, sizeof cut, input)) > 0)
           reader = desk_reader_feed(reader, cut, n, transfer, nt, cheque, nc);
       if (ferror(input)) ..;       a read that failed is not the end of the file
       desk_answer answer = desk_reader_end(reader, taken, taken_n).answer;
   A call changes no reader in place: it gives back the changed one, with which the host goes on.
   The page is named at the start, the country lists are lent with each cut, and the taken numbers at the end. A payment is
   judged by the lists of the cut that holds its last byte. Where all cuts came with the same lists, the answer is that of
   desk_judge_full over all the bytes; changes is how many characters prepare would change, and 0 where the file is
   refused. So without a byte it is 2 at record 0. Before the end there is no answer, for a later byte may change it.
   The first end decides. The reader that it gave back answers the same when it is asked again, whatever numbers are lent,
   and cuts that are handed to it change nothing. A reader of zeros is a new one of page 0. One of
   chance bytes does no harm, but its answer says nothing of any file. Readers are not to be compared byte by byte. */
desk_reader desk_reader_new(uint32_t page);
desk_reader desk_reader_feed(desk_reader reader, const uint8_t *cut, size_t n,
                             const uint8_t *transfer, size_t nt, const uint8_t *cheque, size_t nc);
desk_read desk_reader_end(desk_reader reader, const uint64_t *taken, size_t taken_n);

/* Prepares the good payments of a file for forwarding, and names the others. Where a file breaks rules of 20 to 35 alone,
   the payments that break one are returned and the rest goes on, as the kept file: Q, the kept T records in their order,
   and Z with fresh Z3 and Z4. It is sound and has 512 + 768 * kept bytes. Where nothing is returned it is the very file.
   Number 0: out begins with the forwarded kept file, and notes with a note for each changed character, by rising place:
   place in the kept file * 256 + original byte. returned begins with a number for each returned payment, rising: its
   record in the submitted file * 100 + the first rule that it breaks. The rest of all three keeps its values. The answer
   tells how many notes there are, and how many payments and whole euros are kept and returned: they add up to the
   submitted Z4 and Z3.
   Refused: the number, its record, and five zeros. In this order: 7; structure; the rules of Q; 33 for the first payment
   with a non-digit in T14a or T14b, whatever else is broken there or before; 40 to 42, of the submitted file; 43; 60 and
   61, measured on the kept file; 63. The record is 0 for 7 and from 43 on. So it may tell another rule than the judge does.
   What to know:
   - Rule 21 compares with record 1, also where that one is returned. Where record 1 alone has a mistyped account, all in
     digits, every other payment is returned, and record 1 is kept unless it breaks another rule.
   - The kept file has the submitted file's number (Q4, Q6, Q7): returned payments, once corrected, need another one.
   - In which field a returned payment breaks its rule is told by desk_judge_full, on the same page and with the same lists,
     of a small file: the first 1,024 bytes of out, which are a sound Q and T, then that payment, then the submitted Z.
     There it is record 2. */
desk_prepared desk_prepare(uint32_t page, const uint8_t *file, size_t n,
                           const uint8_t *transfer, size_t nt, const uint8_t *cheque, size_t nc,
                           uint8_t *out, size_t out_n, uint32_t *notes, size_t notes_n,
                           uint32_t *returned, size_t returned_n);

/* Prepares a sound file as a whole: one broken rule, and nothing goes on. 7 first, then soundness, 60 and 61. Number 0: out
   begins with the forwarded file and notes with its notes, as above; the rest of both keeps its values. Refused: the
   number, and notes 0. The record is that of an unsound file's first broken rule, else 0. */
desk_strict desk_prepare_strict(uint32_t page, const uint8_t *file, size_t n,
                                const uint8_t *transfer, size_t nt, const uint8_t *cheque, size_t nc,
                                uint8_t *out, size_t out_n, uint32_t *notes, size_t notes_n);

/* The bytes of an M8 record, and of a table of codes for desk_m8. */
enum { DESK_M8_RECORD = 124, DESK_M8_CODES = 96 };

/* Writes an M8 record of 124 bytes for each payment that desk_prepare returns, on the same page and with the same lists: the
   i-th record is that of the i-th number in its list. codes has six bytes for each rule from 20 to 35, in that order: 96
   bytes. desk_m8_codes is such a table: codes of the receiver's list, by the desk's reading of it.
   Number 0: out begins with the records, and the rest keeps its bytes; count tells how many, which may be 0. 124 bytes for
   each payment that desk_prepare returns are room enough, and so are 1,239,752 bytes always: one payment has to go on, so at
   most 9,998 come back.
   Refused: the number, its record, and count 0. In this order: 7; the numbers that desk_prepare answers up to 43, with their
   record; 62 where codes is not 96 bytes, also where nothing is returned; 60 where out is shorter than 124 bytes for each
   record. The record of 62 and 60 is 0. 50, 61 and 63 do not occur.
   A record, with columns from 1: 1 to 3 DM8; 4 to 9 the file's Q6; 10 to 14 three zeros and Q7; 15 to 21 zeros; 22 to 38
   spaces; 39 to 56 two zeros, T14a and the first two digits of T14b, so the amount in cents; 57 to 62 the code of the first
   rule that the payment breaks; 63 to 97 the first line of T15, its first 35 bytes, with its characters replaced; 98 to 124
   spaces. */
desk_returns desk_m8(uint32_t page, const uint8_t *file, size_t n,
                     const uint8_t *transfer, size_t nt, const uint8_t *cheque, size_t nc,
                     const uint8_t *codes, size_t codes_n, uint8_t *out, size_t out_n);

/* Restores the file that went on, from the forwarded file and all of its notes. After desk_prepare that is the kept file:
   returned payments are in the submitted file alone, so keep it. 7 first, then 60, then 70. Number 0: out begins with the
   original, and the rest keeps its bytes. The record is always 0. */
desk_restored desk_restore(uint32_t page, const uint8_t *forwarded, size_t n, const uint32_t *notes, size_t notes_n,
                           const uint8_t *transfer, size_t nt, const uint8_t *cheque, size_t nc,
                           uint8_t *out, size_t out_n);

/* Where a text field stands in a file: 1 Q5 of record 0; 2 T8, 3 T9b, 4 T10b, 5 T12, 6 T15, 7 T20, 8 T23, 9 T24 of a T
   record. Length 0 (and start 0): the structure is broken, the record doesn't exist, or it has no such field. */
desk_part desk_show(const uint8_t *file, size_t n, uint64_t record, uint64_t field);

/* The book of taken file numbers. A file's number is its Q4, Q6 and Q7 as one number (docs/RULES.md, 5.6), but any number of
   64 bits may be taken; a day is a business day, which the host counts, from 0 up to 4,294,967,295. A file number that was
   taken on a day is forgotten once the day is five or more later: one that was taken on day 7 is held on days 7 to 11, and may
   be taken again on day 12. There are 200 places, and those of forgotten numbers are used again. With its number a file's
   payments are taken, up to 9,999, and its whole euros, up to 999,999,999,999,999; of each the book has the total over what is
   held on the book's day. A new book is on day 0 and holds nothing; both totals and all its places are zeros.
       desk_book book = desk_book_new();
       desk_taken taken = desk_book_take(book, file_number, day, payments, euros);
       book = taken.book;
       if (taken.number != 0) ..;   refused, and the book is the very one that was handed in
   The answer is 0 where the take is accepted: the number is held, the book is on that day, what is forgotten by then is gone
   from it and from both totals, and behind the held ones are zeros. Else it is the first of these: 53, payments or euros are
   larger; 52, the day is earlier than the book's; 50, the file number is held on that day; 51, all 200 places hold one on that
   day. A refused take forgets nothing and leaves the day and the totals, so the next one may be on any day from the book's on.
   A call changes no book in place. What is taken on one of the last five days is never forgotten: there is no day five later.
   Any book may be handed in, also one that no takes from a new book leave; it is read as it stands. Where held is more than
   200, all places count. Each place counts by itself, also where a number stands in two. A number whose day is later than
   that of the take is held. A take does not read the totals that are handed in: after one that is accepted they are the sums
   over the places that are held then, modulo 2^64, which matters only where places have figures that no take passes. Books
   have padding, so compare them by their fields. */
desk_book desk_book_new(void);
desk_taken desk_book_take(desk_book book, uint64_t file_number, uint32_t day, uint64_t payments, uint64_t euros);

/* A book's totals as they are stored in it, in held, payments and euros; nothing is added up. They are those of the book's
   day: files that are forgotten by today count until the next take that is accepted. */
desk_totals desk_book_totals(desk_book book);

/* ---- Tables and texts: tested, not proved -------------------------------------------------------- */

/* The receiver's Annex II, the countries of transfers, and Annex I, those of cheques, as the calls take them: 156 and 22, two
   bytes each, in the order of docs/DIFFERENCES.md. A host may lend other lists. DESK_ANNEXES stands for four arguments:
       desk_judge_full(DESK_ISO_8859_1, file, n, DESK_ANNEXES, NULL, 0) */
enum { DESK_TRANSFER_BYTES = 312, DESK_CHEQUE_BYTES = 44 };
extern const uint8_t desk_transfer_countries[DESK_TRANSFER_BYTES];
extern const uint8_t desk_cheque_countries[DESK_CHEQUE_BYTES];
#define DESK_ANNEXES desk_transfer_countries, DESK_TRANSFER_BYTES, desk_cheque_countries, DESK_CHEQUE_BYTES

/* A table of codes to lend to desk_m8: six bytes for each rule from 20 to 35, in that order. The receiver's specification
   lists the codes and nowhere says which belongs to which rule: the desk's reading of it stands in docs/M8-CODES.md, with the
   reasons. A host may lend a table of its own. */
extern const uint8_t desk_m8_codes[DESK_M8_CODES];

/* What a code means in the receiver's list, in English; code has six bytes. Null for those of recalls, which begin with RR,
   and for one that is not in the list. */
const char *desk_m8_meaning(const uint8_t *code);

/* When a rule is broken, or why else a call is refused. Of any other number, 0 among them, "no rule of the desk". */
const char *desk_words(uint64_t number);

/* The kind of record that breaks a rule: 'Q' for 10 to 16, 'T' for 20 to 35, 'Z' for 40 to 42; 0 for any other number. */
char desk_kind(uint64_t number);

/* A field's name, and its columns as a clerk counts them: from 1, and the last is included. */
typedef struct { const char *field; uint64_t first, last; } desk_columns;

/* The fields of a record of kind 'Q', 'T' or 'Z', in their order: index counts from 0. Null behind the last one. */
const desk_columns *desk_field(char kind, size_t index);

/* The field of such a record in which an offset lies. Null where it lies in none: in the length digits, in the letter, or
   beyond the record. */
const desk_columns *desk_columns_at(char kind, uint64_t offset);

/* A refusal in one line, without a line end: "rule 15 at record 0, Q9, column 178: Q9 is not N". A number that is no rule
   of a file (7, and 43 to 70) has no record there. Only desk_judge_full and desk_reader_end tell at; with 0 in its place no
   field is told. */
enum { DESK_LINE = 256 };
void desk_refusal_line(char line[DESK_LINE], uint64_t number, uint64_t record, uint64_t at);

/* The book of taken file numbers as text, to be kept in a file: docs/BOOK-FILE.md has the layout. How a book file is changed
   so that no number gets lost, the example host hosts/c/book.c shows. These are the bytes of the longest text of a book, with
   all places held; and of a message, with its end. */
enum { DESK_BOOK_BYTES = 55 + 53 * DESK_BOOK_PLACES, DESK_BOOK_MESSAGE = 192 };

/* Writes a book as text, in version 2 of the layout, and answers its bytes: 55, and 53 for each held number. The totals are
   not in it, for they follow from what is held. What was written has been read back by desk_book_read, which left the same
   totals. Of a book that no takes leave nothing is written, and the answer is 0; what stands in the places behind the held
   ones is not looked at. */
size_t desk_book_write(const desk_book *book, uint8_t text[DESK_BOOK_BYTES]);

/* Reads the book of which this is the text, in version 2 or 1 of the layout. Everything that desk_book_write never gives, nor
   gave in version 1, is refused: then the answer is false, the book keeps its value, and message says in which line it shows
   and what is wrong there, without a line end: "line 3: the book is cut short here". A file is read up to
   DESK_BOOK_BYTES + 1 bytes, which is enough to refuse a longer one.
   Where the answer is true, message is the empty text for version 2. Version 1 has no payments and euros: those of its
   files are 0 in the book, so its totals are without them, and message says so. A host has to tell it. */
bool desk_book_read(const uint8_t *text, size_t n, desk_book *book, char message[DESK_BOOK_MESSAGE]);

/* The CRC-32 of zip and gzip: reflected, polynomial 0xEDB88320. */
uint32_t desk_crc_32(const uint8_t *bytes, size_t n);

/* A file's number: its Q4, Q6 and Q7 as one number (docs/RULES.md, 5.6). False, and number keeps its value, where a byte of
   these is no digit, or missing. Whether the file is sound is not asked; of one that desk_judge_full or desk_prepare does not
   refuse there is a number. */
bool desk_file_number(const uint8_t *file, size_t n, uint64_t *number);

#ifdef __cplusplus
}
#endif

#endif
