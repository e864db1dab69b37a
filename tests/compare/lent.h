/* Lent memory, one request to both sides, what counts as a difference, and kept cases.

   Every lent stretch ends at a page that cannot be touched; what is lent for reading stands in pages that cannot be
   written. What is due of a call by the papers is held to both sides; then the sides are held to one another. */
#ifndef LENT_H
#define LENT_H

#include <stdbool.h>
#include <stddef.h>
#include <stdint.h>

#include "../sample.h"

enum { JUDGE, JUDGE_FULL, PREPARE, PREPARE_STRICT, RESTORE, SHOW, READ, M8, CALLS };
enum { FILE_IN, TRANSFER, CHEQUE_LIST, TAKEN, NOTES_IN, OTHER_TRANSFER, OTHER_CHEQUE_LIST, OTHER_TAKEN, STEPS, CODES, LENT };

enum { SPARE = 1 << 18 };                           /* the longest list, in bytes */
enum { MOST_FED = 3 * MOST_FILE };                  /* the longest file */

/* A step of a reading: a cut, which is the next bytes of the lent file, or the end. Those of its lists that are so named
   are the other ones that are lent: of a cut the two country lists, of an end the taken numbers. */
typedef struct { uint32_t length; uint8_t is_end, other_transfer, other_cheque, other_taken; } step;
enum { MOST_STEPS = SPARE / sizeof(step) };

/* Makes the memory. Cases that differ are kept under this name, with the call's number and .txt behind it. */
void open_areas(const char *cases);

/* Lends bytes for reading, to this and the following calls. */
void lend(int which, const void *bytes, size_t n);

/* A place in the lent file, for changing it there; and its length. */
uint8_t *lent_file(size_t at);
size_t lent_file_n(void);
size_t lent_codes_n(void);

/* As many bytes then stand between the lent file and the closed page; before the file is lent. */
void shift_file(size_t bytes);

/* The code page that this and the following calls name; judge and show name none. */
void use_page(uint32_t page);
uint32_t code_page(void);

/* What the paper asks of the next call, and of that one alone: the answer's first numbers, the bytes that the output
   begins with, the notes that the note places begin with, and the returned payments that the list begins with; of M8
   records, the payments that they are of. */
void due_numbers(const uint64_t *numbers, size_t n);
#define due(...) due_numbers((const uint64_t[]){__VA_ARGS__}, sizeof(const uint64_t[]){__VA_ARGS__} / 8)
void due_output(const uint8_t *bytes, size_t n);
void due_notes(const uint32_t *notes, size_t n);
void due_returned(const uint32_t *payments, size_t n);

/* The calls. Each answers the numbers that both sides gave, seven at most, the others 0. Reading answers what the end
   answers that is asked for last: the last step is an end. The cuts have no more bytes together than the lent file. To what
   M8 answers, two numbers are added here: the euros and the cents of its records. */
const uint64_t *judge(void);
const uint64_t *judge_full(void);
const uint64_t *prepare(size_t room, size_t places, size_t list);   /* the default way, with so many places for payments */
const uint64_t *prepare_strict(size_t room, size_t places);         /* as in document 01 */
const uint64_t *restore(size_t room);
const uint64_t *show(uint64_t record, uint64_t field);
const uint64_t *read_in_steps(const step *steps, size_t n);
const uint64_t *m8(size_t room);                                    /* with the codes that are lent */

/* Lends a cut to the desk's reader, until the next one is lent. */
const uint8_t *lent_cut(const uint8_t *bytes, size_t n);

/* What the last call left, a prepare of either way: the output, the note places, and of the default way the list. */
const uint8_t *output_left(void);
const uint32_t *notes_left(void);
const uint32_t *list_left(void);

uint64_t calls_made(void);
void name_suite(const char *name);                  /* told with a difference; null for none */

/* Runs a kept case again, and checks again what was due of it; the status to end with. */
int replay(const char *name);

#endif
