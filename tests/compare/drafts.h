/* Drafts of files: country lists, odd characters, and random sound files that use both. */
#ifndef DRAFTS_H
#define DRAFTS_H

#include <stdbool.h>
#include <stddef.h>
#include <stdint.h>

#include "../sample.h"
#include "chance.h"
#include "lent.h"
#include "paper.h"

/* ---- Lists, which are lent to the following calls ------------------------------------------ */

void use_lists(const void *transfer, size_t nt, const void *cheque, size_t nc);
void use_annexes(void);
void use_random_lists(void);
void lend_taken(const uint64_t *numbers, size_t n);

/* Where wrong ones are wanted, a draft has now and then a country that is not listed. */
void want_wrong_countries(bool wanted);

/* ---- Characters, on the page in use -------------------------------------------------------- */

/* The tables of the tests are written for page 0. On page 1 the codes of the two pages change places; all else stays. */
uint8_t on_page(uint8_t b);
void put_on_page(uint8_t *at, const char *text, size_t n);

enum { NOT_BLANK = 74 };                            /* the characters that do not become spaces, from 0 on */
uint8_t not_blank(size_t i);
uint8_t filled_byte(void);
uint8_t blank_byte(void);                           /* becomes a space */
uint8_t changed_into(uint8_t r);                    /* a byte that becomes this one; itself if there is none */

/* ---- The draft ----------------------------------------------------------------------------- */

extern uint8_t draft[MOST_FED];
extern size_t draft_n, payments;

uint8_t *record_of(size_t r);
void lend_draft(void);
uint64_t file_number(void);
void spoil_any_byte(void);

/* A draft of the given payments; kinds may be left to chance. mode: 0 plain capitals, 1 mixed, 2 all bytes, 3 only bytes
   that become spaces. Answers whether it is sound: it is not where no country is listed, or wrong ones are wanted. */
bool random_file(size_t count, const payment_kind *kinds, int mode);

/* Three payments of 120,50, 79,75 and 1000,00, the last one a cheque. */
void three_samples(void);

/* Other bytes in a record of the draft; and some of them, up to one that has none. */
typedef struct { size_t record; int at; const char *bytes; } new_bytes;
void put_new_bytes(const new_bytes *each, size_t most);

/* Cheques whose T14a sum up to 999,999,999,999,999, or to so many more, which Z3 cannot hold. There are eleven; the last is
   of 9 euros, and those more. */
void draft_of_the_largest_sum(unsigned more);

/* A sound draft by the annexes of any length: payments of all kinds by turns, the n-th of n euros, with a few changed
   characters in the first and the last. */
void long_draft(size_t count);
payment_kind kind_in_long_draft(size_t record);

#endif
