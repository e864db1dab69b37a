/* Sample records for the comparison and the benchmark: sound ones, in document 01's places, and its country lists. */
#ifndef SAMPLE_H
#define SAMPLE_H

#include <stddef.h>
#include <stdint.h>

/* Annex II of source document 000: 156 countries for transfers. Annex I: 22 countries for cheques. */
enum { ANNEX_II_BYTES = 2 * 156, ANNEX_I_BYTES = 2 * 22 };
extern const char annex_ii[ANNEX_II_BYTES + 1], annex_i[ANNEX_I_BYTES + 1];

enum { MOST_PAYMENTS = 9999, MOST_FILE = 256 + MOST_PAYMENTS * 768 + 256 };
size_t file_bytes(size_t payments);

/* The next number of a random sequence (splitmix64). */
uint64_t next_random(uint64_t *state);

void put(uint8_t *at, const char *text);
void put_number(uint8_t *at, int width, uint64_t number);

void sample_q(uint8_t *q);

/* What fills the places beside a bank code, and what a cheque leaves out. */
typedef enum { BIC_ALONE, BIC_AND_COUNTRY, CODE_AND_BANK, CHEQUE } payment_kind;
void sample_t(uint8_t *t, payment_kind kind, const char *country, uint64_t euros, unsigned cents);

/* The sum of T14a over the given payments. */
uint64_t euros_of(const uint8_t *file, size_t payments);

/* Z after the given payments, with their count and that sum. */
void sample_z(uint8_t *file, size_t payments);

#endif
