/* Wrong amounts: "Rule 33 points to T14a when T14a has a non-digit, or when T14a and T14b are all digits and the amount is
   zero; else to T14b." Each part of that sentence, from both sides. */
#include "drafts.h"
#include "suites.h"

enum { SOUND = 0, T14A = 458, T14B = 472 };

/* A T14b, and where rule 33 points to behind a T14a of zeros and behind one of other digits. Behind a T14a with a
   non-digit it is T14a itself. */
typedef struct { const char *t14b; int behind_zeros, behind_digits; } cents;

static const cents all_cents[] = {
    {"000", T14A, SOUND}, {"001", T14A, T14B}, {"005", T14A, T14B}, {"009", T14A, T14B},
    {"010", SOUND, SOUND}, {"100", SOUND, SOUND}, {"990", SOUND, SOUND},
    {"015", T14B, T14B}, {"105", T14B, T14B}, {"505", T14B, T14B}, {"999", T14B, T14B},
    {"00X", T14B, T14B}, {"0X0", T14B, T14B}, {"X00", T14B, T14B}, {"01X", T14B, T14B}, {"0X5", T14B, T14B},
    {"50 ", T14B, T14B}, {",50", T14B, T14B}, {"   ", T14B, T14B},
};
enum { CENTS = sizeof all_cents / sizeof all_cents[0] };

static bool is_digit(uint8_t b) { return b >= '0' && b <= '9'; }

/* The draft, with an amount in that payment of which this is due. Z is made to fit. */
static void judge_amount(size_t record, int at)
{
    sample_z(draft, payments);
    lend_draft();
    judge_each_way(broken_at(at == SOUND ? 0 : 33, record, at));
}

/* One other byte at each place of T14a, with each T14b behind it. */
static void each_place_of_t14a(size_t record, uint64_t euros)
{
    static const uint8_t bytes[] = {'0', '1', '9', '/', ':', ' ', ',', 'O', 0x00, 0xB0};
    uint8_t *t = record_of(record);
    for (const cents *c = all_cents; c < all_cents + CENTS; c++)
        for (int at = T14A; at < T14B; at++)
            for (size_t k = 0; k < sizeof bytes; k++) {
                bool all_zeros = euros == 0 && bytes[k] == '0';
                put_number(t + T14A, 14, euros);
                put(t + T14B, c->t14b);
                t[at] = bytes[k];
                judge_amount(record, !is_digit(bytes[k]) ? T14A : all_zeros ? c->behind_zeros : c->behind_digits);
            }
}

/* Every three digits behind the euros. */
static void each_number_in_t14b(size_t record, uint64_t euros)
{
    uint8_t *t = record_of(record);
    put_number(t + T14A, 14, euros);
    for (unsigned n = 0; n < 1000; n++) {
        put_number(t + T14B, 3, n);
        judge_amount(record, euros == 0 && n < 10 ? T14A : n % 10 ? T14B : SOUND);
    }
}

/* Every byte that is no digit, at each place behind the euros. */
static void each_non_digit_in_t14b(size_t record, uint64_t euros)
{
    uint8_t *t = record_of(record);
    put_number(t + T14A, 14, euros);
    for (int at = T14B; at < T14B + 3; at++)
        for (unsigned byte = 0; byte < 256; byte++)
            if (!is_digit((uint8_t)byte)) {
                put(t + T14B, byte % 2 ? "000" : "500");
                t[at] = (uint8_t)byte;
                judge_amount(record, T14B);
            }
}

/* 120 with any one byte made 0 is still not zero. */
void each_amount(void)
{
    for (payment_kind kind = BIC_ALONE; kind <= CHEQUE; kind++)
        for (uint64_t euros = 0; euros <= 120; euros += 120) {
            const payment_kind kinds[3] = {CHEQUE, kind, CODE_AND_BANK};
            random_file(3, kinds, 0);
            each_place_of_t14a(2, euros);
            each_number_in_t14b(2, euros);
            each_non_digit_in_t14b(2, euros);
        }
}
