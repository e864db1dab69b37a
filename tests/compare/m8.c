/* M8 records for the returned payments, request A6 of document 02: examples, worked out by hand; tables of codes and rooms,
   and what refuses the file before them; every rule's code; every character in T15; amounts, days and numbers of files. */
#include <string.h>

#include "filed.h"
#include "suites.h"

/* ---- Examples --------------------------------------------------------------------------------- */

/* A code for each rule from 20 to 35, and two behind them, which are not asked for. */
static const char codes[] =
    "CODE20" "CODE21" "CODE22" "CODE23" "CODE24" "CODE25" "CODE26" "CODE27" "CODE28" "CODE29" "CODE30" "CODE31"
    "CODE32" "CODE33" "CODE34" "CODE35" "CODE36" "CODE37";

/* The fields of table 15 that change; and the first line of T15 in the sample, which has 35 characters. */
#define RECORD(q6, q7, amount, code, reference)                                                         \
    "DM8" q6 "000" q7 "0000000" "                " " " "00" amount code reference "                           "
#define SALARY "SALARY FEBRUARY 2024               "
#define ONE(amount, code) RECORD("240229", "07", amount, code, SALARY)
#define REFERENCE(text) RECORD("240229", "07", "0000000000007975", "CODE32", text)

/* Other bytes in the payments; number, record, count, and euros and cents of the records; the records. */
typedef struct {
    new_bytes other[4];
    uint64_t answer[5];
    const char *records;
} example;

static const example examples[] = {
    {{{0}}, {0, 0, 0, 0, 0}, ""},
    {{{2, 455, "USD"}}, {0, 0, 1, 79, 75},
     "DM8240229000070000000                 000000000000007975CODE32"
     "SALARY FEBRUARY 2024                                          "},
    /* two payments, in their order */
    {{{1, 13, "USD"}, {3, 207, "XX "}}, {0, 0, 2, 1120, 50},
     ONE("0000000000012050", "CODE20") ONE("0000000000100000", "CODE28")},
    {{{2, 350, "X"}, {3, 315, "         "}}, {0, 0, 2, 1079, 75},
     ONE("0000000000007975", "CODE30") ONE("0000000000100000", "CODE29")},
    {{{1, 650, "10"}, {2, 648, "04"}}, {0, 0, 2, 199, 125},
     ONE("0000000000012050", "CODE23") ONE("0000000000007975", "CODE24")},
    /* the first rule that a payment breaks; another account than record 1 */
    {{{2, 715, "X"}, {2, 455, "USD"}, {2, 13, "USD"}}, {0, 0, 1, 79, 75}, ONE("0000000000007975", "CODE20")},
    {{{2, 207, "XX "}, {2, 420, "X"}}, {0, 0, 1, 79, 75}, ONE("0000000000007975", "CODE28")},
    {{{1, 16, "0012345679"}}, {0, 0, 2, 1079, 75},
     ONE("0000000000007975", "CODE21") ONE("0000000000100000", "CODE21")},
    {{{3, 53, "ABCDDEFF"}}, {0, 0, 1, 1000, 0}, ONE("0000000000100000", "CODE25")},
    /* a tenth of a cent, nothing, a cent, and the most; Z3 is the sum of what is submitted */
    {{{2, 474, "9"}}, {0, 0, 1, 79, 75}, ONE("0000000000007975", "CODE33")},
    {{{2, 472, "019"}}, {0, 0, 1, 79, 1}, ONE("0000000000007901", "CODE33")},
    {{{2, 458, "00000000000000000"}, {4, 5, "000000000001120"}}, {0, 0, 1, 0, 0}, ONE("0000000000000000", "CODE33")},
    {{{2, 458, "00000000000000009"}, {4, 5, "000000000001120"}}, {0, 0, 1, 0, 0}, ONE("0000000000000000", "CODE33")},
    {{{2, 458, "00000000000000010"}, {2, 455, "   "}, {4, 5, "000000000001120"}}, {0, 0, 1, 0, 1},
     ONE("0000000000000001", "CODE32")},
    {{{2, 458, "99999999999999999"}, {4, 5, "100000000001119"}}, {0, 0, 1, 99999999999999u, 99},
     ONE("9999999999999999", "CODE33")},
    {{{2, 458, "12345678901234560"}, {2, 455, "   "}, {4, 5, "012345678902354"}}, {0, 0, 1, 12345678901234u, 56},
     ONE("1234567890123456", "CODE32")},
    /* the day and the number of the file */
    {{{0, 163, "99123199"}, {2, 455, "USD"}}, {0, 0, 1, 79, 75},
     RECORD("991231", "99", "0000000000007975", "CODE32", SALARY)},
    {{{0, 163, "00010100"}, {2, 455, "USD"}}, {0, 0, 1, 79, 75},
     RECORD("000101", "00", "0000000000007975", "CODE32", SALARY)},
    {{{0, 163, "12030456789012"}, {0, 21, "34"}, {2, 455, "USD"}}, {0, 0, 1, 79, 75},
     RECORD("120304", "56", "0000000000007975", "CODE32", SALARY)},
    /* 35 characters of T15, replaced; and no others, of T23 neither */
    {{{2, 475, "A23456789B123456789C123456789D12345E23456789"}, {2, 455, "USD"}}, {0, 0, 1, 79, 75},
     REFERENCE("A23456789B123456789C123456789D12345")},
    {{{2, 475, "'23456789B123456789C123456789D123&$&"}, {2, 455, "USD"}}, {0, 0, 1, 79, 75},
     REFERENCE(" 23456789B123456789C123456789D123+S")},
    {{{2, 475, "=================================== SECOND LINE"}, {2, 455, "USD"}}, {0, 0, 1, 79, 75},
     REFERENCE("                                   ")},
    {{{2, 475, "                                   =A"}, {2, 652, "M&M"}, {2, 455, "USD"}}, {0, 0, 1, 79, 75},
     REFERENCE("                                   ")},
    /* what refuses the file: every payment, Z, a non-digit in T14, Q, structure */
    {{{1, 766, "01"}, {2, 766, "01"}, {3, 766, "01"}}, {43, 0, 0, 0, 0}, ""},
    {{{1, 455, "USD"}, {1, 16, "0012345679"}}, {43, 0, 0, 0, 0}, ""},
    {{{2, 13, "USD"}, {4, 5, "000000000001200"}}, {42, 4, 0, 0, 0}, ""},
    {{{2, 13, "USD"}, {4, 20, "000000000000002"}}, {41, 4, 0, 0, 0}, ""},
    {{{2, 13, "USD"}, {4, 255, "X"}}, {40, 4, 0, 0, 0}, ""},
    {{{4, 255, "X"}}, {40, 4, 0, 0, 0}, ""},
    {{{2, 13, "USD"}, {3, 474, "X"}}, {33, 3, 0, 0, 0}, ""},
    {{{2, 13, "USD"}, {2, 458, "X"}, {4, 255, "X"}}, {33, 2, 0, 0, 0}, ""},
    {{{0, 177, "J"}, {2, 13, "USD"}, {3, 474, "X"}}, {15, 0, 0, 0, 0}, ""},
    {{{0, 163, "240230"}, {2, 13, "USD"}}, {13, 0, 0, 0, 0}, ""},
    {{{0, 177, "J"}, {2, 13, "USD"}, {4, 3, "7"}}, {3, 4, 0, 0, 0}, ""},
    {{{2, 13, "USD"}, {3, 4, "X"}}, {4, 3, 0, 0, 0}, ""},
};
enum { EXAMPLES = sizeof examples / sizeof examples[0] };

/* What is lent, with the first so many bytes of the codes. */
static void file_example(const example *e, size_t codes_n, size_t room)
{
    lend(CODES, codes, codes_n);
    uint64_t number = filed_number(e->answer[0], room, e->answer[2]);
    if (number) {
        due(number, e->answer[1], 0, 0, 0);
    } else {
        due_numbers(e->answer, 5);
        due_output((const uint8_t *)e->records, strlen(e->records));
    }
    m8(room);
}

static void file_each_way(const example *e)
{
    static const size_t lengths[] = {96, 0, 6, 90, 95, 97, 102, 108};
    size_t needed = M8_BYTES * e->answer[2];
    for (size_t i = 0; i < sizeof lengths / sizeof lengths[0]; i++) {
        file_example(e, lengths[i], needed);
        file_example(e, lengths[i], needed + 1);
        file_example(e, lengths[i], needed + M8_BYTES);
        file_example(e, lengths[i], 0);
        for (size_t less = 1; less <= 2 && needed; less++)
            file_example(e, lengths[i], needed - less);
    }
}

static void each_example(void)
{
    for (const example *e = examples; e < examples + EXAMPLES; e++) {
        three_samples();
        put_new_bytes(e->other, 4);
        lend_draft();
        file_each_way(e);
    }
}

/* The German characters of both pages, small umlauts of both, and three others. */
static void each_page_replaces(void)
{
    static const example on[PAGES] = {
        {{{0}}, {0, 0, 1, 79, 75}, REFERENCE("M+M AOUS              S            ")},
        {{{0}}, {0, 0, 1, 79, 75}, REFERENCE("M+M      AOUS         S            ")},
    };
    three_samples();
    put(record_of(2) + 455, "USD");
    put(record_of(2) + 475, "M&M [\\]~ \xC4\xD6\xDC\xDF {|} \xE4\xF6\xFC $");
    lend_draft();
    file_each_way(&on[code_page()]);
}

/* ---- What the fields of the record are made of -------------------------------------------------- */

static const verdict NO_REFUSAL = {0, 0, 0};

/* The three payments, of which the first and the last come back by rule 32. */
static const uint32_t two_returned[] = {132, 332};

static void lend_two_returned(void)
{
    put(record_of(1) + 455, "USD");
    put(record_of(3) + 455, "USD");
    sample_z(draft, 3);
    lend_draft();
}

/* Every byte at every place of T15, all places at once. */
static void each_character(void)
{
    lend_codes(ODD, TABLE_BYTES);
    three_samples();
    for (unsigned from = 0; from < 256; from++) {
        for (size_t r = 1; r <= 3; r++)
            for (int at = text_field[6].first; at <= text_field[6].last; at++)
                record_of(r)[at] = (uint8_t)(from + 11 * r + (unsigned)at);
        lend_two_returned();
        file_in(2 * M8_BYTES, NO_REFUSAL, two_returned, 2);
    }
}

/* A way to break each rule of 20 to 35, and no lower one; it is of a cheque that 25 is asked. */
static const struct { payment_kind kind; int at; const char *bytes; } ways[16] = {
    {BIC_ALONE, 13, "USD"}, {BIC_ALONE, 16, "0012345679"}, {BIC_ALONE, 43, "0012345678"}, {BIC_ALONE, 650, "10"},
    {BIC_ALONE, 648, "03"}, {CHEQUE, 63, "X"}, {BIC_ALONE, 64, "us "}, {BIC_AND_COUNTRY, 53, "SC123456   "},
    {BIC_ALONE, 207, "XX "}, {BIC_ALONE, 210, "             "}, {BIC_ALONE, 350, "X"}, {BIC_ALONE, 420, "X"},
    {BIC_ALONE, 455, "USD"}, {BIC_ALONE, 474, "5"}, {BIC_ALONE, 766, "01"}, {BIC_ALONE, 715, "X"},
};

/* Every rule in one file, rising or falling, behind a payment that is kept. */
static void each_code(bool falling)
{
    uint32_t returned[16];
    payments = 17;
    draft_n = file_bytes(17);
    sample_q(draft);
    sample_t(record_of(1), BIC_ALONE, "US", 1, 1);
    for (uint32_t r = 2; r <= 17; r++) {
        uint32_t rule = falling ? 37 - r : 18 + r;
        sample_t(record_of(r), ways[rule - 20].kind, "US", r, r);
        put(record_of(r) + ways[rule - 20].at, ways[rule - 20].bytes);
        returned[r - 2] = 100 * r + rule;
    }
    sample_z(draft, 17);
    lend_draft();
    for (size_t way = 0; way < FILINGS; way++)
        file_returned(way, NO_REFUSAL, returned, 16);
}

/* Every three digits behind the euros: some break rule 33, which is told where T13 is right. */
static void each_number_in_t14b(uint64_t euros)
{
    lend_codes(NAMED, TABLE_BYTES);
    for (unsigned n = 0; n < 1000; n++) {
        bool usd = n % 3 == 0 || (n % 10 == 0 && (euros || n));
        three_samples();
        put_number(record_of(2) + 458, 14, euros);
        put_number(record_of(2) + 472, 3, n);
        put(record_of(2) + 455, usd ? "USD" : "EUR");
        sample_z(draft, 3);
        lend_draft();
        file_in(M8_BYTES, NO_REFUSAL, (const uint32_t[]){usd ? 232 : 233}, 1);
    }
}

/* Each digit at each place of T14a. */
static void each_digit_of_t14a(void)
{
    for (int at = 458; at <= 471; at++)
        for (uint8_t digit = '0'; digit <= '9'; digit++) {
            three_samples();
            record_of(1)[at] = digit;
            record_of(3)[929 - at] = digit;
            lend_two_returned();
            file_in(2 * M8_BYTES, NO_REFUSAL, two_returned, 2);
        }
}

static void each_day_and_number(void)
{
    for (unsigned n = 0; n < 100; n++) {
        three_samples();
        put_number(draft + 163, 2, n);
        put_number(draft + 165, 2, 1 + n % 12);
        put_number(draft + 167, 2, 1 + n % 28);
        put_number(draft + 169, 2, 99 - n);
        lend_two_returned();
        file_in(2 * M8_BYTES, NO_REFUSAL, two_returned, 2);
    }
}

/* ---- Tables of other lengths ---------------------------------------------------------------------- */

/* Also those that a narrower reading takes for 96; with payments that come back, and with none. */
static void each_length_of_table(void)
{
    static const size_t lengths[] = {255, 256, 257, 352, 608, 9600, 65536, 65632, 131168, SPARE};
    for (size_t returned = 0; returned <= 2; returned += 2) {
        three_samples();
        if (returned)
            lend_two_returned();
        else
            lend_draft();
        for (size_t n = 0; n <= 200; n++) {
            lend_codes(NAMED, n);
            file_in(returned * M8_BYTES, NO_REFUSAL, two_returned, returned);
        }
        for (size_t i = 0; i < sizeof lengths / sizeof lengths[0]; i++) {
            lend_codes(ODD, lengths[i]);
            file_in(3 * M8_BYTES, NO_REFUSAL, two_returned, returned);
        }
    }
}

/* Rooms of every length up to four records. */
static void each_length_of_room(void)
{
    three_samples();
    lend_two_returned();
    lend_codes(NAMED, TABLE_BYTES);
    for (size_t room = 0; room <= 4 * M8_BYTES; room++)
        file_in(room, NO_REFUSAL, two_returned, 2);
}

/* ---- Many records ----------------------------------------------------------------------------------- */

/* Of 1,200 payments all but one come back: 1,199 records of 124 bytes, which are more than 65,536. */
static void many_records(void)
{
    static uint32_t returned[1199];
    size_t n = 0;
    long_draft(1200);
    for (uint32_t r = 1; r <= 1200; r++)
        if (r != 600) {
            record_of(r)[765] = 'X';
            returned[n++] = 100 * r + 35;
        }
    lend_draft();
    lend_codes(NAMED, TABLE_BYTES);
    file_in(n * M8_BYTES, NO_REFUSAL, returned, n);
    file_in(n * M8_BYTES - 1, NO_REFUSAL, returned, n);
    file_in(n * M8_BYTES + 1, NO_REFUSAL, returned, n);
    file_in(65536, NO_REFUSAL, returned, n);
}

/* ---- Suite ---------------------------------------------------------------------------------------- */

void each_m8(void)
{
    for (uint32_t page = 0; page < PAGES; page++) {
        use_page(page);
        each_example();
        each_page_replaces();
        each_character();
        each_code(false);
        each_code(true);
    }
    use_page(0);
    each_number_in_t14b(0);
    each_number_in_t14b(120);
    each_digit_of_t14a();
    each_day_and_number();
    each_length_of_table();
    each_length_of_room();
    many_records();
}
