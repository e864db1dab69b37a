/* Looks everywhere: every byte value at every place, every date, every pair of characters in the short fields, values that
   people send by mistake, totals that a narrower number would take for right, every number of payments. What is due is
   worked out for each from the paper. */
#include <string.h>

#include "plans.h"
#include "suites.h"

/* ---- A file of one transfer and one cheque --------------------------------------------------- */

enum { Z_RECORD = 3 };

/* Where the paper asks for a text that is not blank, it has one character there; the table changes none of its bytes. */
static void one_transfer_one_cheque(payment_kind kind)
{
    payments = 2;
    draft_n = file_bytes(2);
    sample_q(draft);
    memset(draft + 23, ' ', 140);
    draft[40] = 'Q';
    sample_t(record_of(1), kind, "US", 120, 50);
    sample_t(record_of(2), CHEQUE, "US", 79, 75);
    if (kind == BIC_AND_COUNTRY)
        put(record_of(1) + 61, "XXX");
    for (size_t r = 1; r <= 2; r++)
        memset(record_of(r) + 210, ' ', 140);
    memset(record_of(1) + 67, ' ', 140);
    if (kind == CODE_AND_BANK)
        record_of(1)[150] = 'B';
    record_of(1)[244] = 'P';
    record_of(2)[210] = 'P';
    record_of(2)[300] = 'S';
    record_of(2)[349] = 'T';
    sample_z(draft, 2);
}

/* ---- Every byte value at every place --------------------------------------------------------- */

/* What one byte may be while all others stay: itself; any digit; any byte; a character where no other stands in its line or
   field; a byte that becomes a space, a capital, or a capital or digit; a capital as it stands; a letter of a listed
   country; a digit of a date. */
typedef enum {
    ITSELF, DIGIT, FREE, LAST_ONE, SPACE, LETTER, LETTER_OR_DIGIT, CAPITAL, TRANSFER_COUNTRY, CHEQUE_COUNTRY, DATE
} may_be;

/* Who: Q, Z, b transfer with a BIC alone, l with a BIC and a country, c with a clearing code, s cheque. The rule that any
   other byte breaks, and the one that another digit breaks, if it does. */
typedef struct { const char *who; int first, last; may_be what; unsigned rule, digit_rule; } stretch;

static const stretch stretches[] = {
    {"QblcsZ", 0, 3, ITSELF, 3, 0}, {"QblcsZ", 4, 4, ITSELF, 4, 0},
    {"Q", 5, 12, ITSELF, 10, 0}, {"Q", 13, 20, ITSELF, 11, 0}, {"Q", 21, 22, DIGIT, 11, 0},
    {"Q", 23, 57, LAST_ONE, 12, 0}, {"Q", 58, 162, FREE, 0, 0}, {"Q", 163, 168, DATE, 13, 0},
    {"Q", 169, 176, DIGIT, 14, 0}, {"Q", 177, 177, ITSELF, 15, 0}, {"Q", 178, 187, DIGIT, 14, 0},
    {"Q", 188, 255, ITSELF, 16, 0},
    {"blcs", 5, 12, DIGIT, 20, 21}, {"blcs", 13, 15, ITSELF, 20, 0}, {"blcs", 16, 25, DIGIT, 20, 21},
    {"blcs", 26, 52, ITSELF, 22, 0},
    {"b", 53, 58, LETTER, 26, 0}, {"b", 59, 60, LETTER_OR_DIGIT, 26, 0}, {"b", 61, 63, SPACE, 26, 0},
    {"l", 53, 58, LETTER, 27, 0}, {"l", 59, 63, LETTER_OR_DIGIT, 27, 0}, {"c", 53, 63, FREE, 0, 0},
    {"s", 53, 63, SPACE, 25, 0},
    {"b", 64, 66, ITSELF, 26, 0}, {"l", 64, 65, CAPITAL, 26, 0}, {"c", 64, 65, TRANSFER_COUNTRY, 26, 0},
    {"lc", 66, 66, ITSELF, 26, 0}, {"s", 64, 66, ITSELF, 25, 0},
    {"bl", 67, 206, FREE, 0, 0}, {"c", 67, 206, LAST_ONE, 27, 0}, {"s", 67, 206, SPACE, 25, 0},
    {"blc", 207, 208, TRANSFER_COUNTRY, 28, 0}, {"s", 207, 208, CHEQUE_COUNTRY, 28, 0},
    {"blcs", 209, 209, ITSELF, 28, 0},
    {"blcs", 210, 244, LAST_ONE, 29, 0}, {"blcs", 245, 279, FREE, 0, 0}, {"blc", 280, 349, FREE, 0, 0},
    {"s", 280, 314, LAST_ONE, 29, 0}, {"s", 315, 349, LAST_ONE, 29, 0},
    {"blcs", 350, 419, ITSELF, 30, 0},
    {"blc", 420, 420, ITSELF, 31, 0}, {"blc", 421, 421, LAST_ONE, 31, 0}, {"blc", 422, 454, FREE, 0, 0},
    {"s", 420, 454, SPACE, 31, 0},
    {"blcs", 455, 457, ITSELF, 32, 0},
    {"blcs", 458, 471, DIGIT, 33, 42}, {"blcs", 472, 473, DIGIT, 33, 0}, {"blcs", 474, 474, ITSELF, 33, 0},
    {"blcs", 475, 614, FREE, 0, 0}, {"blcs", 615, 622, DIGIT, 34, 0}, {"blcs", 623, 647, FREE, 0, 0},
    {"blcs", 648, 649, ITSELF, 24, 0}, {"blcs", 650, 651, ITSELF, 23, 0},
    {"blcs", 652, 713, FREE, 0, 0}, {"blcs", 714, 714, DIGIT, 34, 0}, {"blcs", 715, 765, ITSELF, 35, 0},
    {"blcs", 766, 767, ITSELF, 34, 0},
    {"Z", 5, 19, DIGIT, 40, 42}, {"Z", 20, 34, DIGIT, 40, 41}, {"Z", 35, 255, ITSELF, 40, 0},
};

/* Single bytes that mean something else: a letter that is allowed there, with the digits of another; another T21; and a
   transfer that is now a cheque with a bank, or a cheque that is now a transfer without one. */
typedef struct { const char *who; int at; uint8_t byte; unsigned rule; } exception;

static const exception exceptions[] = {
    {"s", 4, 'Z', 3}, {"Z", 4, 'T', 3}, {"blc", 649, '1', 0}, {"blc", 649, '2', 0},
    {"blc", 650, '2', 25}, {"s", 650, '0', 26}, {"s", 651, '2', 0},
};

/* The field that is changed breaks the rule itself, but for T22 of a transfer that is now a cheque: it is T8 that must not
   hold a bank then. */
static verdict broken_by(uint64_t rule, uint64_t record, int at)
{
    return broken_at(rule, record, rule == 25 && at == 650 ? 53 : at);
}

static bool is_digit(uint8_t b) { return b >= '0' && b <= '9'; }
static bool is_capital(uint8_t b) { return b >= 'A' && b <= 'Z'; }

static bool is_date(const uint8_t *six)
{
    unsigned two[3];
    for (int i = 0; i < 3; i++) {
        if (!is_digit(six[2 * i]) || !is_digit(six[2 * i + 1]))
            return false;
        two[i] = 10u * (unsigned)(six[2 * i] - '0') + (unsigned)(six[2 * i + 1] - '0');
    }
    return has_day(two[0], two[1], two[2]);
}

/* f is the stretch with the byte in it; old is what stood there. */
static bool may_stand(may_be what, uint8_t old, uint8_t b, const uint8_t *f)
{
    uint8_t read = becomes(code_page(), b);
    switch (what) {
    case ITSELF: return b == old;
    case DIGIT: return is_digit(b);
    case LAST_ONE: return old == ' ' || read != ' ';
    case SPACE: return read == ' ';
    case LETTER: return is_capital(read);
    case LETTER_OR_DIGIT: return is_capital(read) || is_digit(read);
    case CAPITAL: return is_capital(b);
    case TRANSFER_COUNTRY: return is_listed((const uint8_t *)annex_ii, ANNEX_II_BYTES, f);
    case CHEQUE_COUNTRY: return is_listed((const uint8_t *)annex_i, ANNEX_I_BYTES, f);
    case DATE: return is_date(f);
    default: return true;
    }
}

static unsigned rule_broken(const stretch *s, char who, int at, uint8_t old, const uint8_t *r)
{
    for (size_t i = 0; i < sizeof exceptions / sizeof exceptions[0]; i++)
        if (strchr(exceptions[i].who, who) && exceptions[i].at == at && exceptions[i].byte == r[at])
            return exceptions[i].rule;
    if (!may_stand(s->what, old, r[at], r + s->first))
        return s->rule;
    return r[at] == old ? 0 : s->digit_rule;
}

static void judge_draft(verdict told)
{
    lend_draft();
    judge_by_turns(told);
}

/* The draft with one other byte; with one of the other calls now and then. */
static void judge_with_byte(const stretch *s, char who, size_t record, int at, unsigned byte)
{
    uint8_t *r = record_of(record), old = r[at];
    r[at] = (uint8_t)byte;
    unsigned rule = rule_broken(s, who, at, old, r);
    verdict told = broken_by(rule, rule >= 40 ? Z_RECORD : rule == 21 ? 2 : record, at);
    judge_draft(told);
    if ((byte + (unsigned)at) % 64 == 0)
        another_call(byte / 64, told);
    r[at] = old;
}

/* Of the places between these two. */
static void each_byte_of(char who, size_t record, int first, int last)
{
    for (const stretch *s = stretches; s < stretches + sizeof stretches / sizeof stretches[0]; s++)
        for (int at = s->first; strchr(s->who, who) && at <= s->last; at++)
            for (unsigned byte = 0; byte < 256 && at >= first && at <= last; byte++)
                judge_with_byte(s, who, record, at, byte);
}

/* The whole file, and then T8 to T9b, T21 and T22 of the other transfers, which differ there alone. */
static void each_byte_judged(void)
{
    one_transfer_one_cheque(BIC_ALONE);
    each_byte_of('Q', 0, 0, 255);
    each_byte_of('b', 1, 0, 767);
    each_byte_of('s', 2, 0, 767);
    each_byte_of('Z', Z_RECORD, 0, 255);
    one_transfer_one_cheque(BIC_AND_COUNTRY);
    each_byte_of('l', 1, 53, 206);
    each_byte_of('l', 1, 648, 651);
    one_transfer_one_cheque(CODE_AND_BANK);
    each_byte_of('c', 1, 53, 206);
    each_byte_of('c', 1, 648, 651);
}

static void random_byte(void)
{
    static const payment_kind kinds[3] = {BIC_ALONE, BIC_AND_COUNTRY, CODE_AND_BANK};
    static const char transfers[] = "blc";
    size_t kind = below(3), record = below(4);
    char who = record == 0 ? 'Q' : record == 1 ? transfers[kind] : record == 2 ? 's' : 'Z';
    int at = (int)below(who == 'Q' || who == 'Z' ? 256 : 768);
    unsigned byte = (unsigned)below(256);
    one_transfer_one_cheque(kinds[kind]);
    for (const stretch *s = stretches; s < stretches + sizeof stretches / sizeof stretches[0]; s++)
        if (strchr(s->who, who) && at >= s->first && at <= s->last)
            judge_with_byte(s, who, record, at, byte);
}

/* ---- Every byte value at every place of text ------------------------------------------------- */

/* Fills the text of a record with bytes that rise by one from place to place, but for the places that the paper asks to be
   as they are: those at which something stands. */
static void fill_text(uint8_t *r, int first_field, int last_field, unsigned from)
{
    for (int f = first_field; f <= last_field; f++)
        for (int at = text_field[f].first; at <= text_field[f].last; at++)
            if (r[at] == ' ')
                r[at] = (uint8_t)(from + (unsigned)at);
}

/* Each turn has other bytes at all places at once. T8 need not have BIC shape; in the cheque T8, T9b and T12 stay blank. */
static void each_byte_prepared(void)
{
    for (unsigned from = 0; from < 256; from++) {
        one_transfer_one_cheque(CODE_AND_BANK);
        memset(record_of(1) + 53, ' ', 11);
        fill_text(draft, 1, 1, from);
        fill_text(record_of(1), 2, 9, from);
        fill_text(record_of(2), 4, 4, from);
        fill_text(record_of(2), 6, 9, from);
        lend_draft();
        read_lent(broken_at(0, 0, 0));
        prepare_pair(true);
        for (int k = 0; k < 4; k++) {
            random_rooms();
            random_change();
        }
    }
}

/* ---- Every date, every pair of characters ---------------------------------------------------- */

static void each_date(void)
{
    static const unsigned years[5] = {0, 1, 24, 96, 99};
    one_transfer_one_cheque(BIC_ALONE);
    for (int i = 0; i < 5; i++)
        for (unsigned day = 0; day < 10000; day++) {
            put_number(draft + 163, 2, years[i]);
            put_number(draft + 165, 4, day);
            judge_draft(broken_at(has_day(years[i], day / 100, day % 100) ? 0 : 13, 0, 163));
        }
}

/* The rule that two characters of a field break. */
typedef unsigned rule_of_pair(const uint8_t *pair);

static bool is(const uint8_t *pair, const char *text) { return memcmp(pair, text, 2) == 0; }
static bool for_transfers(const uint8_t *pair) { return is_listed((const uint8_t *)annex_ii, ANNEX_II_BYTES, pair); }
static bool for_cheques(const uint8_t *pair) { return is_listed((const uint8_t *)annex_i, ANNEX_I_BYTES, pair); }

static unsigned t21_of_transfer(const uint8_t *p) { return is(p, "00") || is(p, "01") || is(p, "02") ? 0 : 24; }
static unsigned t21_of_cheque(const uint8_t *p) { return is(p, "00") ? 0 : 24; }
static unsigned t22_of_transfer(const uint8_t *p) { return is(p, "00") ? 0 : is(p, "20") || is(p, "22") ? 25 : 23; }
static unsigned t22_of_cheque(const uint8_t *p) { return is(p, "20") || is(p, "22") ? 0 : is(p, "00") ? 26 : 23; }
static unsigned t9a_beside_a_bic(const uint8_t *p) { return is(p, "  ") || (is_capital(p[0]) && is_capital(p[1])) ? 0 : 26; }
static unsigned t9a_without_a_bic(const uint8_t *p) { return for_transfers(p) ? 0 : 26; }
static unsigned t10a_of_transfer(const uint8_t *p) { return for_transfers(p) ? 0 : 28; }
static unsigned t10a_of_cheque(const uint8_t *p) { return for_cheques(p) ? 0 : 28; }

static void each_pair_at(size_t record, int at, rule_of_pair *rule)
{
    uint8_t *p = record_of(record) + at, old[2];
    memcpy(old, p, 2);
    for (unsigned pair = 0; pair < 65536; pair++) {
        p[0] = (uint8_t)(pair / 256);
        p[1] = (uint8_t)pair;
        judge_draft(broken_by(rule(p), record, at));
    }
    memcpy(p, old, 2);
}

/* A country, and every third byte behind it: only a space will do. */
static void each_third_byte(size_t record, int at, unsigned rule)
{
    static const char countries[] = "USGBCAPR";         /* in both annexes */
    uint8_t *field = record_of(record) + at, old[3];
    memcpy(old, field, 3);
    for (size_t i = 0; countries[i]; i += 2)
        for (unsigned byte = 0; byte < 256; byte++) {
            memcpy(field, countries + i, 2);
            field[2] = (uint8_t)byte;
            judge_draft(broken_at(byte == ' ' ? 0 : rule, record, at));
        }
    memcpy(field, old, 3);
}

static void each_pair_of_characters(void)
{
    one_transfer_one_cheque(BIC_ALONE);
    each_pair_at(1, 648, t21_of_transfer);
    each_pair_at(2, 648, t21_of_cheque);
    each_pair_at(1, 650, t22_of_transfer);
    each_pair_at(2, 650, t22_of_cheque);
    each_pair_at(1, 64, t9a_beside_a_bic);
    each_pair_at(1, 207, t10a_of_transfer);
    each_pair_at(2, 207, t10a_of_cheque);
    each_third_byte(1, 64, 26);
    each_third_byte(1, 207, 28);
    each_third_byte(2, 207, 28);
    one_transfer_one_cheque(CODE_AND_BANK);
    each_pair_at(1, 64, t9a_without_a_bic);
    each_third_byte(1, 64, 26);
}

/* ---- What people send by mistake ------------------------------------------------------------- */

/* The bytes are written for page 0. */
typedef struct { size_t record; int at; const char *bytes; unsigned rule; } mistake;

static const mistake mistakes[] = {
    {0, 0, "256 Q", 3}, {0, 0, " 256Q", 3}, {0, 0, "0128Q", 3}, {1, 0, "768 T", 3}, {1, 0, " 768T", 3}, {1, 0, "0896T", 3},
    {3, 0, "0768Z", 3}, {3, 0, "0256z", 4}, {2, 0, "0768t", 4}, {2, 0, "0768U", 4},
    {0, 5, "50400000", 10}, {0, 5, "5040042 ", 10}, {0, 5, "00000000", 10}, {0, 5, "5O400042", 10},
    {0, 13, "1200000000", 11}, {0, 13, "        12", 11}, {0, 13, "12        ", 11}, {0, 13, "000000001 ", 11},
    {0, 13, "000000012 ", 11}, {0, 13, "0000000112", 11}, {0, 13, "0000000099", 0},
    {0, 163, "      ", 13}, {0, 163, "000000", 13}, {0, 163, "290224", 0}, {0, 163, "242902", 13}, {0, 163, "240230", 13},
    {0, 163, "230229", 13}, {0, 163, "245001", 13}, {0, 163, "241401", 13},
    {0, 169, "  ", 14}, {0, 169, " 1", 14}, {0, 169, "1 ", 14}, {0, 171, "      ", 14}, {0, 171, "999999", 0},
    {0, 178, "  ", 14}, {0, 180, "        ", 14},
    {0, 177, "J", 15}, {0, 177, "n", 15}, {0, 177, " ", 15}, {0, 177, "0", 15}, {0, 177, "Y", 15}, {0, 177, "M", 15},
    {0, 188, "0", 16}, {0, 255, "0", 16}, {0, 255, "\n", 16},
    {1, 13, "USD", 20}, {1, 13, "eur", 20}, {1, 13, "EUr", 20}, {1, 13, "EU ", 20}, {1, 13, "DEM", 20}, {1, 13, "   ", 20},
    {1, 5, "        ", 20}, {1, 16, " 012345678", 20}, {1, 16, "12345678  ", 20},
    {2, 5, "50400043", 21}, {2, 16, "0012345679", 21}, {2, 16, "1012345678", 21},
    {1, 26, "      ", 22}, {1, 32, "        ", 22}, {1, 40, "EUR", 22}, {1, 40, "000", 22}, {1, 43, "          ", 22},
    {1, 43, "0012345678", 22}, {1, 26, "240301", 22},
    {1, 650, "11", 23}, {1, 650, "01", 23}, {1, 650, "10", 23}, {1, 650, "30", 23}, {1, 650, "  ", 23}, {2, 650, "21", 23},
    {2, 650, "30", 23}, {2, 650, "23", 23}, {2, 650, "12", 23},
    {1, 648, "04", 24}, {1, 648, "03", 24}, {1, 648, "  ", 24}, {1, 648, "10", 24}, {1, 648, "0 ", 24}, {2, 648, "01", 24},
    {2, 648, "02", 24}, {2, 648, "04", 24}, {2, 648, "  ", 24},
    {2, 53, "ABCDDEFF", 25}, {2, 64, "US ", 25}, {2, 67, "BANK", 25},
    {1, 53, "ABCDDEFF12 ", 26}, {1, 53, "abcddeff   ", 26}, {1, 64, "US0", 26}, {1, 64, "US/", 26}, {1, 64, "840", 26},
    {1, 207, "DE ", 28}, {1, 207, "USA", 28}, {1, 207, "FR ", 28}, {1, 207, "840", 28}, {2, 207, "AU ", 28},
    {1, 244, " ", 29}, {2, 210, "'", 29}, {2, 300, "=", 29}, {2, 349, "\xC4", 29},
    {1, 350, "0", 30}, {1, 419, "X", 30},
    {1, 420, " /GB29", 31}, {1, 420, "GB29NW", 31}, {1, 420, "/ GB29", 31}, {1, 420, "//GB29", 0}, {1, 420, "\\GB29", 31},
    {2, 420, "/", 31}, {2, 454, "0", 31},
    {1, 455, "USD", 32}, {1, 455, "eur", 32}, {1, 455, "EUr", 32}, {1, 455, "Eur", 32}, {1, 455, "DEM", 32},
    {1, 455, "   ", 32}, {1, 455, "EU0", 32},
    {1, 458, "           120", 33}, {1, 458, "00000000000000000", 33}, {1, 458, "00000000120,50", 33}, {1, 472, "50 ", 33},
    {1, 472, "505", 33}, {1, 472, "050", 0}, {1, 472, "000", 0}, {1, 472, " 50", 33},
    {1, 615, "      00", 34}, {1, 714, " ", 34}, {1, 714, "N", 34}, {1, 766, "  ", 34}, {1, 766, "01", 34}, {1, 766, "10", 34},
    {1, 715, "0", 35}, {1, 765, "0", 35},
    {3, 5, "            199", 40}, {3, 20, "              2", 40}, {3, 35, "0", 40}, {3, 255, "\n", 40},
    {3, 20, "000000000000001", 41}, {3, 20, "000000000000003", 41}, {3, 20, "000000000000004", 41},
    {3, 20, "200000000000000", 41}, {3, 5, "000000000000200", 42}, {3, 5, "000000000019900", 42}, {3, 5, "000000000020025", 42},
    {3, 5, "000000000000000", 42}, {3, 5, "199000000000000", 42},
};

enum { MISTAKES = sizeof mistakes / sizeof mistakes[0] };

static void make_mistake(const mistake *m)
{
    one_transfer_one_cheque(BIC_ALONE);
    verdict told = broken_at(m->rule, m->record, m->at);
    put_on_page(record_of(m->record) + m->at, m->bytes, strlen(m->bytes));
    lend_draft();
    judge_each_way(told);
    for (size_t turn = 0; turn < 4; turn++)
        another_call(turn, told);
}

void each_mistake(void)
{
    for (size_t i = 0; i < MISTAKES; i++)
        make_mistake(&mistakes[i]);
}

/* ---- Totals that a narrower or a shorter number would take for right -------------------------- */

/* A total that is off: by so much more or less, or cut to so much. */
static void judge_totals(uint64_t right, int at, unsigned rule)
{
    static const uint64_t widths[] = {256, 65536, 1u << 24, 1u << 31, (uint64_t)1 << 32, (uint64_t)1 << 40, (uint64_t)1 << 48,
        10, 100, 10000, 1000000000u, 10000000000u, 100000000000000u};
    for (size_t i = 0; i < sizeof widths / sizeof widths[0]; i++) {
        const uint64_t wrong[] = {right + widths[i], right - widths[i], right % widths[i], right / widths[i],
            right + 2 * widths[i]};
        for (size_t k = 0; k < 5; k++) {
            if (wrong[k] == right || wrong[k] > 999999999999999u)
                continue;
            put_number(record_of(payments + 1) + at, 15, wrong[k]);
            judge_draft(broken_at(rule, payments + 1, at));
        }
    }
    put_number(record_of(payments + 1) + at, 15, right);
}

static void each_total(void)
{
    static const uint64_t amounts[] = {1, 199, 4294967295u, 4294967296u, 4294967297u, 9999999999u, 10000000000u,
        10000000001u, 281474976710656u / 3, 99999999999999u};
    for (size_t i = 0; i < sizeof amounts / sizeof amounts[0]; i++) {
        one_transfer_one_cheque(BIC_ALONE);
        put_number(record_of(1) + 458, 14, amounts[i]);
        sample_z(draft, 2);
        lend_taken(NULL, 0);
        lend_draft();
        due(0, 0, 0, 2, amounts[i] + 79, 125);
        judge_and_read();
        judge_totals(amounts[i] + 79, 5, 42);
        judge_totals(2, 20, 41);
    }
}

/* ---- Numbers of payments from 1 to 9,999 ------------------------------------------------------ */

/* The draft has the most payments; this many of them, with Z behind them, go into a file of their own. */
static void judge_some_payments(size_t count)
{
    static uint8_t z[256];
    size_t z_at = 256 + 768 * count;
    uint64_t euros = count * (count + 1) / 2;           /* payment i is of i euros and 7 cents */
    memcpy(z, draft + z_at, 256);
    memset(draft + z_at, ' ', 256);
    put(draft + z_at, "0256Z");
    put_number(draft + z_at + 5, 15, euros);
    put_number(draft + z_at + 20, 15, count);
    payments = count;
    draft_n = file_bytes(count);
    lend_draft();
    due(0, 0, 0, count, euros, 7 * count);
    judge_and_read();
    bool by_count = count % 2 == 0;
    put_number(lent_file(z_at + (by_count ? 20 : 5)), 15, by_count ? count + 1 : euros + count);
    verdict told = broken_at(by_count ? 41 : 42, count + 1, 0);
    judge_lent(told);
    judge_for_payroll_hosts(told);
    memcpy(draft + z_at, z, 256);
}

static void each_number_of_payments(void)
{
    sample_q(draft);
    payments = MOST_PAYMENTS;
    for (size_t r = 1; r <= MOST_PAYMENTS; r++)
        sample_t(record_of(r), r % 10 ? BIC_ALONE : CHEQUE, "US", r, 7);
    lend_taken(NULL, 0);
    for (size_t count = 1; count <= MOST_PAYMENTS; count += count < 300 ? 1 : 1 + below(600))
        judge_some_payments(count);
    static const size_t edges[] = {511, 512, 999, 1000, 1023, 1024, 4095, 4096, 8191, 8192, 9998, 9999};
    for (size_t i = 0; i < sizeof edges / sizeof edges[0]; i++)
        judge_some_payments(edges[i]);
}

void random_near_miss(void)
{
    for (int k = 0; k < 8; k++)
        random_byte();
    make_mistake(&mistakes[below(MISTAKES)]);
}

void each_byte(void)
{
    each_byte_judged();
    each_byte_prepared();
}

void near_misses(void)
{
    each_date();
    each_total();
}

void sweep(void)
{
    each_pair_of_characters();
    each_number_of_payments();
}
