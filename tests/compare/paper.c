#include "paper.h"

#include <string.h>

const place text_field[10] = {
    {0, -1}, {23, 162}, {53, 63}, {67, 206}, {210, 349}, {420, 454}, {475, 614}, {623, 647}, {652, 678}, {679, 713}
};

const char german[PAGES][5] = {"[\\]~", "\xC4\xD6\xDC\xDF"};

uint8_t becomes(uint32_t page, uint8_t b)
{
    static const char unchanged[] = "ABCDEFGHIJKLMNOPQRSTUVWXYZabcdefghijklmnopqrstuvwxyz0123456789 .,-/+%";
    const char *found;
    if (b == 0)
        return ' ';
    if (strchr(unchanged, b))
        return b;
    if (b == '&')
        return '+';
    if (b == '$')
        return 'S';
    found = strchr(german[page], b);
    return found ? (uint8_t)"AOUS"[found - german[page]] : ' ';
}

bool in_text(size_t at, size_t n)
{
    size_t i = at < 256 ? at : (at - 256) % 768;
    for (int f = 1; f <= 9 && at < n - 256; f++)
        if ((f == 1) == (at < 256) && i >= (size_t)text_field[f].first && i <= (size_t)text_field[f].last)
            return true;
    return false;
}

/* Replaces one field that begins at this place, and appends its notes to the k that there are. */
static size_t forward_field(uint32_t page, uint8_t *forwarded, size_t at, size_t width, uint32_t *notes, size_t k)
{
    static uint8_t tables[PAGES][256];
    uint8_t *table = tables[page];
    if (table['A'] == 0)
        for (int b = 0; b < 256; b++)
            table[b] = becomes(page, (uint8_t)b);
    for (size_t i = at; i < at + width; i++) {
        uint8_t b = forwarded[i];
        if (table[b] == b)
            continue;
        forwarded[i] = table[b];
        notes[k++] = (uint32_t)(i * 256 + b);
    }
    return k;
}

size_t forwarded_of(uint32_t page, const uint8_t *file, size_t n, uint8_t *forwarded, uint32_t *notes)
{
    memcpy(forwarded, file, n);
    size_t k = forward_field(page, forwarded, 23, 140, notes, 0);
    for (size_t at = 256; at + 768 + 256 <= n; at += 768)
        for (int f = 2; f <= 9; f++) {
            size_t width = (size_t)(text_field[f].last - text_field[f].first + 1);
            k = forward_field(page, forwarded, at + (size_t)text_field[f].first, width, notes, k);
        }
    return k;
}

size_t changes_of(uint32_t page, const uint8_t *file, size_t n)
{
    static uint8_t forwarded[MOST_FILE];
    static uint32_t notes[MOST_NOTES];
    return forwarded_of(page, file, n, forwarded, notes);
}

bool has_day(unsigned year, unsigned month, unsigned day)
{
    static const unsigned last[13] = {0, 31, 28, 31, 30, 31, 30, 31, 31, 30, 31, 30, 31};
    if (month < 1 || month > 12 || day < 1)
        return false;
    return day <= last[month] || (month == 2 && day == 29 && year % 4 == 0);
}

bool is_listed(const uint8_t *list, size_t n, const uint8_t country[2])
{
    for (size_t i = 0; i + 1 < n; i += 2)
        if (list[i] == country[0] && list[i + 1] == country[1])
            return true;
    return false;
}

/* Where the fields of each rule begin, by rising place; no field begins at 0. Rules 1 to 5, 7, 50 and 0 have none. */
enum { LAST_RULE = 42, MOST_FIELDS = 6 };

static const int fields_of[LAST_RULE + 1][MOST_FIELDS] = {
    [10] = {5}, [11] = {13}, [12] = {23}, [13] = {163},         /* Q3; Q4; Q5; Q6 */
    [14] = {169, 171, 178, 180},                                /* Q7, Q8, Q10, Q11 */
    [15] = {177}, [16] = {188},                                 /* Q9; Q12 */
    [20] = {5, 13, 16}, [21] = {5, 16},                         /* T3, T4a, T4b; T3, T4b */
    [22] = {26, 32, 40, 43},                                    /* T5, T6, T7a, T7b */
    [23] = {650}, [24] = {648},                                 /* T22; T21 */
    [25] = {53, 64, 67},                                        /* T8, T9a, T9b */
    [26] = {64}, [27] = {67},                                   /* T9a, also where it is T8 that makes it wrong; T9b */
    [28] = {207}, [29] = {210},                                 /* T10a; T10b, whichever line is blank */
    [30] = {350}, [31] = {420}, [32] = {455},                   /* T11; T12; T13 */
    [33] = {458, 472},                                          /* T14a, T14b */
    [34] = {615, 617, 619, 621, 714, 766},                      /* T16, T17, T18, T19, T25, T27 */
    [35] = {715},                                               /* T26 */
    [40] = {5, 20, 35}, [41] = {20}, [42] = {5},                /* Z3, Z4, Z5; Z4; Z3 */
};

verdict broken_at(uint64_t rule, uint64_t record, int place)
{
    const int *begins = fields_of[rule <= LAST_RULE ? rule : 0];
    int at = begins[0];
    for (int i = 1; i < MOST_FIELDS && begins[i]; i++)
        if (begins[i] <= place)
            at = begins[i];
    return rule ? (verdict){rule, record, (uint64_t)at} : (verdict){0, 0, 0};
}

bool may_point_to(uint64_t rule, uint64_t at) { return broken_at(rule, 0, (int)at).at == at; }

verdict first_of(verdict one, verdict other)
{
    if (one.record != other.record)
        return one.record < other.record ? one : other;
    if (one.rule != other.rule)
        return one.rule < other.rule ? one : other;
    return one.at < other.at ? one : other;
}

/* ---- Request A5 ---------------------------------------------------------------------------- */

size_t payments_of(size_t n) { return n < 512 ? 0 : (n - 512) / 768; }

/* Q, the payments that the list does not name, in their order, and a Z with fresh figures; the length. */
static size_t kept_of(const uint8_t *file, size_t n, const uint32_t *returned, size_t returned_n, uint8_t *kept)
{
    size_t count = 0, named = 0;
    memcpy(kept, file, 256);
    for (size_t record = 1; record <= payments_of(n); record++)
        if (named < returned_n && returned[named] / 100 == record)
            named++;
        else
            memcpy(kept + 256 + 768 * count++, file + 256 + 768 * (record - 1), 768);
    sample_z(kept, count);
    return file_bytes(count);
}

void send_all_but(uint32_t page, const uint8_t *file, size_t n, const uint32_t *returned, size_t returned_n, sent *s)
{
    s->n = kept_of(file, n, returned, returned_n, s->kept);
    size_t notes_n = forwarded_of(page, s->kept, s->n, s->forwarded, s->notes);
    size_t kept = payments_of(s->n);
    uint64_t euros = euros_of(s->kept, kept), submitted = euros_of(file, payments_of(n));
    memcpy(s->answer, (uint64_t[7]){0, 0, notes_n, kept, returned_n, euros, submitted - euros}, sizeof s->answer);
}

bool non_digit_in_t14(const uint8_t *t)
{
    for (int i = 458; i <= 474; i++)
        if (t[i] < '0' || t[i] > '9')
            return true;
    return false;
}

/* Of the T rules it is only 33, and that one at the first payment with a non-digit in T14; what comes behind it in the order
   is told where there is no such payment. */
bool may_tell_sorted(const uint8_t *file, size_t n, uint64_t number, uint64_t record)
{
    size_t count = payments_of(n), first = 1;
    if ((number >= 1 && number <= 5) || number == 7)
        return true;
    if (n < file_bytes(1) || n > MOST_FILE || n != file_bytes(count))
        return false;
    if (number >= 10 && number <= 16)
        return record == 0;
    while (first <= count && !non_digit_in_t14(file + 256 + 768 * (first - 1)))
        first++;
    if (number == 33)
        return first <= count && record == first;
    bool at_z = number >= 40 && number <= 42;
    bool at_0 = number == 0 || number == 43 || number == 60 || number == 61 || number == 63;
    return first > count && ((at_z && record == count + 1) || (at_0 && record == 0));
}

/* ---- Request A6 ---------------------------------------------------------------------------- */

const place m8_field[M8_FIELDS + 1] = {
    {0, -1}, {0, 0}, {1, 2}, {3, 8}, {9, 13}, {14, 20}, {21, 36}, {37, 37}, {38, 55}, {56, 61}, {62, 96}, {97, 123}
};

static const uint8_t *payment_of(const uint8_t *file, size_t record) { return file + 256 + 768 * (record - 1); }

/* The last digit of T14b is no cent. euros_of counts a file's payments: t is the first where a Q stands before it. */
static amount amount_of_payment(const uint8_t *t)
{
    return (amount){euros_of(t - 256, 1), 10 * (uint64_t)(t[472] - '0') + (uint64_t)(t[473] - '0')};
}

/* DM8-6, DM8-7 and DM8-11 are spaces. */
void m8_of(uint32_t page, const uint8_t *file, uint32_t returned, const uint8_t *codes, uint8_t record[M8_BYTES])
{
    const uint8_t *t = payment_of(file, returned / 100);
    amount a = amount_of_payment(t);
    memset(record, ' ', M8_BYTES);
    put(record, "DM8");
    memcpy(record + 3, file + 163, 6);                          /* Q6 */
    put_number(record + 9, 12, 0);                              /* DM8-4, but for Q7, and DM8-5 */
    memcpy(record + 12, file + 169, 2);                         /* Q7 */
    put_number(record + 38, 18, 100 * a.euros + a.cents);
    memcpy(record + 56, codes + CODE_BYTES * (returned % 100 - 20), CODE_BYTES);
    for (int i = 0; i < 35; i++)
        record[62 + i] = becomes(page, t[475 + i]);             /* T15 */
}

static bool is_code(const uint8_t *codes, const uint8_t *code)
{
    for (size_t at = 0; at < TABLE_BYTES; at += CODE_BYTES)
        if (memcmp(codes + at, code, CODE_BYTES) == 0)
            return true;
    return false;
}

size_t m8_behind(uint32_t page, const uint8_t *file, size_t n, size_t behind, const uint8_t *codes, const uint8_t *record)
{
    uint8_t wanted[M8_BYTES];
    for (size_t r = behind + 1; r <= payments_of(n); r++) {
        m8_of(page, file, (uint32_t)(100 * r + 20), codes, wanted);
        memcpy(wanted + 56, record + 56, CODE_BYTES);
        if (memcmp(wanted, record, M8_BYTES) == 0)
            return is_code(codes, record + 56) ? r : 0;
    }
    return 0;
}

amount amount_of_payments(const uint8_t *file, const uint32_t *returned, size_t n)
{
    amount sum = {0, 0};
    for (size_t i = 0; i < n; i++) {
        amount a = amount_of_payment(payment_of(file, returned[i] / 100));
        sum = (amount){sum.euros + a.euros, sum.cents + a.cents};
    }
    return sum;
}

/* DM8-8: 18 digits, of which two are cents. */
amount amount_of_records(const uint8_t *records, size_t n)
{
    amount sum = {0, 0};
    for (const uint8_t *r = records; r < records + M8_BYTES * n; r += M8_BYTES) {
        uint64_t cents = 0;
        for (int i = 38; i <= 55; i++)
            cents = 10 * cents + (uint64_t)(r[i] - '0');
        sum = (amount){sum.euros + cents / 100, sum.cents + cents % 100};
    }
    return sum;
}

/* A5's numbers up to 43; behind them 62, and then 60, which cannot be where there is room for all payments but one. */
bool may_tell_filed(const uint8_t *file, size_t n, size_t codes_n, size_t room, uint64_t number, uint64_t record)
{
    if (number == 61 || number == 63)
        return false;
    if (number == 62)
        return codes_n != TABLE_BYTES && may_tell_sorted(file, n, 0, record);
    if ((number == 0 || number == 60) && codes_n != TABLE_BYTES)
        return false;
    if (number == 60 && room / M8_BYTES + 1 >= payments_of(n))
        return false;
    return may_tell_sorted(file, n, number, record);
}
