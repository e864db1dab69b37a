/* The second opinion of the comparison, written from document 01, requests A1, A2, A3, A5, A6, A7 and A8 of document 02
   and, for A6, table 15 of source document 000 alone, for plainness and not for speed. The order is document 01's: records,
   character table, walk, rules, calls. Sentences of the papers stand as comments beside what does them. */
#include "plain.h"

/* ---- Lent memory. Only the four functions here read files, country lists, codes and notes, or write to memory, and
        each of them stays inside what it was given. (The taken numbers are read in is_taken alone.) ---- */

typedef struct { const uint8_t *bytes; size_t n; } lent;
typedef struct { const uint32_t *numbers; size_t n; } lent_notes;
typedef struct { uint8_t *bytes; size_t n; } room;
typedef struct { uint32_t *numbers; size_t n; } number_room;

/* The byte at a place; 0 outside of what was lent. */
static uint8_t byte_at(lent l, size_t place)
{
    return place < l.n ? l.bytes[place] : 0;
}

/* The note at an index; 0 outside of what was lent. */
static uint32_t note_at(lent_notes l, size_t index)
{
    return index < l.n ? l.numbers[index] : 0;
}

/* Writes a byte at a place; nothing outside of the room. */
static void put(room out, size_t place, uint8_t byte)
{
    if (place < out.n)
        out.bytes[place] = byte;
}

/* Writes a number of 32 bits, a note or a returned payment, at an index; nothing outside of the room. */
static void put_number(number_room list, size_t index, uint32_t number)
{
    if (index < list.n)
        list.numbers[index] = number;
}

/* ---- Records ---- */

/* Each kind of record has one letter and one length: Q 256, T 768, Z 256. */
enum { Q_LENGTH = 256, T_LENGTH = 768, Z_LENGTH = 256 };

/* 7,679,744 bytes (9,999 T records) */
enum { MOST_PAYMENTS = 9999, LONGEST_FILE = 7679744 };
_Static_assert(LONGEST_FILE == Q_LENGTH + MOST_PAYMENTS * T_LENGTH + Z_LENGTH, "the longest file");

/* Places are offsets in the record from 0, both ends included. */
typedef struct { size_t first, last; } stretch;

/* Each begins with four ASCII digits for its length, which count themselves, and then its letter. */
static const stretch LENGTH = {0, 3}, LETTER = {4, 4};

static const stretch
    Q3 = {5, 12}, Q4 = {13, 22}, Q5 = {23, 162} /* four lines of 35 */, Q6 = {163, 168}, Q7 = {169, 170},
    Q8 = {171, 176}, Q9 = {177, 177}, Q10 = {178, 179}, Q11 = {180, 187}, Q12 = {188, 255};

static const stretch
    T3 = {5, 12}, T4a = {13, 15}, T4b = {16, 25}, T5 = {26, 31}, T6 = {32, 39}, T7a = {40, 42}, T7b = {43, 52},
    T8 = {53, 63}, T9a = {64, 66}, T9b = {67, 206}, T10a = {207, 209}, T10b = {210, 349} /* four lines of 35 */,
    T11 = {350, 419}, T12 = {420, 454}, T13 = {455, 457}, T14a = {458, 471}, T14b = {472, 474}, T15 = {475, 614},
    T16 = {615, 616}, T17 = {617, 618}, T18 = {619, 620}, T19 = {621, 622}, T20 = {623, 647}, T21 = {648, 649},
    T22 = {650, 651}, T23 = {652, 678}, T24 = {679, 713}, T25 = {714, 714}, T26 = {715, 765}, T27 = {766, 767};

static const stretch
    Z3 = {5, 19}, Z4 = {20, 34}, Z5 = {35, 255};

/* Text fields, numbered for display: 1 Q5, 2 T8, 3 T9b, 4 T10b, 5 T12, 6 T15, 7 T20, 8 T23, 9 T24.
   They stand in rising places, and so do the notes made from them. */
typedef struct { uint64_t number; uint8_t letter; const stretch *place; } text_field;

static const text_field TEXT_FIELD[] = {
    {1, 'Q', &Q5},
    {2, 'T', &T8},
    {3, 'T', &T9b},
    {4, 'T', &T10b},
    {5, 'T', &T12},
    {6, 'T', &T15},
    {7, 'T', &T20},
    {8, 'T', &T23},
    {9, 'T', &T24},
};

enum { TEXT_FIELDS = sizeof TEXT_FIELD / sizeof TEXT_FIELD[0] };

/* A record: the file that it stands in, and the place in the file at which it starts. */
typedef struct { lent file; size_t start; } rec;

static uint8_t byte_of(rec r, size_t offset)
{
    return byte_at(r.file, r.start + offset);
}

static uint8_t letter_of(rec r)
{
    return byte_of(r, LETTER.first);
}

static size_t length_for(uint8_t letter)
{
    switch (letter) {
    case 'Q': return Q_LENGTH;
    case 'T': return T_LENGTH;
    default:  return Z_LENGTH;
    }
}

/* Q is record 0, T records count from 1, Z is last. Only asked after the walk, for records that exist. */
static rec numbered(lent file, uint64_t record)
{
    rec r = {file, 0};
    if (record > 0)
        r.start = Q_LENGTH + T_LENGTH * (size_t)(record - 1);
    return r;
}

static size_t width(stretch s)
{
    return s.last - s.first + 1;
}

/* A part of a field, its ends counted from 0 in the field, both included. */
static stretch part(stretch s, size_t first, size_t last)
{
    return (stretch){s.first + first, s.first + last};
}

/* One of a field's lines of 35, counted from 1. */
static stretch line(stretch s, size_t number)
{
    return part(s, 35 * (number - 1), 35 * number - 1);
}

/* ---- Character table ---- */

static bool is_space(uint8_t byte)   { return byte == ' '; }
static bool is_zero(uint8_t byte)    { return byte == '0'; }
static bool is_digit(uint8_t byte)   { return byte >= '0' && byte <= '9'; }
static bool is_capital(uint8_t byte) { return byte >= 'A' && byte <= 'Z'; }
static bool is_small(uint8_t byte)   { return byte >= 'a' && byte <= 'z'; }
static bool is_capital_or_digit(uint8_t byte) { return is_capital(byte) || is_digit(byte); }

/* The caller names the code page, 0 for DIN 66003, 1 for ISO 8859-1. */
enum { DIN_66003 = 0, ISO_8859_1 = 1 };

static bool page_exists(uint32_t page)
{
    return page == DIN_66003 || page == ISO_8859_1;
}

/* The German characters are read at their DIN 66003 codes: hex 5B becomes A, 5C O, 5D U, 7E S. Every other byte,
   apostrophe and all bytes from 128 up among them, becomes a space. */
static uint8_t by_din_66003(uint8_t byte)
{
    switch (byte) {
    case 0x5B: return 'A';
    case 0x5C: return 'O';
    case 0x5D: return 'U';
    case 0x7E: return 'S';
    default:   return ' ';
    }
}

/* ISO 8859-1: C4, D6, DC and DF for the four German characters. Under 1, hex 5B, 5C, 5D and 7E become spaces like any
   unlisted byte, small umlauts among them. */
static uint8_t by_iso_8859_1(uint8_t byte)
{
    switch (byte) {
    case 0xC4: return 'A';
    case 0xD6: return 'O';
    case 0xDC: return 'U';
    case 0xDF: return 'S';
    default:   return ' ';
    }
}

/* The whole table of a page. A byte is changed when its replacement differs from it; nothing else says so. */
static uint8_t replaced(uint32_t page, uint8_t byte)
{
    /* Unchanged: A-Z, a-z, 0-9, space and . , - / + % */
    if (is_capital(byte) || is_small(byte) || is_digit(byte))
        return byte;
    switch (byte) {
    case ' ': case '.': case ',': case '-': case '/': case '+': case '%':
        return byte;
    /* & becomes +. $ becomes S. */
    case '&': return '+';
    case '$': return 'S';
    }
    /* The rest is read by the page. */
    return page == ISO_8859_1 ? by_iso_8859_1(byte) : by_din_66003(byte);
}

/* ---- Tests on a stretch of a record ---- */

/* Every byte of the stretch, as it stands, passes the test. */
static bool every(rec r, stretch s, bool (*test)(uint8_t))
{
    for (size_t offset = s.first; offset <= s.last; offset++)
        if (!test(byte_of(r, offset)))
            return false;
    return true;
}

/* Every rule about a text field reads the replaced characters: every one of them passes the test. */
static bool every_replaced(uint32_t page, rec r, stretch s, bool (*test)(uint8_t))
{
    for (size_t offset = s.first; offset <= s.last; offset++)
        if (!test(replaced(page, byte_of(r, offset))))
            return false;
    return true;
}

/* "Blank" means all spaces after replacement. */
static bool blank(uint32_t page, rec r, stretch s)
{
    return every_replaced(page, r, s, is_space);
}

/* The stretch reads exactly as the given text, which has the width of the stretch. */
static bool reads(rec r, stretch s, const char *text)
{
    for (size_t offset = s.first; offset <= s.last; offset++) {
        char wanted = text[offset - s.first];
        if (wanted == '\0' || byte_of(r, offset) != (uint8_t)wanted)
            return false;
    }
    return true;
}

/* Two records have the same bytes in the stretch. */
static bool same(rec a, rec b, stretch s)
{
    for (size_t offset = s.first; offset <= s.last; offset++)
        if (byte_of(a, offset) != byte_of(b, offset))
            return false;
    return true;
}

/* The whole number that has the digits of the stretch behind the digits of the given number. */
static uint64_t with_digits(uint64_t number, rec r, stretch s)
{
    for (size_t offset = s.first; offset <= s.last; offset++)
        number = number * 10 + (uint64_t)(byte_of(r, offset) - '0');
    return number;
}

/* The whole number that the stretch shows; only asked where all of it are digits. */
static uint64_t value(rec r, stretch s)
{
    return with_digits(0, r, s);
}

/* The sum of a stretch over all T records. At most 9,999 times a value of 14 digits: less than 2^64. */
static uint64_t sum(lent file, uint64_t payments, stretch s)
{
    uint64_t total = 0;
    for (uint64_t record = 1; record <= payments; record++)
        total += value(numbered(file, record), s);
    return total;
}

/* ---- Walk ---- */

/* If refused, payments, euros and cents are 0. Rules 1 to 5, 50 and a sound file give 0 as the offset. */
static plain_judgement refused(uint64_t number, uint64_t record)
{
    return (plain_judgement){.number = number, .record = record};
}

/* only Q at record 0, only T at record 1, T or Z later */
static bool letter_allowed(uint8_t letter, uint64_t record)
{
    if (record == 0)
        return letter == 'Q';
    if (record == 1)
        return letter == 'T';
    return letter == 'T' || letter == 'Z';
}

/* The walk at one record: the broken rule, or 0. */
static uint64_t walk_record(rec r, uint64_t record)
{
    size_t left = r.start < r.file.n ? r.file.n - r.start : 0;
    /* Fewer than 5 bytes left: 2. */
    if (left < 5)
        return 2;
    /* Letter not allowed here: 4. */
    uint8_t letter = letter_of(r);
    if (!letter_allowed(letter, record))
        return 4;
    /* Length digits wrong for the letter: 3. */
    if (!every(r, LENGTH, is_digit) || value(r, LENGTH) != length_for(letter))
        return 3;
    /* Fewer bytes left than the length: 2. */
    if (left < length_for(letter))
        return 2;
    /* Bytes after Z: 5, at Z's record number. (One to four bytes too: after Z no record is due.) */
    if (letter == 'Z' && left > length_for(letter))
        return 5;
    return 0;
}

/* Structure, over the whole file. If 0, the number of payments is told; euros and cents are not yet. */
static plain_judgement walk(lent file)
{
    /* If the file is longer than 7,679,744 bytes, 1 at record 0, before anything else. */
    if (file.n > LONGEST_FILE)
        return refused(1, 0);
    rec r = {file, 0};
    uint64_t payments = 0;
    /* Each turn moves on by a record's length, and with fewer than 5 bytes left it ends by 2. */
    for (uint64_t record = 0; ; record++) {
        uint64_t number = walk_record(r, record);
        if (number != 0)
            return refused(number, record);
        if (letter_of(r) == 'Z')
            return (plain_judgement){.payments = payments};
        if (letter_of(r) == 'T')
            payments++;
        r.start += length_for(letter_of(r));
    }
}

/* ---- What the rules of a record find ---- */

/* The first broken rule, and the offset in the record of the lowest-placed field that breaks it; number 0: none is
   broken. Where a rule speaks of several fields they are tried by rising place, whatever the order of its words. */
typedef struct { uint64_t number, at; } finding;

static const finding NOTHING = {0, 0};

static finding broken(uint64_t number, stretch field)
{
    return (finding){number, field.first};
}

/* ---- Rules of the Q record ---- */

static uint64_t days_of_month(uint64_t year, uint64_t month)
{
    switch (month) {
    case 4: case 6: case 9: case 11:
        return 30;
    case 2:
        return year % 4 == 0 ? 29 : 28;     /* true of 2000 to 2099, 2000 being a leap year */
    default:
        return 31;
    }
}

/* a date YYMMDD (years 2000 to 2099) */
static bool is_date(rec r, stretch s)
{
    if (!every(r, s, is_digit))
        return false;
    uint64_t year = 2000 + value(r, part(s, 0, 1));
    uint64_t month = value(r, part(s, 2, 3));
    uint64_t day = value(r, part(s, 4, 5));
    return month >= 1 && month <= 12 && day >= 1 && day <= days_of_month(year, month);
}

static finding q_rules(uint32_t page, rec q)
{
    /* 10: Q3 is not 50400042 */
    if (!reads(q, Q3, "50400042"))
        return broken(10, Q3);
    /* 11: Q4 is not eight zeros and two digits */
    if (!every(q, part(Q4, 0, 7), is_zero) || !every(q, part(Q4, 8, 9), is_digit))
        return broken(11, Q4);
    /* 12: first line of Q5 blank */
    if (blank(page, q, line(Q5, 1)))
        return broken(12, Q5);
    /* 13: Q6 is no date YYMMDD (years 2000 to 2099) */
    if (!is_date(q, Q6))
        return broken(13, Q6);
    /* 14: a non-digit in Q7, Q8, Q10 or Q11 */
    if (!every(q, Q7, is_digit))
        return broken(14, Q7);
    if (!every(q, Q8, is_digit))
        return broken(14, Q8);
    if (!every(q, Q10, is_digit))
        return broken(14, Q10);
    if (!every(q, Q11, is_digit))
        return broken(14, Q11);
    /* 15: Q9 is not N */
    if (!reads(q, Q9, "N"))
        return broken(15, Q9);
    /* 16: Q12 not all spaces */
    if (!every(q, Q12, is_space))
        return broken(16, Q12);
    return NOTHING;
}

/* ---- Rules of a T record ---- */

/* The lent country lists: Annex II (transfers) and Annex I (cheques) in the program. */
typedef struct { lent transfer, cheque; } country_lists;

/* T22: 00 (transfer), 20 or 22 (cheques) */
static bool is_transfer(rec t) { return reads(t, T22, "00"); }
static bool is_cheque(rec t)   { return reads(t, T22, "20") || reads(t, T22, "22"); }

/* BIC shape: four capitals, two capitals, two capitals or digits, then three spaces or three capitals or digits. */
static bool has_bic_shape(uint32_t page, rec t)
{
    return every_replaced(page, t, part(T8, 0, 3), is_capital)
        && every_replaced(page, t, part(T8, 4, 5), is_capital)
        && every_replaced(page, t, part(T8, 6, 7), is_capital_or_digit)
        && (every_replaced(page, t, part(T8, 8, 10), is_space)
            || every_replaced(page, t, part(T8, 8, 10), is_capital_or_digit));
}

/* Two bytes a country, a lone last byte ignored, any content allowed. */
static bool listed(lent list, uint8_t first, uint8_t second)
{
    for (size_t country = 0; country < list.n / 2; country++)
        if (byte_at(list, 2 * country) == first && byte_at(list, 2 * country + 1) == second)
            return true;
    return false;
}

/* The field of three bytes is a country of the list and a space. */
static bool listed_and_space(rec t, stretch s, lent list)
{
    return listed(list, byte_of(t, s.first), byte_of(t, s.first + 1)) && is_space(byte_of(t, s.last));
}

/* T9a for a transfer: with a BIC shape in T8, three spaces or two capitals and a space; without it, a country of the
   transfer list and a space. */
static bool transfer_t9a_right(uint32_t page, rec t, lent transfer)
{
    if (!has_bic_shape(page, t))
        return listed_and_space(t, T9a, transfer);
    return every(t, T9a, is_space) || (every(t, part(T9a, 0, 1), is_capital) && is_space(byte_of(t, T9a.last)));
}

/* T12 begins with / and a non-space (T12 is a text field: the replaced characters are read). */
static bool begins_with_slash_and_non_space(uint32_t page, rec t, stretch s)
{
    return replaced(page, byte_of(t, s.first)) == '/' && !is_space(replaced(page, byte_of(t, s.first + 1)));
}

static finding t_rules_20_to_24(rec t, rec record_1)
{
    /* 20: a non-digit in T3 or T4b, or T4a not EUR */
    if (!every(t, T3, is_digit))
        return broken(20, T3);
    if (!reads(t, T4a, "EUR"))
        return broken(20, T4a);
    if (!every(t, T4b, is_digit))
        return broken(20, T4b);
    /* 21: T3 or T4b differs from record 1 */
    if (!same(t, record_1, T3))
        return broken(21, T3);
    if (!same(t, record_1, T4b))
        return broken(21, T4b);
    /* 22: T5, T6 or T7b not all zeros, or T7a not spaces */
    if (!every(t, T5, is_zero))
        return broken(22, T5);
    if (!every(t, T6, is_zero))
        return broken(22, T6);
    if (!every(t, T7a, is_space))
        return broken(22, T7a);
    if (!every(t, T7b, is_zero))
        return broken(22, T7b);
    /* 23: T22 is not 00 (transfer), 20 or 22 (cheques) */
    if (!is_transfer(t) && !is_cheque(t))
        return broken(23, T22);
    /* 24: T21 not 00, 01 or 02; for a cheque, not 00 */
    if (!reads(t, T21, "00") && !reads(t, T21, "01") && !reads(t, T21, "02"))
        return broken(24, T21);
    if (is_cheque(t) && !reads(t, T21, "00"))
        return broken(24, T21);
    return NOTHING;
}

static finding t_rules_25_to_29(uint32_t page, rec t, country_lists lists)
{
    /* 25: cheque: T8 or T9b not blank, or T9a not spaces */
    if (is_cheque(t) && !blank(page, t, T8))
        return broken(25, T8);
    if (is_cheque(t) && !every(t, T9a, is_space))
        return broken(25, T9a);
    if (is_cheque(t) && !blank(page, t, T9b))
        return broken(25, T9b);
    /* 26: transfer: T9a wrong */
    if (is_transfer(t) && !transfer_t9a_right(page, t, lists.transfer))
        return broken(26, T9a);
    /* 27: transfer: T8 has no BIC shape and T9b is blank. Rules 27 and 29 point to T9b and T10b. */
    if (is_transfer(t) && !has_bic_shape(page, t) && blank(page, t, T9b))
        return broken(27, T9b);
    /* 28: T10a not a listed country (transfer list or cheque list, by T22) and a space */
    if (!listed_and_space(t, T10a, is_cheque(t) ? lists.cheque : lists.transfer))
        return broken(28, T10a);
    /* 29: first line of T10b blank; for a cheque, also line 3 or line 4 blank */
    if (blank(page, t, line(T10b, 1)))
        return broken(29, T10b);
    if (is_cheque(t) && (blank(page, t, line(T10b, 3)) || blank(page, t, line(T10b, 4))))
        return broken(29, T10b);
    return NOTHING;
}

/* amount zero (T14a and the first two digits of T14b all zeros) */
static bool amount_is_zero(rec t)
{
    return every(t, T14a, is_zero) && every(t, part(T14b, 0, 1), is_zero);
}

/* Rule 33 points to T14a when T14a has a non-digit, or when T14a and T14b are all digits and the amount is zero; else
   to T14b. */
static stretch field_of_33(rec t)
{
    if (!every(t, T14a, is_digit))
        return T14a;
    if (every(t, T14b, is_digit) && amount_is_zero(t))
        return T14a;
    return T14b;
}

static finding t_rules_30_to_33(uint32_t page, rec t)
{
    /* 30: T11 not all spaces */
    if (!every(t, T11, is_space))
        return broken(30, T11);
    /* 31: transfer: T12 does not begin with / and a non-space; cheque: T12 not blank */
    if (is_transfer(t) && !begins_with_slash_and_non_space(page, t, T12))
        return broken(31, T12);
    if (is_cheque(t) && !blank(page, t, T12))
        return broken(31, T12);
    /* 32: T13 not EUR */
    if (!reads(t, T13, "EUR"))
        return broken(32, T13);
    /* 33: a non-digit in T14a or T14b, last digit of T14b not 0, */
    if (!every(t, T14a, is_digit) || !every(t, T14b, is_digit) || !is_zero(byte_of(t, T14b.last)))
        return broken(33, field_of_33(t));
    /* or amount zero */
    if (amount_is_zero(t))
        return broken(33, field_of_33(t));
    return NOTHING;
}

static finding t_rules_34_and_35(rec t)
{
    /* 34: a non-digit in T16 to T19 or T25, or T27 not 00 */
    if (!every(t, T16, is_digit))
        return broken(34, T16);
    if (!every(t, T17, is_digit))
        return broken(34, T17);
    if (!every(t, T18, is_digit))
        return broken(34, T18);
    if (!every(t, T19, is_digit))
        return broken(34, T19);
    if (!every(t, T25, is_digit))
        return broken(34, T25);
    if (!reads(t, T27, "00"))
        return broken(34, T27);
    /* 35: T26 not all spaces */
    if (!every(t, T26, is_space))
        return broken(35, T26);
    return NOTHING;
}

/* In rising rule number within a record. */
static finding t_rules(uint32_t page, rec t, rec record_1, country_lists lists)
{
    finding found = t_rules_20_to_24(t, record_1);
    if (found.number == 0)
        found = t_rules_25_to_29(page, t, lists);
    if (found.number == 0)
        found = t_rules_30_to_33(page, t);
    if (found.number == 0)
        found = t_rules_34_and_35(t);
    return found;
}

/* ---- Rules of the Z record ---- */

static finding z_rules(rec z, uint64_t payments)
{
    /* 40: a non-digit in Z3 or Z4, or Z5 not all spaces */
    if (!every(z, Z3, is_digit))
        return broken(40, Z3);
    if (!every(z, Z4, is_digit))
        return broken(40, Z4);
    if (!every(z, Z5, is_space))
        return broken(40, Z5);
    /* 41: Z4 is not the number of T records */
    if (value(z, Z4) != payments)
        return broken(41, Z4);
    /* 42: Z3 is not the sum of all T14a (whole euros, no cents) */
    if (value(z, Z3) != sum(z.file, payments, T14a))
        return broken(42, Z3);
    return NOTHING;
}

/* ---- Cuts ---- */

/* A file as it arrived: its cuts in their order. */
typedef struct { const plain_step *cuts; size_t n; } arrival;

static country_lists lists_of(const uint8_t *transfer, size_t nt, const uint8_t *cheque, size_t nc)
{
    return (country_lists){.transfer = {transfer, nt}, .cheque = {cheque, nc}};
}

/* A file that is lent whole is one cut. */
static plain_step whole(lent file, country_lists lists)
{
    return (plain_step){.length = file.n, .transfer = lists.transfer.bytes, .nt = lists.transfer.n,
                        .cheque = lists.cheque.bytes, .nc = lists.cheque.n};
}

/* How many bytes the cuts have together. */
static size_t joined_length(arrival a)
{
    size_t length = 0;
    for (size_t i = 0; i < a.n; i++)
        length += a.cuts[i].length;
    return length;
}

/* A record is judged by the lists of the cut that completes it: the one that holds the record's last byte. */
static country_lists completing_lists(arrival a, rec t)
{
    size_t last_byte = t.start + T_LENGTH - 1;
    size_t end = 0;
    for (size_t i = 0; i < a.n; i++) {
        end += a.cuts[i].length;
        if (last_byte < end)
            return lists_of(a.cuts[i].transfer, a.cuts[i].nt, a.cuts[i].cheque, a.cuts[i].nc);
    }
    return lists_of(NULL, 0, NULL, 0);      /* not reached: only asked for records that are there */
}

/* ---- Soundness ---- */

/* A broken rule of content tells its record and its place. */
static plain_judgement refused_by(finding found, uint64_t record)
{
    return (plain_judgement){.number = found.number, .record = record, .at = found.at};
}

/* Content, record by record. The first broken rule ends the judgement there. */
static plain_judgement content(uint32_t page, lent file, uint64_t payments, arrival a)
{
    finding found = q_rules(page, numbered(file, 0));
    if (found.number != 0)
        return refused_by(found, 0);
    for (uint64_t record = 1; record <= payments; record++) {
        rec t = numbered(file, record);
        found = t_rules(page, t, numbered(file, 1), completing_lists(a, t));
        if (found.number != 0)
            return refused_by(found, record);
    }
    found = z_rules(numbered(file, payments + 1), payments);
    if (found.number != 0)
        return refused_by(found, payments + 1);
    /* If 0, record 0, the number of payments, the euro sum of T14a and the cent sum (first two digits of T14b, added,
       not carried into euros). */
    uint64_t euros = sum(file, payments, T14a);
    uint64_t cents = sum(file, payments, part(T14b, 0, 1));
    return (plain_judgement){.number = 0, .record = 0, .at = 0, .payments = payments, .euros = euros, .cents = cents};
}

/* 0 means sound: none of rules 1 to 5 and 10 to 42 is broken. Structure is walked first over the whole file. */
static plain_judgement soundness_as_arrived(uint32_t page, lent file, arrival a)
{
    plain_judgement walked = walk(file);
    if (walked.number != 0)
        return walked;
    return content(page, file, walked.payments, a);
}

static plain_judgement soundness(uint32_t page, lent file, country_lists lists)
{
    plain_step all = whole(file, lists);
    return soundness_as_arrived(page, file, (arrival){&all, 1});
}

/* ---- Judge ---- */

/* A file's number is the 18 digits of Q4, Q6, Q7 as one whole number. */
static uint64_t file_number(lent file)
{
    rec q = numbered(file, 0);
    return with_digits(with_digits(value(q, Q4), q, Q6), q, Q7);
}

static bool is_taken(uint64_t number, const uint64_t *taken, size_t taken_n)
{
    for (size_t i = 0; i < taken_n; i++)
        if (taken[i] == number)
            return true;
    return false;
}

/* Rule 50 belongs to the judge alone and comes after all others. For 50, the record is 0. */
static plain_judgement unless_taken(plain_judgement judgement, lent file, const uint64_t *taken, size_t taken_n)
{
    if (judgement.number == 0 && is_taken(file_number(file), taken, taken_n))
        return refused(50, 0);
    return judgement;
}

plain_judgement plain_judge_full(uint32_t page, const uint8_t *file, size_t n,
                               const uint8_t *transfer, size_t nt, const uint8_t *cheque, size_t nc,
                               const uint64_t *taken, size_t taken_n)
{
    lent f = {file, n};
    /* Any other page number is 7, record and offset 0, before every other number. */
    if (!page_exists(page))
        return refused(7, 0);
    return unless_taken(soundness(page, f, lists_of(transfer, nt, cheque, nc)), f, taken, taken_n);
}

/* The C call stays on page 0. */
uint64_t plain_judge(const uint8_t *file, size_t n,
                    const uint8_t *transfer, size_t nt, const uint8_t *cheque, size_t nc)
{
    plain_judgement judgement = plain_judge_full(DIN_66003, file, n, transfer, nt, cheque, nc, NULL, 0);
    return judgement.record * 100 + judgement.number;
}

/* ---- Prepare as in document 01, the strict way ---- */

/* Each text field is replaced within its own stretch of the output. A note is place in the file * 256 + original byte.
   count is the number of changes before this field; the answer is the number after it. What has no room is counted
   and not written. */
static size_t change_field(uint32_t page, rec r, stretch s, room out, number_room notes, size_t count)
{
    for (size_t offset = s.first; offset <= s.last; offset++) {
        uint8_t byte = byte_of(r, offset);
        if (replaced(page, byte) != byte) {
            size_t place = r.start + offset;
            put(out, place, replaced(page, byte));
            put_number(notes, count, (uint32_t)(place * 256 + byte));
            count++;
        }
    }
    return count;
}

/* Goes over all text fields of a sound file and answers the number of changes; with no room it only counts. */
static size_t change_file(uint32_t page, lent file, uint64_t payments, room out, number_room notes)
{
    size_t count = 0;
    for (uint64_t record = 0; record <= payments; record++) {
        rec r = numbered(file, record);
        for (size_t i = 0; i < TEXT_FIELDS; i++)
            if (TEXT_FIELD[i].letter == letter_of(r))
                count = change_field(page, r, *TEXT_FIELD[i].place, out, notes, count);
    }
    return count;
}

/* How many characters the table would change in a sound file. */
static size_t changes_of(uint32_t page, lent file, uint64_t payments)
{
    return change_file(page, file, payments, (room){NULL, 0}, (number_room){NULL, 0});
}

static void copy(lent from, room to)
{
    for (size_t place = 0; place < from.n; place++)
        put(to, place, byte_at(from, place));
}

/* Then 60, then 61, for a sound file; 0 where there is room enough. */
static uint64_t too_little_room(uint32_t page, lent file, uint64_t payments, room out, number_room notes)
{
    /* 60: output room shorter than the file */
    if (out.n < file.n)
        return 60;
    /* 61: more changes than note places lent */
    if (changes_of(page, file, payments) > notes.n)
        return 61;
    return 0;
}

/* The output begins with the forwarded file and the rest of it keeps its bytes; the note places begin with the notes
   and the rest keep their numbers. Answers the number of notes. */
static size_t forward(uint32_t page, lent file, uint64_t payments, room out, number_room notes)
{
    copy(file, out);
    return change_file(page, file, payments, out, notes);
}

/* Reads soundness, then 60, then 61, each only in that case; record 0 for both and for success. */
static plain_strict prepare_strict(uint32_t page, lent file, country_lists lists, room out, number_room notes)
{
    /* Any other page number is 7, before every other number. */
    if (!page_exists(page))
        return (plain_strict){.number = 7};
    plain_judgement judgement = soundness(page, file, lists);
    if (judgement.number != 0)
        return (plain_strict){.number = judgement.number, .record = judgement.record};
    uint64_t number = too_little_room(page, file, judgement.payments, out, notes);
    if (number != 0)
        return (plain_strict){.number = number};
    size_t changes = forward(page, file, judgement.payments, out, notes);
    return (plain_strict){.number = 0, .record = 0, .notes = changes};
}

plain_strict plain_prepare_strict(uint32_t page, const uint8_t *file, size_t n,
                                  const uint8_t *transfer, size_t nt, const uint8_t *cheque, size_t nc,
                                  uint8_t *out, size_t out_n, uint32_t *notes, size_t notes_n)
{
    return prepare_strict(page, (lent){file, n}, lists_of(transfer, nt, cheque, nc),
                          (room){out, out_n}, (number_room){notes, notes_n});
}

/* ---- Prepare, the default way: send the good ones ---- */

/* A non-digit in T14, which is T14a and T14b. */
static bool has_non_digit_in_t14(rec t)
{
    return !every(t, T14a, is_digit) || !every(t, T14b, is_digit);
}

/* Refusals: structure, Q rules, the 33 for a non-digit by rising record, then 40 to 42, of the file as it is submitted.
   If 0, the number of payments is told. */
static plain_judgement before_sorting(uint32_t page, lent file)
{
    plain_judgement structure = walk(file);
    if (structure.number != 0)
        return structure;
    uint64_t payments = structure.payments;
    finding in_q = q_rules(page, numbered(file, 0));
    if (in_q.number != 0)
        return refused_by(in_q, 0);
    /* A non-digit in T14 still refuses the file, with 33 and that record, whatever else it breaks. */
    for (uint64_t record = 1; record <= payments; record++)
        if (has_non_digit_in_t14(numbered(file, record)))
            return refused(33, record);
    finding in_z = z_rules(numbered(file, payments + 1), payments);
    if (in_z.number != 0)
        return refused_by(in_z, payments + 1);
    return structure;
}

/* A submitted file that none of these refuses. */
typedef struct { uint32_t page; lent file; uint64_t payments; country_lists lists; } submission;

/* The first broken rule of 20 to 35, for which the payment is returned; 0 where it is kept. */
static uint64_t first_broken(submission s, uint64_t record)
{
    /* Rule 21 compares with record 1 even if that one is returned. */
    return t_rules(s.page, numbered(s.file, record), numbered(s.file, 1), s.lists).number;
}

/* The answer adds counts and euros, kept and returned. */
static plain_prepared counts_and_euros(submission s)
{
    plain_prepared counted = {.number = 0};
    for (uint64_t record = 1; record <= s.payments; record++) {
        uint64_t euros = value(numbered(s.file, record), T14a);
        if (first_broken(s, record) == 0) {
            counted.kept++;
            counted.kept_euros += euros;
        } else {
            counted.returned++;
            counted.returned_euros += euros;
        }
    }
    return counted;
}

/* Each is named in a lent list of 32-bit numbers, record * 100 + first broken rule, rising; places beyond stay. */
static void name_returned(submission s, number_room list)
{
    size_t count = 0;
    for (uint64_t record = 1; record <= s.payments; record++) {
        uint64_t rule = first_broken(s, record);
        if (rule != 0) {
            put_number(list, count, (uint32_t)(record * 100 + rule));
            count++;
        }
    }
}

/* Memory of its own: the kept file. */
static uint8_t own_kept[LONGEST_FILE];

/* Writes part of a record to a place; the answer is the place behind it. */
static size_t write_field(room out, size_t place, rec r, stretch s)
{
    for (size_t offset = s.first; offset <= s.last; offset++)
        put(out, place + offset - s.first, byte_of(r, offset));
    return place + width(s);
}

/* Writes a record of the submitted file to a place of another; the answer is the place behind it. */
static size_t append(rec r, room to, size_t place)
{
    return write_field(to, place, r, (stretch){0, length_for(letter_of(r)) - 1});
}

/* Writes a number into a field of the record that starts at this place, with zeros before it. */
static void put_digits(room to, size_t start, stretch s, uint64_t number)
{
    for (size_t offset = s.last; offset >= s.first; offset--) {
        put(to, start + offset, (uint8_t)('0' + number % 10));
        number /= 10;
    }
}

/* The kept file is Q, the kept T records in their order and a Z with fresh Z3 and Z4. */
static lent kept_file(submission s, plain_prepared counted)
{
    room kept = {own_kept, LONGEST_FILE};
    size_t z = append(numbered(s.file, 0), kept, 0);
    for (uint64_t record = 1; record <= s.payments; record++)
        if (first_broken(s, record) == 0)
            z = append(numbered(s.file, record), kept, z);
    size_t end = append(numbered(s.file, s.payments + 1), kept, z);
    put_digits(kept, z, Z3, counted.kept_euros);
    put_digits(kept, z, Z4, counted.kept);
    return (lent){own_kept, end};
}

/* Counts and euros, kept and returned, of a file that is not refused up to 43. */
static plain_prepared sorted(uint32_t page, lent file, country_lists lists)
{
    /* Any other page number is 7, before every other number. */
    if (!page_exists(page))
        return (plain_prepared){.number = 7};
    plain_judgement judgement = before_sorting(page, file);
    if (judgement.number != 0)
        return (plain_prepared){.number = judgement.number, .record = judgement.record};
    submission s = {page, file, judgement.payments, lists};
    plain_prepared answer = counts_and_euros(s);
    /* then 43, record 0, when every T record would be returned; */
    if (answer.kept == 0)
        return (plain_prepared){.number = 43};
    return answer;
}

/* When only T rules are broken, those records come back and the rest goes on. */
static plain_prepared prepare(uint32_t page, lent file, country_lists lists,
                              room out, number_room notes, number_room list)
{
    plain_prepared answer = sorted(page, file, lists);
    if (answer.number != 0)
        return answer;
    submission s = {page, file, answer.kept + answer.returned, lists};
    /* then 60 and 61, measured on the kept file; */
    lent kept = kept_file(s, answer);
    uint64_t number = too_little_room(page, kept, answer.kept, out, notes);
    if (number != 0)
        return (plain_prepared){.number = number};
    /* then 63, record 0, when the list is too short. */
    if (list.n < answer.returned)
        return (plain_prepared){.number = 63};
    name_returned(s, list);
    /* The kept file is sound, and demands 2 and 3 and note places are read from it. */
    answer.notes = forward(page, kept, answer.kept, out, notes);
    return answer;
}

plain_prepared plain_prepare(uint32_t page, const uint8_t *file, size_t n,
                             const uint8_t *transfer, size_t nt, const uint8_t *cheque, size_t nc,
                             uint8_t *out, size_t out_n, uint32_t *notes, size_t notes_n,
                             uint32_t *returned, size_t returned_n)
{
    return prepare(page, (lent){file, n}, lists_of(transfer, nt, cheque, nc), (room){out, out_n},
                   (number_room){notes, notes_n}, (number_room){returned, returned_n});
}

/* ---- M8 records for the returned payments ---- */

/* one record of 124 bytes by source document 000, table 15 */
enum { M8_LENGTH = 124 };
_Static_assert(M8_LENGTH == 1 + 2 + 6 + 5 + 7 + 16 + 1 + 18 + 6 + 35 + 27, "the fields of table 15");

/* The codes stand in a table lent by the caller, six bytes for each rule from 20 to 35 in order. */
enum { CODE_LENGTH = 6, FIRST_CODE = 20, LAST_CODE = 35, CODES_LENGTH = CODE_LENGTH * (LAST_CODE - FIRST_CODE + 1) };
_Static_assert(CODES_LENGTH == 96, "the code table");

/* Each of the next three writes at a place of the output and answers the place behind what it wrote. */
static size_t write_text(room out, size_t place, const char *text)
{
    for (size_t i = 0; text[i] != '\0'; i++, place++)
        put(out, place, (uint8_t)text[i]);
    return place;
}

static size_t write_times(room out, size_t place, size_t times, uint8_t byte)
{
    for (size_t i = 0; i < times; i++)
        put(out, place + i, byte);
    return place + times;
}

static size_t write_replaced(room out, size_t place, uint32_t page, rec r, stretch s)
{
    for (size_t offset = s.first; offset <= s.last; offset++)
        put(out, place + offset - s.first, replaced(page, byte_of(r, offset)));
    return place + width(s);
}

/* The record for a returned payment, field behind field as in table 15; the answer is the place behind it. */
static size_t write_m8(submission s, uint64_t record, lent codes, room out, size_t place)
{
    rec q = numbered(s.file, 0), t = numbered(s.file, record);
    rec code = {codes, CODE_LENGTH * (size_t)(first_broken(s, record) - FIRST_CODE)};
    /* DM8-1: D */
    place = write_text(out, place, "D");
    /* DM8-2: M8 */
    place = write_text(out, place, "M8");
    /* DM8-3: Q6 */
    place = write_field(out, place, q, Q6);
    /* DM8-4: three zeros and Q7 */
    place = write_times(out, place, 3, '0');
    place = write_field(out, place, q, Q7);
    /* DM8-5: seven zeros; DM8-6: 16 spaces; DM8-7: a space */
    place = write_times(out, place, 7, '0');
    place = write_times(out, place, 16, ' ');
    place = write_times(out, place, 1, ' ');
    /* DM8-8: two zeros, T14a and two digits of T14b */
    place = write_times(out, place, 2, '0');
    place = write_field(out, place, t, T14a);
    place = write_field(out, place, t, part(T14b, 0, 1));
    /* DM8-9: a six-byte code */
    place = write_field(out, place, code, (stretch){0, CODE_LENGTH - 1});
    /* DM8-10: as customer reference the first line of T15 after replacement; DM8-11: 27 spaces */
    place = write_replaced(out, place, s.page, t, line(T15, 1));
    return write_times(out, place, 27, ' ');
}

/* For each returned payment, in order, one record. Bytes of the output after the last record keep their value. */
static void write_returned(submission s, lent codes, room out)
{
    size_t end = 0;
    for (uint64_t record = 1; record <= s.payments; record++)
        if (first_broken(s, record) != 0)
            end = write_m8(s, record, codes, out, end);
}

static plain_returns m8(uint32_t page, lent file, country_lists lists, lent codes, room out)
{
    /* Refusals: A5's numbers up to 43 first, */
    plain_prepared sorting = sorted(page, file, lists);
    if (sorting.number != 0)
        return (plain_returns){.number = sorting.number, .record = sorting.record};
    /* then 62 when the code table is not 96 bytes, */
    if (codes.n != CODES_LENGTH)
        return (plain_returns){.number = 62};
    /* then 60 when the output is too short, both at record 0. */
    if (out.n < M8_LENGTH * sorting.returned)
        return (plain_returns){.number = 60};
    write_returned((submission){page, file, sorting.kept + sorting.returned, lists}, codes, out);
    /* The answer gives how many. */
    return (plain_returns){.number = 0, .record = 0, .count = sorting.returned};
}

plain_returns plain_m8(uint32_t page, const uint8_t *file, size_t n,
                       const uint8_t *transfer, size_t nt, const uint8_t *cheque, size_t nc,
                       const uint8_t *codes, size_t codes_n, uint8_t *out, size_t out_n)
{
    return m8(page, (lent){file, n}, lists_of(transfer, nt, cheque, nc), (lent){codes, codes_n}, (room){out, out_n});
}

/* ---- Read a file as it arrives ---- */

/* Which step asks for the end first. Bytes handed in after it change nothing. */
static size_t first_end(const plain_step *steps, size_t steps_n)
{
    size_t i = 0;
    while (i < steps_n && !steps[i].is_end)
        i++;
    return i;
}

static plain_answer with_changes(plain_judgement j, uint64_t changes)
{
    return (plain_answer){.number = j.number, .record = j.record, .at = j.at, .payments = j.payments,
                          .euros = j.euros, .cents = j.cents, .changes = changes};
}

plain_answer plain_read_in_steps(uint32_t page, const uint8_t *bytes, const plain_step *steps, size_t steps_n)
{
    size_t end = first_end(steps, steps_n);
    arrival a = {steps, end};
    lent file = {bytes, joined_length(a)};
    /* Any other page number is 7, record and offset 0, before every other number. */
    if (!page_exists(page))
        return (plain_answer){.number = 7};
    /* Structure still outranks content, and rule 1 outranks all but 7: the walk over the joined bytes comes first. */
    plain_judgement judgement = soundness_as_arrived(page, file, a);
    /* Asking for the end again gives the same answer, whatever list is lent: the first end's numbers decide. */
    judgement = unless_taken(judgement, file, steps[end].taken, steps[end].taken_n);
    /* With the number of changes (0 if refused; 50 is refused too). */
    uint64_t changes = judgement.number == 0 ? changes_of(page, file, judgement.payments) : 0;
    return with_changes(judgement, changes);
}

/* ---- Restore ---- */

/* The most notes: 140 bytes of text in Q, and 553 in each T (11 + 140 + 140 + 35 + 140 + 25 + 27 + 35). */
enum { MOST_NOTES = 140 + 553 * MOST_PAYMENTS };

/* Memory of its own: the original rebuilt, and the pair made anew from it. */
static uint8_t own_original[LONGEST_FILE];
static uint8_t own_forwarded[LONGEST_FILE];
static uint32_t own_notes[MOST_NOTES];

/* Puts each noted byte back at its place; false when a place is outside the file. All lent notes count. */
static bool rebuild(lent forwarded, lent_notes notes, room original)
{
    copy(forwarded, original);
    for (size_t i = 0; i < notes.n; i++) {
        uint32_t note = note_at(notes, i);
        if (note / 256 >= forwarded.n)
            return false;
        put(original, note / 256, (uint8_t)(note % 256));
    }
    return true;
}

static bool equal_files(lent a, lent b)
{
    if (a.n != b.n)
        return false;
    for (size_t place = 0; place < a.n; place++)
        if (byte_at(a, place) != byte_at(b, place))
            return false;
    return true;
}

static bool equal_notes(lent_notes a, lent_notes b)
{
    if (a.n != b.n)
        return false;
    for (size_t i = 0; i < a.n; i++)
        if (note_at(a, i) != note_at(b, i))
            return false;
    return true;
}

static size_t lesser(size_t a, size_t b)
{
    return a < b ? a : b;
}

/* Restore stays strict: the original, judged and prepared anew, yields this very pair, byte for byte and number by
   number. */
static bool yields(uint32_t page, lent original, country_lists lists, lent forwarded, lent_notes notes)
{
    plain_strict anew = prepare_strict(page, original, lists, (room){own_forwarded, LONGEST_FILE},
                                       (number_room){own_notes, MOST_NOTES});
    /* Refused is unsound, for its own memory has room enough. */
    if (anew.number != 0)
        return false;
    return equal_files((lent){own_forwarded, lesser(original.n, LONGEST_FILE)}, forwarded)
        && equal_notes((lent_notes){own_notes, lesser(anew.notes, MOST_NOTES)}, notes);
}

/* 60 first, then 70, record 0 for both. */
static plain_restored restore(uint32_t page, lent forwarded, lent_notes notes, country_lists lists, room out)
{
    /* Any other page number is 7, before every other number. */
    if (!page_exists(page))
        return (plain_restored){.number = 7};
    /* 60: output room shorter than the file */
    if (out.n < forwarded.n)
        return (plain_restored){.number = 60};
    /* 70: no sound file yields this pair. None is longer than the longest file; */
    if (forwarded.n > LONGEST_FILE)
        return (plain_restored){.number = 70};
    /* none has a note of a place outside itself; */
    if (!rebuild(forwarded, notes, (room){own_original, LONGEST_FILE}))
        return (plain_restored){.number = 70};
    /* and prepare changes the noted bytes alone, so the file with those put back is the only one to try. */
    lent original = {own_original, lesser(forwarded.n, LONGEST_FILE)};
    if (!yields(page, original, lists, forwarded, notes))
        return (plain_restored){.number = 70};
    /* If 0, the output begins with the original, the rest of it keeps its bytes. */
    copy(original, out);
    return (plain_restored){.number = 0, .record = 0};
}

plain_restored plain_restore(uint32_t page, const uint8_t *forwarded, size_t n, const uint32_t *notes, size_t notes_n,
                           const uint8_t *transfer, size_t nt, const uint8_t *cheque, size_t nc,
                           uint8_t *out, size_t out_n)
{
    return restore(page, (lent){forwarded, n}, (lent_notes){notes, notes_n}, lists_of(transfer, nt, cheque, nc),
                   (room){out, out_n});
}

/* ---- Show a field ---- */

plain_part plain_show(const uint8_t *file, size_t n, uint64_t record, uint64_t field)
{
    const plain_part empty = {0, 0};
    lent f = {file, n};
    plain_judgement walked = walk(f);
    /* The part is empty exactly when the walk refuses, */
    if (walked.number != 0)
        return empty;
    /* the record doesn't exist (Z, the last, stands behind the payments), */
    if (record > walked.payments + 1)
        return empty;
    rec r = numbered(f, record);
    for (size_t i = 0; i < TEXT_FIELDS; i++)
        if (TEXT_FIELD[i].number == field && TEXT_FIELD[i].letter == letter_of(r))
            return (plain_part){r.start + TEXT_FIELD[i].place->first, width(*TEXT_FIELD[i].place)};
    /* or that record has no such field. */
    return empty;
}

/* ---- The book of taken files ---- */

/* Memory of its own: the book as it stands, and every pair of number and day that was ever taken in it, in their order.
   Each entry now also holds its file's payments and whole euros. None is struck out: which of them are held is a question
   about a day. */
static plain_book own_book;
static plain_entry own_entries[PLAIN_PLACES + PLAIN_TAKES];
static size_t own_entries_n;

static void add_entry(plain_entry entry)
{
    if (own_entries_n < sizeof own_entries / sizeof own_entries[0])
        own_entries[own_entries_n++] = entry;
}

/* Its totals are stored as they are handed in: only a take makes them anew. */
void plain_open_book(plain_book book)
{
    own_book = book;
    own_entries_n = 0;
    for (size_t i = 0; i < book.held && i < PLAIN_PLACES; i++)
        add_entry(book.places[i]);
}

/* A new book is on day 0. The sums over no pairs are 0. */
plain_book plain_open_new_book(void)
{
    plain_open_book((plain_book){.day = 0, .held = 0, .payments = 0, .euros = 0});
    return own_book;
}

/* A number is taken on a business day, counted by the caller, and forgotten once the day is five or more later. */
static bool is_forgotten(plain_entry entry, uint32_t day)
{
    return day > entry.day && day - entry.day >= 5;
}

static bool is_held(uint64_t number, uint32_t day)
{
    for (size_t i = 0; i < own_entries_n; i++)
        if (own_entries[i].number == number && !is_forgotten(own_entries[i], day))
            return true;
    return false;
}

/* The sums over the held pairs, each made anew over all entries; modulo 2^64, which no takes come near. */
static uint64_t payments_on(uint32_t day)
{
    uint64_t payments = 0;
    for (size_t i = 0; i < own_entries_n; i++)
        payments += is_forgotten(own_entries[i], day) ? 0 : own_entries[i].payments;
    return payments;
}

static uint64_t euros_on(uint32_t day)
{
    uint64_t euros = 0;
    for (size_t i = 0; i < own_entries_n; i++)
        euros += is_forgotten(own_entries[i], day) ? 0 : own_entries[i].euros;
    return euros;
}

/* The book on a day: what is held then, in no more than all places, and nothing behind it. The book holds both totals. */
static plain_book book_on(uint32_t day)
{
    plain_book book = {.day = day, .payments = payments_on(day), .euros = euros_on(day)};
    for (size_t i = 0; i < own_entries_n; i++)
        if (!is_forgotten(own_entries[i], day) && book.held < PLAIN_PLACES)
            book.places[book.held++] = own_entries[i];
    return book;
}

static uint64_t refusal_of_take(uint64_t number, uint32_t day, uint64_t payments, uint64_t euros)
{
    /* A take passes payments up to 9,999 and euros up to 999,999,999,999,999. 53 for larger figures, before 52. */
    if (payments > 9999 || euros > 999999999999999)
        return 53;
    /* Refusals, in order: 52 for a day earlier than the book's, */
    if (day < own_book.day)
        return 52;
    /* 50 for a held number after forgetting, */
    if (is_held(number, day))
        return 50;
    /* 51 exactly when 200 are then still held. */
    if (book_on(day).held == 200)
        return 51;
    return 0;
}

plain_taken plain_take(uint64_t number, uint32_t day, uint64_t payments, uint64_t euros)
{
    uint64_t refusal = refusal_of_take(number, day, payments, euros);
    /* A refused call leaves the book, its day included, unchanged. */
    if (refusal == 0) {
        add_entry((plain_entry){number, day, payments, euros});
        /* After any calls the stored totals equal the sums over the held pairs of A7. */
        own_book = book_on(day);
    }
    return (plain_taken){own_book, refusal};
}

/* The screen adds up all 200 entries with each refresh; now it is told what is stored. */
plain_totals plain_kept_totals(void)
{
    return (plain_totals){own_book.held, own_book.payments, own_book.euros};
}
