/* Each rule broken alone, in every way that the paper names; each set of a rule's fields broken at once: then the place of
   the lowest is due; and each pair of rules broken at once: then the first in the stated order is due. */
#include <string.h>

#include "drafts.h"
#include "suites.h"

/* Who: Q, Z, or payments: b BIC alone, l BIC and country, c code and bank, s cheque.
   How: '!' any other byte, '9' a non-digit, '#' another digit, '_' a byte where blank is asked,
   'f' blank where text is asked, 'g' blank but for one byte, '=' one of the values, which are written for page 0.
   Rule 0: still sound. */
typedef struct { int rule; const char *who; int first, last; char how; const char *values; } row;

#define NOT_BIC                                                                              \
    "SC123456   " "AU123456   " "ABCDDEF    " "ABCDDEFFX  " "ABCDDEFFXX " "ABCDDEFF  X"      \
    "ABCDDEFF X " "abcddeff   " "ABCDDEFFxxx" "ABC1DEFF   " "ABCDD1FF   " "1BCDDEFF   "      \
    "ABCDDEF/   " "ABCDDE.F   " "           " " ABCDDEFF  " "ABCDDEFF///" "ABCDDEFFX=X"      \
    "ABC^DEFF   " "ABC@DEFF   " "ABCD`EFF   " "ABCDDE:F   " "ABCDDEF\xC4   " "ABCDDEFFXXx"   \
    "A:CDDEFF   " "AB/DDEFF   " "ABCDDEF@XXX" "ABCDDEFF9:9" "ABCDDEFF/00" "A&CDDEFF   "      \
    "ABCDD{FF   " "ABCDDEFF==X" "ABCDDEFF00\x80" "ABCDDEzF   " "ABCDDEFF__9" "=ABCDDEFF=="
#define IS_BIC                                                                               \
    "ABCDDEFF   " "ABCDDEFFXXX" "ABCDDEFF123" "ABCDDE99   " "[BCDDEFF   " "ABC$DEFF===" "AZAZAZ09Z0A" \
    "~\\]$[DEF'\"\x80" "ABCDDEF~   " "ABCDDEFF[\\]" "SCSCSCSC   " "ABCDDEFF\xC4\xC4\xC4"

static const row rows[] = {
    {10, "Q", 5, 12, '!', 0},
    {11, "Q", 13, 20, '!', 0}, {11, "Q", 21, 22, '9', 0}, {0, "Q", 21, 22, '#', 0},
    {12, "Q", 23, 57, 'f', 0}, {0, "Q", 23, 57, 'g', 0}, {0, "Q", 58, 162, 'f', 0},
    {13, "Q", 163, 168, '9', 0},
    {13, "Q", 163, 168, '=', "010229" "030229" "990229" "000230" "001301" "000001" "000100" "000132"
        "000431" "000631" "000931" "001131" "991232" "000015" "000332" "001332" "002000"},
    {0, "Q", 163, 168, '=', "000229" "040229" "960229" "001231" "000131" "000430" "990228" "000331"
        "000531" "000630" "000731" "000831" "000930" "001031" "001130" "000901"},
    {14, "Q", 169, 170, '9', 0}, {14, "Q", 171, 176, '9', 0}, {14, "Q", 178, 179, '9', 0},
    {14, "Q", 180, 187, '9', 0}, {0, "Q", 169, 176, '#', 0}, {0, "Q", 178, 187, '#', 0},
    {15, "Q", 177, 177, '!', 0},
    {16, "Q", 188, 255, '!', 0},
    {20, "blcs", 5, 12, '9', 0}, {20, "blcs", 13, 15, '!', 0}, {20, "blcs", 16, 25, '9', 0},
    {21, "blcs", 5, 12, '#', 0}, {21, "blcs", 16, 25, '#', 0},
    {22, "blcs", 26, 31, '!', 0}, {22, "blcs", 32, 39, '!', 0}, {22, "blcs", 40, 42, '!', 0},
    {22, "blcs", 43, 52, '!', 0},
    {23, "blcs", 650, 651, '=', "01" "10" "02" "21" "2 " " 0" "12" "32" "23" "99" "  " "/0" ":0" "0/" "\xB0" "0"},
    {0, "s", 650, 651, '=', "20" "22"},
    {24, "blc", 648, 649, '=', "03" "10" "  " "0 " "20" "22" "11" "1 " "/0" ":1" "0/" "0:"},
    {24, "s", 648, 649, '=', "01" "02" "03" "10" "  " "20" "22" "0 " "0/"},
    {0, "blc", 648, 649, '=', "00" "01" "02"},
    {25, "s", 53, 63, '_', 0}, {25, "s", 67, 206, '_', 0}, {25, "s", 64, 66, '!', 0},
    {0, "s", 53, 63, 'f', 0}, {0, "s", 67, 206, 'f', 0},
    {26, "b", 53, 63, '=', NOT_BIC}, {27, "l", 53, 63, '=', NOT_BIC}, {0, "bl", 53, 63, '=', IS_BIC},
    {26, "bl", 64, 66, '=', "D1 " "1D " "D  " " D " "DE0" "DEX" "de " "De " "=  " "===" "[D " "D[ " "@A " "A@ "
        " DE" "  X" "DE=" "  =" "  \x80" "\xC4" "D "},
    {0, "blc", 64, 66, '=', "US " "GB " "CF " "AF "}, {0, "bl", 64, 66, '=', "ZZ " "AA " "   " "DE "},
    {26, "c", 64, 66, '=', "   " "DE " "ZZ " "VE " "USA" "US=" "U  " " US" "us " "SU " "FE " "\xD5\xD3 "},
    {27, "c", 67, 206, 'f', 0}, {0, "c", 67, 206, 'g', 0}, {0, "bl", 67, 206, 'f', 0}, {0, "bl", 67, 206, 'g', 0},
    {28, "blc", 207, 209, '=', "   " "DE " "ZZ " "VE " "USA" "US=" "U  " " US" "us " "FE " "GB0" "US\xA0"},
    {28, "s", 207, 209, '=', "   " "DE " "ZZ " "AF " "CF " "USA" "US=" "us " "RB " "VE0"},
    {0, "blc", 207, 209, '=', "US " "GB " "CF " "AF "}, {0, "s", 207, 209, '=', "US " "VE " "AR "},
    {29, "blcs", 210, 244, 'f', 0}, {29, "s", 280, 314, 'f', 0}, {29, "s", 315, 349, 'f', 0},
    {0, "blcs", 210, 244, 'g', 0}, {0, "s", 280, 314, 'g', 0}, {0, "s", 315, 349, 'g', 0},
    {0, "blcs", 245, 279, 'f', 0}, {0, "blc", 245, 349, 'f', 0},
    {30, "blcs", 350, 419, '!', 0},
    {31, "blc", 420, 420, '!', 0}, {31, "blc", 421, 421, 'f', 0}, {0, "blc", 421, 421, '_', 0},
    {31, "s", 420, 454, '_', 0}, {0, "s", 420, 454, 'f', 0}, {0, "blc", 422, 454, 'f', 0},
    {32, "blcs", 455, 457, '!', 0},
    {33, "blcs", 458, 471, '9', 0}, {33, "blcs", 472, 474, '9', 0}, {33, "blcs", 474, 474, '#', 0},
    {33, "blcs", 458, 474, '=', "00000000000000000" "00000000000000005"},
    {33, "blcs", 472, 474, '=', "505" "015" "991"},
    {34, "blcs", 615, 616, '9', 0}, {34, "blcs", 617, 618, '9', 0}, {34, "blcs", 619, 620, '9', 0},
    {34, "blcs", 621, 622, '9', 0}, {34, "blcs", 714, 714, '9', 0}, {34, "blcs", 766, 767, '!', 0},
    {0, "blcs", 615, 622, '#', 0}, {0, "blcs", 714, 714, '#', 0}, {0, "blcs", 472, 473, '=', "01" "10" "99"},
    {35, "blcs", 715, 765, '!', 0},
    {0, "blcs", 475, 614, 'f', 0}, {0, "blcs", 623, 647, 'f', 0}, {0, "blcs", 652, 678, 'f', 0},
    {0, "blcs", 679, 713, 'f', 0}, {0, "blcs", 475, 614, 'g', 0},
    {40, "Z", 5, 19, '9', 0}, {40, "Z", 20, 34, '9', 0}, {40, "Z", 35, 255, '!', 0},
    {41, "Z", 20, 34, '#', 0},
    {42, "Z", 5, 19, '#', 0},
};
enum { ROWS = sizeof rows / sizeof rows[0] };

static const uint8_t other_bytes[] = {0x00, 0x1F, ' ', '!', '/', '0', '1', ':', '=', '@', 'A', '[', 0x80, 0xA0, 0xFF};
static const uint8_t non_digits[] = {'/', ':', ' ', 'A', 'O', 0x00, 0xB0, 0xFF, '.', '-'};
static const uint8_t fillers[] = {' ', '=', '\'', 0x00, '@', '^', '_', '`', '{', '}', 0x7F, 0x80, 0xC4, 0xFF};

static size_t width_of(const row *w) { return (size_t)(w->last - w->first + 1); }

static size_t ways(const row *w)
{
    size_t width = width_of(w);
    switch (w->how) {
    case '!': return width * sizeof other_bytes;
    case '9': return width * sizeof non_digits;
    case '#': return width * 9;
    case '_': return width * NOT_BLANK / (width > 100 ? 3 : 1);
    case 'f': return sizeof fillers + 2;
    case 'g': return width * 3;
    default:  return strlen(w->values) / width;
    }
}

static void fill_blank(uint8_t *field, size_t width, const uint8_t *filler)
{
    for (size_t i = 0; i < width; i++)
        field[i] = filler ? on_page(*filler) : blank_byte();
}

static void spoil(const row *w, uint8_t *r, size_t way)
{
    size_t width = width_of(w), i = way % width, k = way / width;
    uint8_t *f = r + w->first;
    switch (w->how) {
    case '!': f[i] = f[i] == other_bytes[k] ? f[i] ^ 0x80 : other_bytes[k]; break;
    case '9': f[i] = non_digits[k]; break;
    case '#': f[i] = (uint8_t)('0' + ((unsigned)(f[i] - '0') + 1 + k) % 10); break;
    case '_': f[i] = width > 100 ? filled_byte() : not_blank(k); break;
    case 'f': fill_blank(f, width, way < sizeof fillers ? fillers + way : NULL); break;
    case 'g':
        fill_blank(f, width, k == 0 ? fillers : NULL);
        f[i] = filled_byte();
        break;
    default: put_on_page(f, w->values + way * width, width); break;
    }
}

/* ---- One rule ------------------------------------------------------------------------------- */

static const char kind_letters[] = "blcs";
static bool is_kind(char who) { return strchr(kind_letters, who) != NULL; }
static payment_kind kind_of(char who) { return (payment_kind)(strchr(kind_letters, who) - kind_letters); }
static size_t record_for(char who, size_t payment) { return who == 'Q' ? 0 : who == 'Z' ? payments + 1 : payment; }

/* A record such that each way to spoil it breaks the rule of its row and no other. */
static void fit_record(char who, uint8_t *r)
{
    if (who == 'l' || who == 'c')
        memcpy(r + 64, annex_ii + 2 * below(156), 2);
    if (who == 'b' || who == 'l')
        memset(r + 67, ' ', 140);
}

/* What is due of a file in which this record alone is spoiled. Record 1 has no other to differ from: there it is record 2
   that breaks rule 21. */
static verdict verdict_of(const row *w, size_t record)
{
    return broken_at((uint64_t)w->rule, w->rule == 21 && record == 1 ? 2 : record, w->first);
}

/* A sound file of which that payment is of the wanted kind; answers the number of the record to spoil. */
static size_t file_to_spoil(char who, size_t payment)
{
    static const payment_kind sets[4][3] = {
        {BIC_ALONE, CODE_AND_BANK, CHEQUE}, {CHEQUE, BIC_AND_COUNTRY, BIC_ALONE},
        {CODE_AND_BANK, CHEQUE, BIC_AND_COUNTRY}, {CODE_AND_BANK, CODE_AND_BANK, CHEQUE}};
    payment_kind kinds[3];
    memcpy(kinds, sets[below(4)], sizeof kinds);
    if (is_kind(who))
        kinds[payment - 1] = kind_of(who);
    random_file(is_kind(who) ? 3 : payment, kinds, 0);
    size_t record = record_for(who, payment);
    fit_record(who, record_of(record));
    return record;
}

static void spoil_and_judge(const row *w, size_t record, size_t way)
{
    uint8_t kept[768], *r = record_of(record);
    verdict told = verdict_of(w, record);
    memcpy(kept, r, 768);
    spoil(w, r, way);
    lend_draft();
    judge_each_way(told);
    another_call(way + record, told);
    memcpy(r, kept, 768);
}

static void one_rule_alone(const row *w, char who, size_t payment)
{
    size_t record = file_to_spoil(who, payment);
    for (size_t way = 0; way < ways(w); way++)
        spoil_and_judge(w, record, way);
}

void each_rule_alone(void)
{
    for (const row *w = rows; w < rows + ROWS; w++)
        for (const char *who = w->who; *who; who++)
            for (size_t payment = 1; payment <= 3; payment++)
                one_rule_alone(w, *who, payment);
}

void with_each_rule_broken(void (*then)(verdict told))
{
    for (const row *w = rows; w < rows + ROWS; w++)
        for (const char *who = w->who; *who; who++)
            for (size_t payment = 1; payment <= 3; payment++) {
                size_t record = file_to_spoil(*who, payment);
                spoil(w, record_of(record), below(ways(w)));
                then(verdict_of(w, record));
            }
}

/* Not by a non-digit in T14: that is another matter than the rest of rule 33. */
static size_t rows_to_return(unsigned rule, char who, const row *found[ROWS])
{
    size_t n = 0;
    for (const row *w = rows; w < rows + ROWS; w++)
        if (w->rule == (int)rule && strchr(w->who, who) && (rule != 33 || w->how != '9'))
            found[n++] = w;
    return n;
}

void fit_payment(size_t record, payment_kind kind) { fit_record(kind_letters[kind], record_of(record)); }

bool break_rule(unsigned rule, size_t record, payment_kind kind)
{
    const row *found[ROWS];
    size_t n = rows_to_return(rule, kind_letters[kind], found);
    if (n == 0)
        return false;
    const row *w = found[below(n)];
    spoil(w, record_of(record), below(ways(w)));
    return true;
}

void random_rule_alone(void)
{
    const row *w = &rows[below(ROWS)];
    char who = w->who[below(strlen(w->who))];
    size_t record = file_to_spoil(who, 1 + below(3));
    spoil_and_judge(w, record, below(ways(w)));
}

/* ---- Several fields of one rule ------------------------------------------------------------- */

/* The rows that break a rule in one kind of record, each by bytes of its own. Wrong amounts are in amounts.c. */
static unsigned rows_of(int rule, char who, const row *found[ROWS])
{
    unsigned n = 0;
    for (const row *w = rows; w < rows + ROWS; w++)
        if (w->rule == rule && rule != 33 && w->how != '=' && strchr(w->who, who))
            found[n++] = w;
    return n;
}

/* Spoils the rows whose bits are in the set. */
static void spoil_set(const row *const found[ROWS], unsigned set, char who, size_t payment)
{
    size_t record = file_to_spoil(who, payment);
    verdict told = {0, UINT64_MAX, 0};                  /* behind every other */
    for (unsigned i = 0; set >> i; i++)
        if (set >> i & 1) {
            spoil(found[i], record_of(record), below(ways(found[i])));
            told = first_of(told, verdict_of(found[i], record));
        }
    lend_draft();
    judge_each_way(told);
    another_call(set + payment, told);
}

static void each_set_of(int rule, char who)
{
    const row *found[ROWS];
    unsigned n = rows_of(rule, who, found);
    for (unsigned set = 1; n > 1 && set < 1u << n; set++)
        for (size_t turn = 0; turn < 12; turn++)
            spoil_set(found, set, who, 1 + turn % 3);
}

void each_set_of_fields(void)
{
    for (int rule = 10; rule <= 42; rule++)
        for (const char *who = "QblcsZ"; *who; who++)
            each_set_of(rule, *who);
}

/* ---- Two rules ------------------------------------------------------------------------------ */

/* Brings both changes of a record together; not where both are of one byte. */
static bool merge(uint8_t *r, const uint8_t *one, const uint8_t *other, size_t n)
{
    for (size_t i = 0; i < n; i++)
        if (one[i] != r[i] && other[i] != r[i])
            return false;
    for (size_t i = 0; i < n; i++)
        r[i] = one[i] != r[i] ? one[i] : other[i];
    return true;
}

static bool spoil_both(const row *v, size_t at_v, const row *w, size_t at_w)
{
    uint8_t one[768], other[768];
    if (at_v != at_w) {
        spoil(v, record_of(at_v), below(ways(v)));
        spoil(w, record_of(at_w), below(ways(w)));
        return true;
    }
    size_t n = at_v == 0 || at_v > payments ? 256 : 768;
    memcpy(one, record_of(at_v), n);
    memcpy(other, one, n);
    spoil(v, one, below(ways(v)));
    spoil(w, other, below(ways(w)));
    return merge(record_of(at_v), one, other, n);
}

/* Two rules broken at once: in one record where the rows allow it, or the second before or behind. */
static void pair_of_rules(const row *v, const row *w, size_t turn)
{
    char who_w = w->who[below(strlen(w->who))], who_v = v->who[below(strlen(v->who))];
    bool together = turn % 2 == 0 && strchr(v->who, who_w);
    size_t payment_v = together ? 2 : turn % 4 == 1 ? 1 : 3;
    if (together)
        who_v = who_w;
    payment_kind kinds[3] = {BIC_ALONE, BIC_ALONE, BIC_ALONE};
    if (is_kind(who_v)) kinds[payment_v - 1] = kind_of(who_v);
    if (is_kind(who_w)) kinds[1] = kind_of(who_w);
    random_file(3, kinds, 0);
    size_t at_v = record_for(who_v, payment_v), at_w = record_for(who_w, 2);
    fit_record(who_v, record_of(at_v));
    fit_record(who_w, record_of(at_w));
    if (!spoil_both(v, at_v, w, at_w))
        return;
    verdict told = first_of(verdict_of(v, at_v), verdict_of(w, at_w));
    lend_draft();
    judge_each_way(told);
    another_call(turn / 2, told);
}

/* Not two differences from record 1, which may be the same difference; nor two wrong amounts, of which it is not always
   the lower field that is told. */
static bool can_pair(const row *v, const row *w)
{
    return v->rule && w->rule && (v->rule != w->rule || (v->rule != 21 && v->rule != 33));
}

void each_pair_of_rules(void)
{
    for (const row *v = rows; v < rows + ROWS; v++)
        for (const row *w = rows; w <= v; w++)
            for (size_t turn = 0; turn < 8 && can_pair(v, w); turn++)
                pair_of_rules(v, w, turn);
}

void random_pair_of_rules(void)
{
    const row *v = &rows[below(ROWS)], *w = &rows[below(ROWS)];
    if (can_pair(v, w))
        pair_of_rules(v, w, below(8));
}

/* A random row on a random record of its kind; unfit records are spoiled as well. */
void break_rules_at_random(void)
{
    for (size_t k = one_in(2) ? 1 : 2 + below(3); k > 0; k--) {
        const row *w = &rows[below(ROWS)];
        uint8_t *r = record_of(record_for(*w->who, 1 + below(payments)));
        spoil(w, r, below(ways(w)));
    }
}
