#include "drafts.h"

#include <string.h>

/* ---- Lists ---------------------------------------------------------------------------------- */

typedef struct { uint8_t bytes[SPARE]; size_t n; } country_list;
static country_list transfers, cheques;
static bool wrong_countries = false;

void want_wrong_countries(bool wanted) { wrong_countries = wanted; }

void use_lists(const void *transfer, size_t nt, const void *cheque, size_t nc)
{
    memcpy(transfers.bytes, transfer, transfers.n = nt);
    memcpy(cheques.bytes, cheque, cheques.n = nc);
    lend(TRANSFER, transfer, nt);
    lend(CHEQUE_LIST, cheque, nc);
}

void use_annexes(void) { use_lists(annex_ii, ANNEX_II_BYTES, annex_i, ANNEX_I_BYTES); }

static size_t random_list(uint8_t *list)
{
    size_t n = one_in(8) ? below(3) : one_in(8) ? below(4000) : below(40);
    bool capitals = one_in(2);
    for (size_t i = 0; i < n; i++)
        list[i] = capitals ? (uint8_t)('A' + below(26)) : (uint8_t)any();
    if (n >= 2 && one_in(4))
        memset(list + below(n / 2) * 2, ' ', 2);        /* two spaces as a country */
    return n;
}

void use_random_lists(void)
{
    uint8_t t[4000], c[4000];
    size_t nt = random_list(t), nc = random_list(c);
    use_lists(t, nt, c, nc);
}

void lend_taken(const uint64_t *numbers, size_t n) { lend(TAKEN, numbers, 8 * n); }

/* A country of the list; if wrong ones are wanted, now and then a pair across two countries, or one of the lone last
   byte. Answers whether it is surely listed. */
static bool pick_country(uint8_t *at, const country_list *list)
{
    size_t n = list->n;
    if (n >= 2)
        memcpy(at, list->bytes + below(n / 2) * 2, 2);
    if (!wrong_countries)
        return n >= 2;
    if (n >= 4 && one_in(60))
        memcpy(at, list->bytes + below(n / 2 - 1) * 2 + 1, 2);
    if (n % 2 && one_in(30)) {
        at[0] = list->bytes[n - 1];
        at[1] = one_in(2) ? list->bytes[n - 1] : (uint8_t)any();
    }
    return false;
}

/* ---- Characters ---------------------------------------------------------------------------- */

uint8_t on_page(uint8_t b)
{
    for (int i = 0; i < 4 && code_page() == 1; i++)
        for (int page = 0; page < PAGES; page++)
            if (b == (uint8_t)german[page][i])
                return (uint8_t)german[1 - page][i];
    return b;
}

void put_on_page(uint8_t *at, const char *text, size_t n)
{
    for (size_t i = 0; i < n; i++)
        at[i] = on_page((uint8_t)text[i]);
}

uint8_t not_blank(size_t i)
{
    static const char all[] = "ABCDEFGHIJKLMNOPQRSTUVWXYZabcdefghijklmnopqrstuvwxyz0123456789.,-/+%&$[\\]~";
    _Static_assert(sizeof all == NOT_BLANK + 1, "the characters that do not become spaces");
    return on_page((uint8_t)all[i]);
}

uint8_t filled_byte(void) { return not_blank(below(NOT_BLANK)); }

uint8_t blank_byte(void)
{
    static const char common[] = " =' @^_`{|}!\"#()*:;<>?\x7f\x80\xc4\xe4\xff";
    for (;;) {
        uint8_t b = one_in(2) ? on_page((uint8_t)common[below(sizeof common)]) : (uint8_t)any();
        if (becomes(code_page(), b) == ' ')
            return b;
    }
}

uint8_t changed_into(uint8_t r)
{
    uint8_t b = r;
    switch (r) {
    case ' ':
        while (b == ' ')
            b = blank_byte();
        return b;
    case '+': return '&';
    case 'S': return one_in(2) ? '$' : on_page('~');
    case 'A': return on_page('[');
    case 'O': return on_page('\\');
    case 'U': return on_page(']');
    default:  return r;
    }
}

static void random_digits(uint8_t *at, size_t n)
{
    while (n-- > 0)
        *at++ = (uint8_t)('0' + below(10));
}

static uint8_t random_character(int mode)
{
    static const char mixed[] = "AEIOUS   abc012.,-/+%&$'[\\]~=@{|}!?\xc4\xd6\xdc\xdf\xe4\x80\xff";
    switch (mode) {
    case 0: return (uint8_t)(one_in(4) ? ' ' : 'A' + below(26));
    case 1: return (uint8_t)mixed[below(sizeof mixed)];
    case 2: return (uint8_t)any();
    default: return blank_byte();
    }
}

static void random_text(uint8_t *r, int field, int mode)
{
    for (int i = text_field[field].first; i <= text_field[field].last; i++)
        r[i] = random_character(mode);
}

/* At one place of n, the first and the last more often than others. */
static void put_one(uint8_t *at, size_t n, uint8_t b) { at[one_in(3) ? 0 : one_in(3) ? n - 1 : below(n)] = b; }
static void fill_one(uint8_t *at, size_t n) { put_one(at, n, filled_byte()); }

/* ---- The draft ----------------------------------------------------------------------------- */

uint8_t draft[MOST_FED];
size_t draft_n, payments;

uint8_t *record_of(size_t r) { return draft + (r == 0 ? 0 : 256 + (r - 1) * 768); }
void lend_draft(void) { lend(FILE_IN, draft, draft_n); }

void spoil_any_byte(void)
{
    uint8_t b = (uint8_t)any();
    if (draft_n)
        draft[below(draft_n)] = b;
}

uint64_t file_number(void)
{
    uint64_t number = 0;
    for (int i = 13; i <= 22; i++) number = number * 10 + (uint64_t)(draft[i] - '0');
    for (int i = 163; i <= 170; i++) number = number * 10 + (uint64_t)(draft[i] - '0');
    return number;
}

static uint8_t bic_character(bool digits_too)
{
    if (one_in(12))
        return on_page((uint8_t)"$[\\]~"[below(5)]);
    return (uint8_t)(digits_too && one_in(3) ? '0' + below(10) : 'A' + below(26));
}

static void random_bic(uint8_t *at)
{
    bool branch = one_in(2);
    for (int i = 0; i < 11; i++)
        at[i] = i < 8 ? bic_character(i >= 6) : branch ? bic_character(true) : one_in(4) ? blank_byte() : ' ';
}

/* T8, T9a, T9b; whether T9a is surely right. */
static bool random_bank(uint8_t *t, payment_kind kind, int mode)
{
    bool good = true;
    random_text(t, 2, kind == CHEQUE || one_in(3) ? 3 : mode);
    random_text(t, 3, kind == CHEQUE || one_in(3) ? 3 : mode);
    switch (kind) {
    case BIC_ALONE: random_bic(t + 53); break;
    case BIC_AND_COUNTRY:
        random_bic(t + 53);
        t[64] = (uint8_t)('A' + below(26));
        t[65] = (uint8_t)('A' + below(26));
        break;
    case CODE_AND_BANK:
        put_one(t + 53, 6, one_in(2) ? (uint8_t)('0' + below(10)) : blank_byte());      /* no BIC shape */
        good = pick_country(t + 64, &transfers);
        fill_one(t + 67, 140);
        break;
    case CHEQUE: break;
    }
    return good;
}

/* T10a, T10b, T12; whether T10a is surely right. */
static bool random_payee(uint8_t *t, payment_kind kind, int mode)
{
    random_text(t, 4, mode);
    for (int line = 0; line < 4; line++)
        if (line == 0 || (kind == CHEQUE && line >= 2))
            fill_one(t + 210 + 35 * line, 35);
    random_text(t, 5, kind == CHEQUE ? 3 : mode);
    if (kind != CHEQUE) {
        t[420] = '/';
        t[421] = filled_byte();
    }
    return pick_country(t + 207, kind == CHEQUE ? &cheques : &transfers);
}

static bool random_payment(uint8_t *t, payment_kind kind, int mode)
{
    uint64_t most = payments < 10 ? 100000000000000u : 10000000000000u;      /* Z3 has 15 digits */
    uint64_t euros = below(one_in(3) ? most : one_in(3) ? 100u : 1000000u);
    sample_t(t, kind, "ZZ", euros, (unsigned)below(100));
    if (euros == 0 && memcmp(t + 472, "00", 2) == 0)
        t[473] = '1';
    memcpy(t + 5, draft + 256 + 5, 21);                 /* T3 to T4b as in record 1 */
    bool bank_good = random_bank(t, kind, mode), payee_good = random_payee(t, kind, mode);
    for (int f = 6; f <= 9; f++)
        random_text(t, f, one_in(4) ? 3 : mode);
    random_digits(t + 615, 8);
    random_digits(t + 714, 1);
    if (kind != CHEQUE)
        t[649] = (uint8_t)('0' + below(3));
    else
        t[651] = one_in(2) ? '2' : '0';
    return bank_good && payee_good;
}

static void random_date(uint8_t *at)
{
    unsigned year = (unsigned)below(100), month = 1 + (unsigned)below(12), day = 31;
    while (!has_day(year, month, day))
        day--;
    put_number(at, 2, year);
    put_number(at + 2, 2, month);
    put_number(at + 4, 2, one_in(3) ? day : 1 + below(day));
}

static void random_q(uint8_t *q, int mode)
{
    sample_q(q);
    random_digits(q + 21, 2);
    random_text(q, 1, mode);
    fill_one(q + 23, 35);
    random_date(q + 163);
    random_digits(q + 169, 8);
    random_digits(q + 178, 10);
}

bool random_file(size_t count, const payment_kind *kinds, int mode)
{
    bool sound = true;
    payments = count;
    draft_n = file_bytes(count);
    random_q(draft, mode);
    random_digits(draft + 256 + 5, 8);
    memcpy(draft + 256 + 13, "EUR", 3);
    random_digits(draft + 256 + 16, 10);
    for (size_t r = 1; r <= count; r++)
        sound &= random_payment(record_of(r), kinds ? kinds[r - 1] : (payment_kind)below(4), mode);
    sample_z(draft, count);
    return sound;
}

void three_samples(void)
{
    payments = 3;
    draft_n = file_bytes(3);
    sample_q(draft);
    sample_t(record_of(1), BIC_ALONE, "US", 120, 50);
    sample_t(record_of(2), BIC_ALONE, "US", 79, 75);
    sample_t(record_of(3), CHEQUE, "US", 1000, 0);
    sample_z(draft, 3);
}

void put_new_bytes(const new_bytes *each, size_t most)
{
    for (const new_bytes *o = each; o < each + most && o->bytes; o++)
        put(record_of(o->record) + o->at, o->bytes);
}

void draft_of_the_largest_sum(unsigned more)
{
    payments = 11;
    draft_n = file_bytes(11);
    sample_q(draft);
    for (size_t r = 1; r <= 11; r++)
        sample_t(record_of(r), CHEQUE, "US", r < 11 ? 99999999999999u : 9u + more, 99);
    sample_z(draft, 11);
}

payment_kind kind_in_long_draft(size_t record) { return (payment_kind)(record % 4); }

void long_draft(size_t count)
{
    payments = count;
    draft_n = file_bytes(count);
    sample_q(draft);
    for (size_t r = 1; r <= payments; r++)
        sample_t(record_of(r), kind_in_long_draft(r), "US", r, r % 100);
    memcpy(record_of(1) + 475, "'", 1);
    memcpy(record_of(payments) + 679, "'&", 2);
    record_of(payments)[713] = 0xFF;
    sample_z(draft, payments);
}
