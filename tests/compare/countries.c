/* The search of the country lists, request A4 of document 02: its answers stay as they are, "for any lent bytes and odd
   lengths". Every short length with the country at every place, between near misses and between any bytes, pairs that stand
   across two countries, lists of few letters, and long lists. */
#include <string.h>

#include "drafts.h"
#include "suites.h"

/* A payment whose country is looked up, in the list of its kind, and what is due where it is not there. */
typedef struct { payment_kind kind; unsigned rule; int at; } lookup;

static const lookup lookups[] = {{CODE_AND_BANK, 26, 64}, {BIC_ALONE, 28, 207}, {CHEQUE, 28, 207}};
enum { LOOKUPS = sizeof lookups / sizeof lookups[0], SHORT = 41 };

/* Any two bytes may be a country: one is listed where the list has it. */
static void judge_country(const lookup *l, const uint8_t *list, size_t n, const uint8_t country[2], bool there)
{
    bool cheque = l->kind == CHEQUE;
    payments = 1;
    draft_n = file_bytes(1);
    sample_q(draft);
    sample_t(record_of(1), l->kind, (const char *)country, 120, 50);
    sample_z(draft, 1);
    lend_draft();
    use_lists(cheque ? (const uint8_t *)annex_ii : list, cheque ? ANNEX_II_BYTES : n,
              cheque ? list : (const uint8_t *)annex_i, cheque ? n : ANNEX_I_BYTES);
    judge_by_turns(broken_at(there ? 0 : l->rule, 1, l->at));
}

static void look_up(const uint8_t *list, size_t n, const uint8_t country[2], bool there)
{
    for (size_t i = 0; i < LOOKUPS; i++)
        judge_country(&lookups[i], list, n, country, there);
}

/* ---- Every short length, every place ----------------------------------------------------------- */

enum { NEAR_MISSES = 11, ANY_BYTES = NEAR_MISSES, FILLERS = NEAR_MISSES + 4 };

/* Two bytes that are not a b, but near to it: the other way round, one bit of one byte, one byte twice, each byte one up or
   down. */
static void near_miss(uint8_t at[2], size_t way, uint8_t a, uint8_t b)
{
    const int near[NEAR_MISSES][2] = {{b, a}, {a, b ^ 1}, {a ^ 1, b}, {a, b ^ 0x80}, {a ^ 0x80, b}, {a, a}, {b, b},
        {a + 1, b + 1}, {a + 1, b - 1}, {a - 1, b + 1}, {a - 1, b - 1}};
    for (int i = 0; i < 2; i++)
        at[i] = (uint8_t)near[way % NEAR_MISSES][i];
}

static void random_pair(uint8_t at[2])
{
    for (int i = 0; i < 2; i++)
        at[i] = (uint8_t)any();
}

/* A list with the country from this byte on, as far as the list goes, between near misses or any bytes. */
static void list_with(uint8_t *list, size_t n, const uint8_t country[2], size_t place, size_t filler)
{
    uint8_t full[SHORT + 3];
    for (size_t i = 0; i < SHORT + 3; i += 2)
        if (filler < ANY_BYTES)
            near_miss(full + i, i / 2 + filler, country[0], country[1]);
        else
            random_pair(full + i);
    if (place < n)
        memcpy(full + place, country, 2);
    memcpy(list, full, n);
}

/* The country at every byte: there at an even one, if the list has its second byte too. At an odd one it stands across two
   countries, and of the last byte of an odd length there is no second one. The place n stands for a list without it. Any
   bytes may have the country by chance besides. */
static void each_place(const uint8_t country[2])
{
    uint8_t list[SHORT];
    for (size_t n = 0; n <= SHORT; n++)
        for (size_t place = 0; place <= n; place++)
            for (size_t filler = 0; filler < FILLERS; filler++) {
                bool there = place % 2 == 0 && place + 1 < n;
                list_with(list, n, country, place, filler);
                look_up(list, n, country, there || (filler >= ANY_BYTES && is_listed(list, n, country)));
            }
}

/* ---- Few letters: the country often stands there more than once, or across two countries --------- */

static void look_up_in_few_letters(size_t n)
{
    uint8_t list[SHORT], country[2];
    size_t letters = 2 + below(3);
    for (size_t i = 0; i < n; i++)
        list[i] = (uint8_t)('R' + below(letters));
    for (int i = 0; i < 2; i++)
        country[i] = (uint8_t)('R' + below(letters));
    look_up(list, n, country, is_listed(list, n, country));
}

/* ---- Long lists ------------------------------------------------------------------------------- */

/* Pairs of bytes in their order, the first n of them; the wanted one moved to a place, or taken out. */
static void lists_without(uint8_t *list, size_t n, const char *wanted, size_t place)
{
    for (size_t i = 0; i < n; i++) {
        list[2 * i] = (uint8_t)(i / 256);
        list[2 * i + 1] = (uint8_t)i;
        if (memcmp(list + 2 * i, wanted, 2) == 0)
            list[2 * i] ^= 0x80;
        if (i == place)
            memcpy(list + 2 * i, wanted, 2);
    }
}

static void each_long_list(void)
{
    static uint8_t list[131073];
    static const size_t counts[] = {1, 2, 3, 4, 5, 157, 600, 601, 602, 1023, 1024, 1025, 4097, 32768, 65535, 65536};
    for (size_t i = 0; i < sizeof counts / sizeof counts[0]; i++) {
        size_t n = counts[i];
        const size_t places[] = {0, 1, n / 2, n - 2, n - 1, n};
        for (size_t k = 0; k < 6; k++) {
            lists_without(list, n, "US", places[k]);
            list[2 * n] = 'U';                          /* a lone last byte, now and then */
            look_up(list, 2 * n + k % 2, (const uint8_t *)"US", places[k] < n);
        }
    }
}

/* The second country has a near miss, FF 00, that is the same number where a byte counts 255 and not 256. */
void each_country_list(void)
{
    static const uint8_t countries[2][2] = {{'U', 'S'}, {0, 1}};
    lend_taken(NULL, 0);
    for (int i = 0; i < 2; i++)
        each_place(countries[i]);
    for (size_t n = 0; n <= SHORT; n++)
        for (int k = 0; k < 40; k++)
            look_up_in_few_letters(n);
    each_long_list();
    use_annexes();
}

void random_country_list(void)
{
    uint8_t list[SHORT], country[2];
    size_t n = below(SHORT + 1), place = below(n + 1);
    random_pair(country);
    list_with(list, n, country, place, ANY_BYTES);
    look_up(list, n, country, is_listed(list, n, country));
    look_up_in_few_letters(n);
    use_annexes();
}
