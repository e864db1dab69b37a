/* Looks countries up in Annex II: by fields::listed behind a C call or, built with -DBY_JUDGE, by the judge, in T10a of a
   payment. Built by tests/search.
       search               nanoseconds a country: at the front, in the middle, at the end, all in turn, and one not there
       search WHICH TIMES   one of these, from 0 on, so many times 156 countries: for counting */
#include <stdbool.h>
#include <stdio.h>
#include <stdlib.h>

#include "desk.h"
#include "sample.h"
#include "timing.h"

enum { FRONT, MIDDLE, END, IN_TURN, ABSENT, COUNTRIES = ANNEX_II_BYTES / 2 };

/* In turn, countries that follow one another stand far apart in the list. */
static const char *country(int which, size_t i)
{
    switch (which) {
    case FRONT: return annex_ii;
    case MIDDLE: return annex_ii + COUNTRIES / 2 * 2;
    case END: return annex_ii + ANNEX_II_BYTES - 2;
    case IN_TURN: return annex_ii + i * 61 % COUNTRIES * 2;
    default: return "DE";
    }
}

#define ANNEX_II (const uint8_t *)annex_ii, ANNEX_II_BYTES
#if BY_JUDGE
enum { LAST = IN_TURN };                            /* the judge stops at a country that is not there */
static uint8_t file[256 + 768 * COUNTRIES + 256];

static void begin(int which)
{
    sample_q(file);
    for (size_t i = 0; i < COUNTRIES; i++)
        sample_t(file + 256 + 768 * i, BIC_ALONE, country(which, i), 1, 0);
    sample_z(file, COUNTRIES);
}

static bool as_due(int which)
{
    (void)which;
    return desk_judge(file, sizeof file, ANNEX_II, (const uint8_t *)annex_i, ANNEX_I_BYTES) == 0;
}
#else
enum { LAST = ABSENT };
bool search(const uint8_t *list, size_t n, uint8_t a, uint8_t b);

static void begin(int which) { (void)which; }

static bool as_due(int which)
{
    size_t found = 0;
    for (size_t i = 0; i < COUNTRIES; i++) {
        const char *c = country(which, i);
        found += search(ANNEX_II, (uint8_t)c[0], (uint8_t)c[1]);
    }
    return found == (which == ABSENT ? 0 : COUNTRIES);
}
#endif

static void look_up(int which, size_t times)
{
    while (times-- > 0)
        if (!as_due(which)) {
            fprintf(stderr, "not what is due of search %d\n", which);
            exit(2);
        }
}

int main(int argc, char **argv)
{
    if (argc == 3) {
        begin(atoi(argv[1]));
        look_up(atoi(argv[1]), strtoul(argv[2], NULL, 10));
        return 0;
    }
    for (int which = FRONT; which <= LAST; which++) {
        double best;
        begin(which);
        best_times(look_up, which, which, &best);
        printf(" %.1f", best * 1e9 / COUNTRIES);
    }
    printf("\n");
    return 0;
}
