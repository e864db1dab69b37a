/* Prepares a file by the strict way and by the default way, and files M8 records. Built by tests/ways.
       ways PAYMENTS WHICH          nanoseconds a payment, how many come back, and what was measured
       ways PAYMENTS WHICH TIMES    so many times: for counting */
#include <stdbool.h>
#include <stdio.h>
#include <stdlib.h>
#include <string.h>

#include "desk.h"
#include "sample.h"
#include "timing.h"

enum { STRICT, SOUND, TENTH, HALF, ALL_BUT_ONE, M8_SOUND, M8_HALF, LONGEST = 256 + 768 * 9999 + 256 };

static const char *const what[] = {"strict way, sound", "default way, sound", "default way, a tenth returned",
                                   "default way, half returned", "default way, all but one", "M8 records, sound",
                                   "M8 records, half returned"};
static uint8_t file[LONGEST], out[LONGEST], codes[DESK_M8_CODES];
static uint32_t notes[DESK_NOTE_PLACES(LONGEST)], returned[9999];
static size_t payments, bytes, back;
static int which;

static bool comes_back(size_t i)
{
    switch (which) {
    case TENTH: return i % 10 == 9;
    case HALF:
    case M8_HALF: return i % 2 == 1;
    case ALL_BUT_ONE: return i > 0;
    default: return false;
    }
}

/* Countries stand in turn, and nothing changes: what is measured is the way through the rules. */
static void begin(void)
{
    bytes = 256 + 768 * payments + 256;
    sample_q(file);
    for (size_t i = 0; i < payments; i++) {
        uint8_t *t = file + 256 + 768 * i;
        sample_t(t, BIC_ALONE, annex_ii + i * 61 % (ANNEX_II_BYTES / 2) * 2, 1, 0);
        if (comes_back(i)) {
            memcpy(t + 455, "USD", 3);                              /* T13: rule 32 */
            back++;
        }
    }
    sample_z(file, payments);
}

#define SUBMITTED file, bytes, (const uint8_t *)annex_ii, ANNEX_II_BYTES, (const uint8_t *)annex_i, ANNEX_I_BYTES
#define LENT SUBMITTED, out, bytes, notes, DESK_NOTE_PLACES(bytes)
#define LENT_CODES SUBMITTED, codes, sizeof codes, out, bytes

static bool as_due(void)
{
    if (which == STRICT)
        return desk_prepare_strict(DESK_DIN_66003, LENT).number == 0;
    if (which == M8_SOUND || which == M8_HALF) {
        desk_returns filed = desk_m8(DESK_DIN_66003, LENT_CODES);
        return filed.number == 0 && filed.count == back;
    }
    desk_prepared sorted = desk_prepare(DESK_DIN_66003, LENT, returned, 9999);
    return sorted.number == 0 && sorted.returned == back;
}

static void repeat(int unused, size_t times)
{
    (void)unused;
    while (times-- > 0)
        if (!as_due()) {
            fprintf(stderr, "not what is due of %s\n", what[which]);
            exit(2);
        }
}

int main(int argc, char **argv)
{
    if (argc < 3)
        return 2;
    payments = strtoul(argv[1], NULL, 10);
    which = atoi(argv[2]);
    begin();
    if (argc == 4) {
        repeat(which, strtoul(argv[3], NULL, 10));
        return 0;
    }
    double best;
    best_times(repeat, which, which, &best);
    printf("%.1f %zu %s\n", best * 1e9 / (double)payments, back, what[which]);
    return 0;
}
