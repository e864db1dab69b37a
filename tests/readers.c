/* What the comparison cannot ask of the desk's reader, for the other side has none: that a reader is a value, which may be
   copied and stored; that it counts on behind 4,294,967,296 bytes; and that one that no call gave back still answers, and
   answers the same when it is asked again. Its last line is 'N readers asked'. */
#include "desk.h"

#include <stdbool.h>
#include <stdio.h>
#include <stdlib.h>
#include <string.h>

#include "sample.h"

enum { WORDS = sizeof(desk_reader) / sizeof(uint64_t), FILE_N = 256 + 2 * 768 + 256 };
static uint8_t file[FILE_N];
static uint64_t state = 3;
static unsigned asked = 0;

static uint64_t below(uint64_t n) { return next_random(&state) % n; }

static void held(bool holds, const char *what)
{
    if (holds)
        return;
    printf("reader %u: %s\n", asked, what);
    exit(1);
}

static bool same(desk_answer a, desk_answer b) { return memcmp(&a, &b, sizeof a) == 0; }

static desk_reader fed(desk_reader reader, const uint8_t *bytes, size_t n)
{
    return desk_reader_feed(reader, bytes, n, (const uint8_t *)annex_ii, ANNEX_II_BYTES,
                            (const uint8_t *)annex_i, ANNEX_I_BYTES);
}

/* What the end answers. It is asked for three times: with another file's number, with this one's, and after a cut. */
static desk_answer ended(desk_reader reader)
{
    static const uint64_t another = 1224022908, this = 1224022907;
    asked++;
    desk_read first = desk_reader_end(reader, &another, 1), again = desk_reader_end(first.reader, &this, 1);
    held(same(first.answer, again.answer), "it answers another when it is asked again");
    again = desk_reader_end(fed(again.reader, file, FILE_N), &this, 1);
    held(same(first.answer, again.answer), "it answers another after a cut behind the end");
    return first.answer;
}

/* ---- Copies ----------------------------------------------------------------------------------- */

/* Asked for the end at each byte, the reader that was kept from before goes on as if nothing had been asked; and of two
   readers that take turns each has its own file. */
static void copies_are_their_own(void)
{
    const desk_answer sound = {.payments = 2, .euros = 199, .cents = 125, .changes = 1};
    desk_reader reader = desk_reader_new(DESK_DIN_66003), other = desk_reader_new(DESK_ISO_8859_1);
    for (size_t n = 0; n < FILE_N; n++) {
        held(ended(reader).number == DESK_CUT, "it is not told that the file is cut");
        reader = fed(reader, file + n, 1);
        other = fed(other, file + (n == 5 ? 6 : n), 1);
    }
    held(same(ended(reader), sound), "it is not told that the file is sound");
    held(same(ended(other), (desk_answer){.number = DESK_Q3, .at = 5}), "it is not told that Q3 is wrong");
    held(same(ended(reader), sound), "it does not answer as before");
}

/* ---- More bytes than 32 bits count ------------------------------------------------------------- */

/* A sound file, and as many bytes behind it as make a count of 32 bits begin anew. */
static void bytes_are_counted_on(void)
{
    static uint8_t zeros[1 << 24];
    desk_reader reader = fed(desk_reader_new(DESK_DIN_66003), file, FILE_N);
    for (uint64_t n = 0; n < (uint64_t)1 << 32; n += sizeof zeros)
        reader = fed(reader, zeros, sizeof zeros);
    held(same(ended(reader), (desk_answer){.number = DESK_TOO_LONG}), "it is not told that the file is too long");
}

/* ---- Readers that no call gave back ------------------------------------------------------------- */

/* Any words, of any width; half of them are 0. */
static void forged_altogether(void)
{
    desk_reader reader;
    for (size_t i = 0; i < WORDS; i++)
        reader.own[i] = below(2) ? 0 : next_random(&state) >> below(64);
    ended(reader);
    ended(fed(reader, file, below(FILE_N)));
}

/* A reader that has got some of the file, or is at its end, with one word changed. */
static void forged_in_one_word(void)
{
    static const uint64_t words[] = {0, 1, 2, 255, 256, 768, 9999, 10000, 7679744, 7679745, UINT32_MAX, UINT64_MAX};
    size_t n = below(FILE_N + 1);
    desk_reader reader = fed(desk_reader_new((uint32_t)below(3)), file, n);
    if (below(4) == 0)
        reader = desk_reader_end(reader, &state, 0).reader;
    uint64_t *word = &reader.own[below(WORDS)];
    *word = below(2) ? words[below(sizeof words / sizeof words[0])] : *word ^ (uint64_t)1 << below(64);
    ended(reader);
    ended(fed(reader, file + n, FILE_N - n));
}

int main(void)
{
    sample_q(file);
    sample_t(file + 256, BIC_ALONE, "US", 120, 50);
    sample_t(file + 256 + 768, CHEQUE, "US", 79, 75);
    file[256 + 768 + 211] = '&';
    sample_z(file, 2);
    copies_are_their_own();
    bytes_are_counted_on();
    for (int i = 0; i < 20000; i++)
        forged_altogether();
    for (int i = 0; i < 100000; i++)
        forged_in_one_word();
    printf("%u readers asked\n", asked);
    return 0;
}
