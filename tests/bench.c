/* Judge, prepare and restore of the desk beside fast.c, made for speed, and plain.c, made for plainness; the default way of
   prepare beside the strict one; prepare with few note places beside one with enough; and the reader beside judge and count of
   the whole file. Built by tests/bench.
       bench PAYMENTS                             makes sure that all sides answer alike
       bench PAYMENTS CALL CHANGES                nanoseconds a payment, of each side
       bench PAYMENTS CALL CHANGES SIDE TIMES     one side, from 0 on, so many times: for counting
   CALL is judge, prepare (the strict way), restore, sort or return (the default way, where nothing or one payment in ten comes
   back), exact (prepare with note places for the notes alone), or cuts- and a number: the reader, in cuts of so many bytes.
   CHANGES is none or two, in a payment. */
#include <stdbool.h>
#include <stdio.h>
#include <stdlib.h>
#include <string.h>

#include "fast.h"
#include "desk.h"
#include "plain.h"
#include "sample.h"
#include "timing.h"

enum { JUDGE, PREPARE, RESTORE, SORT, RETURN, EXACT, READ };
enum { DESK, FAST, PLAIN, SIDES };
enum { BY_DEFAULT, STRICTLY };                              /* the sides of SORT and RETURN, both the desk's */
enum { IN_CUTS, WHOLE };                                    /* the sides of READ, likewise */
enum { FEW_PLACES, ENOUGH };                                /* and those of EXACT */
enum { NONE = 0, TWO = 200 };                               /* one byte of text in 200 changes: two in a payment */
enum { MOST_NOTES = DESK_NOTE_PLACES(MOST_FILE) };

static const char *const side_name[SIDES] = {"the desk", "fast.c", "plain.c"};
static const char *call_name;
static int call;
static size_t payments, n, notes_n, noted_n, cut_bytes;
static uint8_t file[MOST_FILE], forwarded[MOST_FILE], submitted[MOST_FILE], out[MOST_FILE];
static uint32_t notes[MOST_NOTES], noted[MOST_NOTES], returned[MOST_PAYMENTS];

#define LISTS (const uint8_t *)annex_ii, ANNEX_II_BYTES, (const uint8_t *)annex_i, ANNEX_I_BYTES
#define LENT LISTS, out, n, noted, DESK_NOTE_PLACES(n)

/* ---- The file ---- */

static uint64_t random_state;

/* xorshift64 */
static uint32_t chance(void)
{
    random_state ^= random_state << 13;
    random_state ^= random_state >> 7;
    random_state ^= random_state << 17;
    return (uint32_t)(random_state >> 32);
}

/* Capitals, small letters, digits, signs and spaces; one byte in changes is one that the table changes. */
static void put_text(uint8_t *at, int width, unsigned changes)
{
    static const char good[] = "ABCDEFGHIJKLMNOPQRSTUVWXYZ ETAOIN SHRDLU eta 0123456789 .,-/+% ";
    static const char bad[] = "&$[\\]~'=*!\";<>?:()@#_^`|{}\x80\xC4\xD6\xDC\xDF\xFC\xFF\x01\x7F";
    for (int i = 0; i < width; i++) {
        bool change = changes && chance() % changes == 0;
        at[i] = (uint8_t)(change ? bad[chance() % (sizeof bad - 1)] : good[chance() % (sizeof good - 1)]);
    }
}

/* Q5 but for its first line is text. */
static void put_q(uint8_t *q, unsigned changes)
{
    sample_q(q);
    put(q + 13, "0000000042" "BUNDESKASSE MUSTERSTADT");
    put_text(q + 58, 105, changes);
    put(q + 163, "240229" "01" "240301");
}

/* A transfer full of text; in a quarter of them a clearing code and the bank stand in the place of a BIC. */
static void put_t(uint8_t *t, const char *country, unsigned changes)
{
    uint64_t euros = chance() % 1000000;
    sample_t(t, BIC_ALONE, country, euros, 1 + chance() % 99);
    put(t + 5, "12345678" "EUR" "0123456789");
    put(t + 210, "X");
    put_text(t + 211, 139, changes);                                /* T10b */
    put(t + 420, "/1");
    put_text(t + 422, 33, changes);                                 /* T12 */
    put_text(t + 475, 140, changes);                                /* T15 */
    put_text(t + 623, 25, changes);                                 /* T20 */
    put_text(t + 652, 62, changes);                                 /* T23, T24 */
    t[649] = (uint8_t)('0' + chance() % 3);                         /* T21 */
    for (int i = 53; i < 59; i++)                                   /* T8 */
        t[i] = (uint8_t)('A' + chance() % 26);
    memcpy(t + 57, country, 2);
    if (chance() % 2)
        put(t + 61, "XXX");
    if (chance() % 4 == 0) {
        put(t + 53, "SC123456   ");
        memcpy(t + 64, country, 2);                                 /* T9a */
        put(t + 67, "B");
        put_text(t + 68, 139, changes);                             /* T9b */
    }
}

/* The file, with its forwarded file and its notes, and the submitted one of which one payment in ten comes back. */
static void make_files(unsigned changes)
{
    random_state = 88172645463325252u;
    put_q(file, changes);
    for (size_t i = 0; i < payments; i++)
        put_t(file + 256 + 768 * i, annex_ii + 2 * i % ANNEX_II_BYTES, changes);
    sample_z(file, payments);
    notes_n = plain_prepare_strict(DESK_DIN_66003, file, n, LISTS, forwarded, n, notes, MOST_NOTES).notes;
    memcpy(submitted, file, n);
    for (size_t i = 9; i < payments; i += 10)
        put(submitted + 256 + 768 * i + 455, "USD");                /* T13: rule 32 */
}

/* ---- The calls ---- */

static uint64_t judge(int side)
{
    switch (side) {
    case DESK: return desk_judge(file, n, LISTS);
    case FAST: return fast_judge(file, n, LISTS);
    default: return plain_judge(file, n, LISTS);
    }
}

static uint64_t prepare(int side)
{
    if (side == FAST) {
        fast_prepared answer = fast_prepare(file, n, LENT);
        noted_n = answer.notes;
        return answer.number;
    }
    if (side == PLAIN) {
        plain_strict answer = plain_prepare_strict(DESK_DIN_66003, file, n, LENT);
        noted_n = answer.notes;
        return answer.number;
    }
    desk_strict answer = desk_prepare_strict(DESK_DIN_66003, file, n, LENT);
    noted_n = answer.notes;
    return answer.number;
}

static uint64_t restore(int side)
{
    switch (side) {
    case DESK: return desk_restore(DESK_DIN_66003, forwarded, n, notes, notes_n, LISTS, out, n).number;
    case FAST: return fast_restore(forwarded, n, notes, notes_n, LISTS, out, n).number;
    default: return plain_restore(DESK_DIN_66003, forwarded, n, notes, notes_n, LISTS, out, n).number;
    }
}

/* The desk's, with no more note places than there are notes: the changes have to be counted before anything is written. */
static uint64_t prepare_with_few_places(void)
{
    desk_strict answer = desk_prepare_strict(DESK_DIN_66003, file, n, LISTS, out, n, noted, notes_n);
    noted_n = answer.notes;
    return answer.number;
}

/* Whether so many payments come back, by the default way. */
static bool sort(const uint8_t *of, size_t due)
{
    desk_prepared answer = desk_prepare(DESK_DIN_66003, of, n, LENT, returned, MOST_PAYMENTS);
    noted_n = answer.notes;
    return answer.number == 0 && answer.returned == due;
}

/* The number of changes that the reader tells, fed in cuts. */
static uint64_t read_in_cuts(void)
{
#if __x86_64__
    desk_reader reader = desk_reader_new(DESK_DIN_66003);
    for (size_t at = 0; at < n; at += cut_bytes)
        reader = desk_reader_feed(reader, file + at, n - at < cut_bytes ? n - at : cut_bytes, LISTS);
    return desk_reader_end(reader, NULL, 0).answer.changes;
#else
    return UINT64_MAX;      /* a reader is handed in as a value, which C does here in another way than the module expects it */
#endif
}

/* The same work over the whole file: without a note place, prepare judges and counts the changes, and is refused. */
static uint64_t judge_and_count(void)
{
    return desk_prepare_strict(DESK_DIN_66003, file, n, LISTS, out, n, noted, 0).number;
}

static bool as_due(int side)
{
    switch (call) {
    case JUDGE: return judge(side) == 0;
    case PREPARE: return prepare(side) == 0;
    case RESTORE: return restore(side) == 0;
    case SORT: return side == BY_DEFAULT ? sort(file, 0) : prepare(DESK) == 0;
    case RETURN: return side == BY_DEFAULT ? sort(submitted, payments / 10) : prepare(DESK) == 0;
    case EXACT: return side == FEW_PLACES ? prepare_with_few_places() == 0 : prepare(DESK) == 0;
    default: return side == IN_CUTS ? read_in_cuts() == notes_n : judge_and_count() == DESK_NOTE_ROOM;
    }
}

static void stop_unless(bool due, const char *what, const char *who)
{
    if (due)
        return;
    fprintf(stderr, "bench: %s of %zu payments: not what is due of %s\n", what, payments, who);
    exit(2);
}

static void repeat(int side, size_t times)
{
    while (times-- > 0)
        stop_unless(as_due(side), call_name, call < SORT ? side_name[side] : side_name[DESK]);
}

/* ---- Whether all sides answer alike ---- */

static bool went_on(void)
{
    return noted_n == notes_n && memcmp(noted, notes, notes_n * sizeof *notes) == 0 && memcmp(out, forwarded, n) == 0;
}

static void clear(void)
{
    memset(out, 0, sizeof out);
    memset(noted, 0, sizeof noted);
}

/* The default way of prepare: where nothing comes back as the strict way, else as plain.c has it. */
static void compare_default_way(void)
{
    static uint8_t out_due[MOST_FILE];
    static uint32_t notes_due[MOST_NOTES], returned_due[MOST_PAYMENTS];
    size_t back = payments / 10;
    clear();
    stop_unless(sort(file, 0) && went_on(), "the default way", side_name[DESK]);
    plain_prepared due = plain_prepare(DESK_DIN_66003, submitted, n, LISTS, out_due, n, notes_due, MOST_NOTES,
                                       returned_due, MOST_PAYMENTS);
    stop_unless(due.number == 0 && due.returned == back, "a return", side_name[PLAIN]);
    clear();
    stop_unless(sort(submitted, back) && noted_n == due.notes && memcmp(out, out_due, file_bytes(due.kept)) == 0
                    && memcmp(noted, notes_due, due.notes * sizeof *noted) == 0
                    && memcmp(returned, returned_due, back * sizeof *returned) == 0,
                "a return", side_name[DESK]);
}

static void compare(unsigned changes)
{
    make_files(changes);
    stop_unless((notes_n > 0) == (changes > 0), "the number of changes", side_name[PLAIN]);
    for (int side = 0; side < SIDES; side++) {
        clear();
        stop_unless(judge(side) == 0, "judge", side_name[side]);
        stop_unless(prepare(side) == 0 && went_on(), "prepare", side_name[side]);
        clear();
        stop_unless(restore(side) == 0 && memcmp(out, file, n) == 0, "restore", side_name[side]);
    }
    clear();
    stop_unless(prepare_with_few_places() == 0 && went_on(), "prepare with few note places", side_name[DESK]);
    compare_default_way();
}

static void print_times(void)
{
    double best[SIDES];
    int sides = call < SORT ? SIDES : 2;
    best_times(repeat, 0, sides - 1, best);
    for (int side = 0; side < sides; side++)
        printf("%.1f%c", best[side] * 1e9 / (double)payments, side < sides - 1 ? ' ' : '\n');
}

/* READ with no cut_bytes where there is no such call. */
static int call_named(const char *name)
{
    static const char *const names[READ] = {"judge", "prepare", "restore", "sort", "return", "exact"};
    for (int i = 0; i < READ; i++)
        if (strcmp(name, names[i]) == 0)
            return i;
    if (strncmp(name, "cuts-", 5) == 0)
        cut_bytes = strtoul(name + 5, NULL, 10);
    return READ;
}

int main(int argc, char **argv)
{
    payments = argc > 1 ? strtoul(argv[1], NULL, 10) : 0;
    if (payments < 1 || payments > MOST_PAYMENTS || argc == 3)
        return 2;
    n = file_bytes(payments);
    if (argc == 2) {
        compare(NONE);
        compare(TWO);
        return 0;
    }
    call_name = argv[2];
    call = call_named(call_name);
    if (call == READ && cut_bytes == 0)
        return 2;
    make_files(strcmp(argv[3], "two") == 0 ? TWO : NONE);
    if (argc == 6)
        repeat(atoi(argv[4]), strtoul(argv[5], NULL, 10));
    else
        print_times();
    return 0;
}
