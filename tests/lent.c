/* What the header says of lent memory, asked of the library: that a pointer may be null where its count is 0; that the rooms
   of its macros are sufficient, and no larger than it says; and that threads may call at the same time. Its last line is
   'N calls answered as the header says'. */
#include "desk.h"

#include <pthread.h>
#include <stdatomic.h>
#include <stdbool.h>
#include <stdio.h>
#include <stdlib.h>
#include <string.h>

#include "sample.h"

enum { Q = 256, T = 768 };
static atomic_uint asked = 0;

static void held(bool holds, const char *call, const char *what)
{
    if (holds)
        return;
    printf("%s: %s\n", call, what);
    exit(1);
}

/* ---- Calls by what they are lent ----------------------------------------------------------------- */

/* What is lent for reading, and then for writing. */
enum { THE_FILE, FORWARDED, TRANSFERS, CHEQUES, TAKEN, CODES, ITS_NOTES, OUT, NOTES, RETURNED, KINDS };
typedef struct { void *at; size_t count; } memory;
typedef struct { uint32_t page; memory by[KINDS]; } lending;

/* What a call leaves: its answer, and all that it was lent for writing. */
enum { PAYMENTS = 40, BYTES = Q + PAYMENTS * T + 256 };
typedef struct {
    uint64_t answer[8];
    uint8_t out[DESK_OUTPUT_BYTES(BYTES)];
    uint32_t notes[DESK_NOTE_PLACES(BYTES)], returned[DESK_RETURNED_PLACES(BYTES)];
} outcome;

#define BYTES_OF(kind) (uint8_t *)lent->by[kind].at, lent->by[kind].count
#define NOTES_OF(kind) (uint32_t *)lent->by[kind].at, lent->by[kind].count
#define NUMBERS_OF(kind) (uint64_t *)lent->by[kind].at, lent->by[kind].count
#define LISTS BYTES_OF(TRANSFERS), BYTES_OF(CHEQUES)
#define FILE_AND_LISTS lent->page, BYTES_OF(THE_FILE), LISTS
#define ANSWERED(type, call) { type found = call; memcpy(answer, &found, sizeof found); }

static void judge(const lending *lent, uint64_t *answer) { *answer = desk_judge(BYTES_OF(THE_FILE), LISTS); }

static void judge_full(const lending *lent, uint64_t *answer)
    ANSWERED(desk_judgement, desk_judge_full(FILE_AND_LISTS, NUMBERS_OF(TAKEN)))

static void prepare(const lending *lent, uint64_t *answer)
    ANSWERED(desk_prepared, desk_prepare(FILE_AND_LISTS, BYTES_OF(OUT), NOTES_OF(NOTES), NOTES_OF(RETURNED)))

static void strict(const lending *lent, uint64_t *answer)
    ANSWERED(desk_strict, desk_prepare_strict(FILE_AND_LISTS, BYTES_OF(OUT), NOTES_OF(NOTES)))

static void m8(const lending *lent, uint64_t *answer)
    ANSWERED(desk_returns, desk_m8(FILE_AND_LISTS, BYTES_OF(CODES), BYTES_OF(OUT)))

static void restore(const lending *lent, uint64_t *answer)
    ANSWERED(desk_restored, desk_restore(lent->page, BYTES_OF(FORWARDED), NOTES_OF(ITS_NOTES), LISTS, BYTES_OF(OUT)))

static void show(const lending *lent, uint64_t *answer)
    ANSWERED(desk_part, desk_show(BYTES_OF(THE_FILE), PAYMENTS, 4))

/* The file in two cuts, of which the second is empty. */
static void read_in_cuts(const lending *lent, uint64_t *answer)
{
    desk_reader reader = desk_reader_feed(desk_reader_new(lent->page), BYTES_OF(THE_FILE), LISTS);
    reader = desk_reader_feed(reader, lent->by[THE_FILE].at, 0, LISTS);
    desk_answer found = desk_reader_end(reader, NUMBERS_OF(TAKEN)).answer;
    memcpy(answer, &found, sizeof found);
}

/* The calls and texts that are lent nothing but a text: a book with the file's number, written and read back; a line. */
static void book_and_texts(const lending *lent, uint64_t *answer)
{
    uint8_t text[DESK_BOOK_BYTES];
    char message[DESK_BOOK_MESSAGE], line[DESK_LINE];
    uint64_t number = 7;
    answer[0] = desk_file_number(BYTES_OF(THE_FILE), &number);
    desk_taken taken = desk_book_take(desk_book_new(), number, 7, 2, 199);
    size_t bytes = desk_book_write(&taken.book, text);
    answer[1] = desk_crc_32(text, bytes);
    answer[2] = desk_book_read(text, lent->by[THE_FILE].count ? bytes : 0, &taken.book, message);
    desk_totals totals = desk_book_totals(taken.book);
    answer[3] = totals.euros;
    desk_refusal_line(line, DESK_T10A, 2, 207);
    answer[4] = desk_crc_32((const uint8_t *)line, strlen(line));
    answer[5] = desk_crc_32(BYTES_OF(THE_FILE));
    answer[6] = desk_book_read(lent->by[THE_FILE].at, 0, &taken.book, message);
    answer[7] = desk_crc_32((const uint8_t *)message, strlen(message));
}

/* Each with what it is lent, a bit for each kind. */
#define BIT(kind) (1u << (kind))
#define LISTED (BIT(TRANSFERS) | BIT(CHEQUES))
typedef struct { const char *name; void (*make)(const lending *, uint64_t *); unsigned lent; } call;
static const call calls[] = {
    {"desk_judge", judge, BIT(THE_FILE) | LISTED},
    {"desk_judge_full", judge_full, BIT(THE_FILE) | LISTED | BIT(TAKEN)},
    {"desk_reader", read_in_cuts, BIT(THE_FILE) | LISTED | BIT(TAKEN)},
    {"desk_prepare", prepare, BIT(THE_FILE) | LISTED | BIT(OUT) | BIT(NOTES) | BIT(RETURNED)},
    {"desk_prepare_strict", strict, BIT(THE_FILE) | LISTED | BIT(OUT) | BIT(NOTES)},
    {"desk_m8", m8, BIT(THE_FILE) | LISTED | BIT(CODES) | BIT(OUT)},
    {"desk_restore", restore, BIT(FORWARDED) | BIT(ITS_NOTES) | LISTED | BIT(OUT)},
    {"desk_show", show, BIT(THE_FILE)},
    {"book and texts", book_and_texts, BIT(THE_FILE)},
};
enum { CALLS = sizeof calls / sizeof calls[0] };

/* Makes a call, with memory of its own for writing where that has room. */
static void make(const call *call, const lending *lent, outcome *left)
{
    lending own = *lent;
    memset(left, 0xAA, sizeof *left);
    if (own.by[OUT].count)
        own.by[OUT].at = left->out;
    if (own.by[NOTES].count)
        own.by[NOTES].at = left->notes;
    if (own.by[RETURNED].count)
        own.by[RETURNED].at = left->returned;
    call->make(&own, left->answer);
    asked++;
}

/* ---- Files --------------------------------------------------------------------------------------- */

/* Fills each text field of a record with a byte that changes, so that all of them do but the first of a transfer's account. */
static void change_all(uint8_t *file, size_t n, uint64_t record, bool is_cheque, uint8_t umlaut)
{
    for (uint64_t field = 1; field <= 9; field++) {
        desk_part part = desk_show(file, n, record, field);
        bool blank_in_cheque = field == 2 || field == 3 || field == 5; /* T8, T9b and T12 */
        memset(file + part.start, is_cheque && blank_in_cheque ? '=' : umlaut, part.length);
        if (field == 5 && part.length && !is_cheque)
            file[part.start] = '/';
    }
}

/* Payments of one kind, in whose texts all characters change that can. */
static size_t changed_file(uint8_t *file, size_t payments, payment_kind kind, uint8_t umlaut)
{
    sample_q(file);
    sample_t(file + Q, kind, "US", 120, 50);
    sample_z(file, 1);
    change_all(file, file_bytes(1), 0, false, umlaut);
    change_all(file, file_bytes(1), 1, kind == CHEQUE, umlaut);
    for (size_t i = 1; i < payments; i++)
        memcpy(file + Q + i * T, file + Q, T);
    sample_z(file, payments);
    return file_bytes(payments);
}

/* Lets all payments but the last come back: their currency is another. */
static void return_all_but_one(uint8_t *file, size_t payments)
{
    for (size_t i = 0; i + 1 < payments; i++)
        put(file + Q + i * T + 455, "USD");
}

/* ---- Null ---------------------------------------------------------------------------------------- */

/* Whatever is lent with a count of 0, alone or together: with null the call does as with memory. */
static void null_is_nothing(const call *call, const lending *whole)
{
    static uint64_t memory_of_nothing[1];
    static outcome with_memory, with_null;
    for (unsigned empty = call->lent; empty; empty = (empty - 1) & call->lent) {
        lending memory_lent = *whole, null_lent = *whole;
        for (int kind = 0; kind < KINDS; kind++)
            if (empty & BIT(kind)) {
                memory_lent.by[kind] = (memory){memory_of_nothing, 0};
                null_lent.by[kind] = (memory){NULL, 0};
            }
        make(call, &memory_lent, &with_memory);
        make(call, &null_lent, &with_null);
        held(memcmp(&with_memory, &with_null, sizeof with_null) == 0, call->name, "null does another thing than no bytes");
        held(memory_of_nothing[0] == 0, call->name, "it writes where nothing is lent");
    }
}

/* ---- Threads ------------------------------------------------------------------------------------- */

/* What threads share: what is lent for reading, and what each call left before there were threads. */
typedef struct { lending lent; outcome left[CALLS]; } work;

static void *do_again(void *of)
{
    const work *shared = of;
    outcome *own = malloc(sizeof *own);
    held(own, "malloc", "no memory left");
    for (int turn = 0; turn < 50; turn++)
        for (int i = 0; i < CALLS; i++) {
            make(&calls[i], &shared->lent, own);
            held(memcmp(own, &shared->left[i], sizeof *own) == 0, calls[i].name, "in a thread it does another thing");
        }
    free(own);
    return NULL;
}

static void in_threads(work *shared)
{
    enum { THREADS = 8 };
    pthread_t threads[THREADS];
    for (int i = 0; i < CALLS; i++)
        make(&calls[i], &shared->lent, &shared->left[i]);
    for (int i = 0; i < THREADS; i++)
        held(pthread_create(&threads[i], NULL, do_again, shared) == 0, "pthread_create", "no thread");
    for (int i = 0; i < THREADS; i++)
        pthread_join(threads[i], NULL);
}

/* ---- Both, over a file of which all goes on, and one of which one payment does --------------------- */

static void over_files(uint32_t page, bool some_come_back)
{
    static uint8_t file[BYTES], forwarded[BYTES];
    static uint32_t notes[DESK_NOTE_PLACES(BYTES)];
    static work shared;
    static uint64_t taken[] = {1, 2, 3};
    changed_file(file, PAYMENTS, CHEQUE, page ? 0xC4 : 0x5B);
    desk_strict sent = desk_prepare_strict(page, file, BYTES, DESK_ANNEXES, forwarded, BYTES, notes, DESK_NOTE_PLACES(BYTES));
    held(sent.number == DESK_SOUND, "desk_prepare_strict", "the file does not go on");
    if (some_come_back)
        return_all_but_one(file, PAYMENTS);
    lending lent = {page, {
        [THE_FILE] = {file, BYTES}, [FORWARDED] = {forwarded, BYTES}, [ITS_NOTES] = {notes, sent.notes},
        [TRANSFERS] = {(uint8_t *)desk_transfer_countries, DESK_TRANSFER_BYTES},
        [CHEQUES] = {(uint8_t *)desk_cheque_countries, DESK_CHEQUE_BYTES},
        [TAKEN] = {taken, 3}, [CODES] = {(uint8_t *)desk_m8_codes, DESK_M8_CODES},
        [OUT] = {NULL, BYTES}, [NOTES] = {NULL, DESK_NOTE_PLACES(BYTES)}, [RETURNED] = {NULL, DESK_RETURNED_PLACES(BYTES)},
    }};
    for (int i = 0; i < CALLS; i++)
        null_is_nothing(&calls[i], &lent);
    shared.lent = lent;
    in_threads(&shared);
    held(shared.left[3].answer[0] == DESK_SOUND && shared.left[6].answer[0] == DESK_SOUND, "desk_prepare, desk_restore",
         "not all was written");
}

/* ---- Rooms --------------------------------------------------------------------------------------- */

static uint8_t most[DESK_MOST_BYTES + T], out[DESK_OUTPUT_BYTES(DESK_MOST_BYTES)], back[DESK_RESTORED_BYTES(DESK_MOST_BYTES)];
static uint8_t records[DESK_M8_BYTES(DESK_MOST_BYTES)];
static uint32_t notes[DESK_NOTE_PLACES(DESK_MOST_BYTES)], returned[DESK_RETURNED_PLACES(DESK_MOST_BYTES)];

/* Prepares a file of n bytes both ways, with such rooms, and answers the number. */
static uint64_t prepared_with(size_t n, size_t out_n, size_t notes_n, size_t due)
{
    desk_prepared sent = desk_prepare(DESK_ISO_8859_1, most, n, DESK_ANNEXES, out, out_n, notes, notes_n,
                                      returned, DESK_RETURNED_PLACES(n));
    desk_strict whole = desk_prepare_strict(DESK_ISO_8859_1, most, n, DESK_ANNEXES, out, out_n, notes, notes_n);
    asked += 2;
    held(sent.number == whole.number && sent.notes == whole.notes, "desk_prepare", "both ways differ");
    held(sent.number || sent.notes == due, "desk_prepare", "not as many notes as there are characters that change");
    return sent.number;
}

/* Restores what was prepared, into so many bytes. */
static uint64_t restored_with(size_t n, size_t notes_n, size_t out_n)
{
    asked++;
    return desk_restore(DESK_ISO_8859_1, out, n, notes, notes_n, DESK_ANNEXES, back, out_n).number;
}

/* Every character changes that can: output and notes fit into the rooms, and not into smaller ones. */
static void rooms_of_changes(size_t payments, payment_kind kind)
{
    size_t n = changed_file(most, payments, kind, 0xC4), places = DESK_NOTE_PLACES(n);
    size_t due = kind == CHEQUE ? places : places - payments;
    size_t bytes = DESK_OUTPUT_BYTES(n);
    held(prepared_with(n, bytes, due - 1, 0) == DESK_NOTE_ROOM, "desk_prepare", "one place fewer is enough");
    held(prepared_with(n, bytes - 1, places, 0) == DESK_OUTPUT_ROOM, "desk_prepare", "one byte fewer is enough");
    held(prepared_with(n, bytes, places, due) == DESK_SOUND, "desk_prepare", "the rooms are not sufficient");
    held(restored_with(n, due, DESK_RESTORED_BYTES(n) - 1) == DESK_OUTPUT_ROOM, "desk_restore", "one byte fewer is enough");
    held(restored_with(n, due, DESK_RESTORED_BYTES(n)) == DESK_SOUND, "desk_restore", "the room is not sufficient");
    held(memcmp(most, back, n) == 0, "desk_restore", "it is another file");
}

/* What desk_prepare and desk_m8 answer of a file of which payments come back, with such a room for them. */
static uint64_t returned_with(size_t n, size_t returned_n)
{
    asked++;
    return desk_prepare(DESK_ISO_8859_1, most, n, DESK_ANNEXES, out, n, notes, DESK_NOTE_PLACES(n),
                        returned, returned_n).number;
}
static desk_returns filed_with(size_t n, size_t bytes)
{
    asked++;
    return desk_m8(DESK_ISO_8859_1, most, n, DESK_ANNEXES, desk_m8_codes, DESK_M8_CODES, records, bytes);
}

/* All payments but one come back: the list and the M8 records fit into the rooms, with one place to spare and no more. */
static void rooms_of_returns(size_t payments)
{
    size_t n = changed_file(most, payments, BIC_ALONE, 0xC4), places = DESK_RETURNED_PLACES(n), bytes = DESK_M8_BYTES(n);
    return_all_but_one(most, payments);
    held(places == payments && bytes == payments * DESK_M8_RECORD, "the macros", "not a place for each payment");
    held(returned_with(n, places) == DESK_SOUND, "desk_prepare", "the list's room is not sufficient");
    held(returned_with(n, places - 2) == DESK_RETURN_ROOM, "desk_prepare", "two places fewer are enough");
    desk_returns filed = filed_with(n, bytes);
    held(filed.number == DESK_SOUND && filed.count == payments - 1, "desk_m8", "the room is not sufficient");
    filed = filed_with(n, bytes - DESK_M8_RECORD - 1);
    held(filed.number == DESK_OUTPUT_ROOM, "desk_m8", "124 bytes and one fewer are enough");
}

/* The largest file is as large as the header says. */
static void largest(void)
{
    size_t n = changed_file(most, DESK_MOST_PAYMENTS, CHEQUE, 0xC4);
    held(n == DESK_MOST_BYTES, "DESK_MOST_BYTES", "another length than 9,999 payments have");
    held(desk_judge_full(DESK_ISO_8859_1, most, n, DESK_ANNEXES, NULL, 0).payments == DESK_MOST_PAYMENTS, "desk_judge_full",
         "the largest file is not sound");
    n = changed_file(most, DESK_MOST_PAYMENTS + 1, CHEQUE, 0xC4);
    held(desk_judge_full(DESK_ISO_8859_1, most, n, DESK_ANNEXES, NULL, 0).number == DESK_TOO_LONG, "desk_judge_full",
         "a larger file is not refused");
    asked += 2;
}

int main(void)
{
    static const size_t payments[] = {2, 3, 40, DESK_MOST_PAYMENTS};
    for (int i = 0; i < 4; i++)
        over_files(i % 2 ? DESK_ISO_8859_1 : DESK_DIN_66003, i / 2);
    for (size_t i = 0; i < sizeof payments / sizeof payments[0]; i++) {
        rooms_of_changes(payments[i], CHEQUE);
        rooms_of_changes(payments[i], BIC_ALONE);
        rooms_of_returns(payments[i]);
    }
    rooms_of_changes(1, CHEQUE);
    rooms_of_changes(1, BIC_ALONE);
    largest();
    printf("%u calls answered as the header says\n", asked);
    return 0;
}
