#define _GNU_SOURCE
#include "lent.h"

#include <inttypes.h>
#include <signal.h>
#include <stdio.h>
#include <stdlib.h>
#include <string.h>
#include <sys/mman.h>
#include <unistd.h>

#include "../reader.h"
#include "paper.h"

/* ---- Lent memory -------------------------------------------------------------------------- */

enum { APRON = 64 };                                /* watched bytes before an output */
enum { DESK, PLAIN, SIDES };
enum { ANSWER_DUE = LENT, OUTPUT_DUE, NOTES_DUE, RETURNED_DUE, STRETCHES };

typedef struct { uint8_t *write, *lent; } area;     /* both are the end of the memory */

static const size_t most_bytes[STRETCHES] = {
    MOST_FED, SPARE, SPARE, SPARE, 4 * MOST_NOTES + SPARE, SPARE, SPARE, SPARE, SPARE, SPARE,
    SPARE, MOST_FILE + SPARE, 4 * MOST_NOTES + SPARE, SPARE
};
static area stretch[STRETCHES], cut, output[SIDES], note_places[SIDES], list_places[SIDES];
static uint8_t pattern[4 * MOST_NOTES + SPARE];     /* what outputs hold before a call */

static void *mapped(void *p)
{
    if (p != MAP_FAILED)
        return p;
    perror("memory");
    exit(2);
}

static area make_area(size_t bytes, bool read_only)
{
    size_t page = (size_t)sysconf(_SC_PAGESIZE);
    bytes = (bytes + page - 1) / page * page;
    int fd = memfd_create("lent", 0);
    if (fd < 0 || ftruncate(fd, (off_t)bytes) != 0) {
        perror("memory");
        exit(2);
    }
    uint8_t *place = mapped(mmap(NULL, bytes + page, PROT_NONE, MAP_PRIVATE | MAP_ANONYMOUS, -1, 0));
    mapped(mmap(place, bytes, read_only ? PROT_READ : PROT_READ | PROT_WRITE, MAP_SHARED | MAP_FIXED, fd, 0));
    uint8_t *write = read_only ? mapped(mmap(NULL, bytes, PROT_READ | PROT_WRITE, MAP_SHARED, fd, 0)) : place;
    close(fd);
    return (area){write + bytes, place + bytes};
}

/* ---- One request -------------------------------------------------------------------------- */

static const char *const call_name[CALLS] = {
    "judge", "judge_full", "prepare", "prepare_strict", "restore", "show", "read_in_steps", "m8"
};
static const char *const stretch_name[STRETCHES] = {
    "file", "transfer", "cheque", "taken", "notes", "other-transfer", "other-cheque", "other-taken", "steps", "codes",
    "answer-due", "output-due", "notes-due", "returned-due"
};
enum { NUMBERS = 7 };
static const char *const answer_name[CALLS][NUMBERS] = {
    {"code"}, {"number", "record", "at", "payments", "euros", "cents"},
    {"number", "record", "notes", "kept", "returned", "euros kept", "euros returned"}, {"number", "record", "notes"},
    {"number", "record"}, {"start", "length"}, {"number", "record", "at", "payments", "euros", "cents", "changes"},
    {"number", "record", "count", "euros of the records", "cents of the records"}
};

typedef struct {
    int call;
    uint32_t page;                                  /* the code page */
    size_t room, places, list;                      /* room in bytes, places in notes, list in returned payments */
    uint64_t record, field;
    size_t shift;                                   /* bytes between the file and the closed page */
    size_t size[STRETCHES];                         /* bytes */
} request;

static request now;
static uint64_t calls = 0;
static uint64_t answer[SIDES][NUMBERS];
static volatile int running = -1;                   /* the side that is at work */
static int lost = -1;                               /* a side that did not come back */
static const char *kept_name = NULL;                /* where cases are kept; nowhere if null */

static size_t back(int which) { return now.size[which] + (which == FILE_IN ? now.shift : 0); }
static const void *lent(int which) { return stretch[which].lent - back(which); }
static uint8_t *out_of(int side) { return output[side].lent - now.room; }
static uint32_t *notes_of(int side) { return (uint32_t *)(void *)(note_places[side].lent - 4 * now.places); }
static uint32_t *list_of(int side) { return (uint32_t *)(void *)(list_places[side].lent - 4 * now.list); }

void lend(int which, const void *bytes, size_t n)
{
    if (n + now.shift > most_bytes[which]) {
        fprintf(stderr, "%s of %zu bytes: more than there is room for\n", stretch_name[which], n);
        exit(2);
    }
    now.size[which] = n;
    if (n)
        memcpy(stretch[which].write - back(which), bytes, n);
}

uint8_t *lent_file(size_t at) { return stretch[FILE_IN].write - back(FILE_IN) + at; }
size_t lent_file_n(void) { return now.size[FILE_IN]; }
size_t lent_codes_n(void) { return now.size[CODES]; }
void shift_file(size_t bytes) { now.shift = bytes; }
void use_page(uint32_t page) { now.page = page; }
uint32_t code_page(void) { return now.page; }
void due_numbers(const uint64_t *numbers, size_t n) { lend(ANSWER_DUE, numbers, 8 * n); }
void due_output(const uint8_t *bytes, size_t n) { lend(OUTPUT_DUE, bytes, n); }
void due_notes(const uint32_t *notes, size_t n) { lend(NOTES_DUE, notes, 4 * n); }
void due_returned(const uint32_t *payments, size_t n) { lend(RETURNED_DUE, payments, 4 * n); }

static void fill_outputs(int side)
{
    memcpy(out_of(side) - APRON, pattern, APRON + now.room);
    memcpy((uint8_t *)notes_of(side) - APRON, pattern, APRON + 4 * now.places);
    memcpy((uint8_t *)list_of(side) - APRON, pattern, APRON + 4 * now.list);
}

const uint8_t *lent_cut(const uint8_t *bytes, size_t n)
{
    memcpy(cut.write - n, bytes, n);
    return cut.lent - n;
}

/* The lent steps as both sides take them, with the lists that they name. */
static const plain_step *steps_for_both(void)
{
    static plain_step steps[MOST_STEPS];
    const step *s = lent(STEPS);
    for (size_t i = 0; i < now.size[STEPS] / sizeof *s; i++) {
        int transfer = s[i].other_transfer ? OTHER_TRANSFER : TRANSFER;
        int cheque = s[i].other_cheque ? OTHER_CHEQUE_LIST : CHEQUE_LIST;
        int taken = s[i].other_taken ? OTHER_TAKEN : TAKEN;
        steps[i] = s[i].is_end ? (plain_step){.is_end = true, .taken = lent(taken), .taken_n = now.size[taken] / 8}
            : (plain_step){.length = s[i].length, .transfer = lent(transfer), .nt = now.size[transfer],
                           .cheque = lent(cheque), .nc = now.size[cheque]};
    }
    return steps;
}

/* The numbers that are added to the answer on M8 records; what was counted beyond the room is no record. */
static void add_amount_of_records(int side)
{
    uint64_t *a = answer[side];
    if (a[0] || a[2] > now.room / M8_BYTES)
        return;
    amount sum = amount_of_records(out_of(side), a[2]);
    a[3] = sum.euros;
    a[4] = sum.cents;
}

typedef uint64_t desk_code, plain_code;

#define ASK(name, shape, ...)                                                                \
    do {                                                                                     \
        if (side == DESK) { desk_##shape x = desk_##name(__VA_ARGS__); memcpy(a, &x, sizeof x); } \
        else { plain_##shape x = plain_##name(__VA_ARGS__); memcpy(a, &x, sizeof x); }       \
    } while (0)

static void ask(int side)
{
    uint64_t *a = answer[side];
    const uint8_t *file = lent(FILE_IN), *transfer = lent(TRANSFER), *cheque = lent(CHEQUE_LIST);
    size_t n = now.size[FILE_IN], nt = now.size[TRANSFER], nc = now.size[CHEQUE_LIST];
    memset(a, 0, sizeof answer[side]);
    running = side;
    switch (now.call) {
    case JUDGE:
        ASK(judge, code, file, n, transfer, nt, cheque, nc);
        break;
    case JUDGE_FULL:
        ASK(judge_full, judgement, now.page, file, n, transfer, nt, cheque, nc, lent(TAKEN), now.size[TAKEN] / 8);
        break;
    case PREPARE:
        ASK(prepare, prepared, now.page, file, n, transfer, nt, cheque, nc, out_of(side), now.room,
            notes_of(side), now.places, list_of(side), now.list);
        break;
    case PREPARE_STRICT:
        ASK(prepare_strict, strict, now.page, file, n, transfer, nt, cheque, nc, out_of(side), now.room,
            notes_of(side), now.places);
        break;
    case RESTORE:
        ASK(restore, restored, now.page, file, n, lent(NOTES_IN), now.size[NOTES_IN] / 4, transfer, nt, cheque, nc,
            out_of(side), now.room);
        break;
    case SHOW:
        ASK(show, part, file, n, now.record, now.field);
        break;
    case READ:
        ASK(read_in_steps, answer, now.page, file, steps_for_both(), now.size[STEPS] / sizeof(step));
        break;
    case M8:
        ASK(m8, returns, now.page, file, n, transfer, nt, cheque, nc, lent(CODES), now.size[CODES], out_of(side), now.room);
        add_amount_of_records(side);
        break;
    }
    running = -1;
}

/* The call for payroll hosts stays on page 0, and show reads no table. */
static bool names_page(void) { return now.call != JUDGE && now.call != SHOW; }
static bool judges_fully(void) { return now.call == JUDGE_FULL || now.call == READ; }
static bool prepares(void) { return now.call == PREPARE || now.call == PREPARE_STRICT; }

/* ---- Differences -------------------------------------------------------------------------- */

static const char *side_name(int side) { return side == DESK ? "desk" : side == PLAIN ? "plain" : "the driver"; }

static void print_answer(int side)
{
    printf("%s_%s answers", side_name(side), call_name[now.call]);
    if (side == lost) {
        printf(" nothing: it did not come back\n");
        return;
    }
    for (int i = 0; i < NUMBERS && answer_name[now.call][i]; i++)
        printf("%s %s %" PRIu64, i ? "," : "", answer_name[now.call][i], answer[side][i]);
    printf("\n");
}

static void write_stretch(FILE *f, int which)
{
    const bool lists = now.call != SHOW, reading = now.call == READ;
    const bool used[LENT] = {true, lists, lists, judges_fully(), now.call == RESTORE, reading, reading, reading, reading,
        now.call == M8};
    size_t n = which >= LENT || used[which] ? now.size[which] : 0;
    const uint8_t *bytes = lent(which);
    fprintf(f, "%s %zu\n", stretch_name[which], n);
    for (size_t k = 0; k < n; k++)
        fprintf(f, "%02x%s", bytes[k], k + 1 == n || k % 32 == 31 ? "\n" : "");
}

static void keep_case(const char *what)
{
    char name[200];
    if (!kept_name)
        return;
    snprintf(name, sizeof name, "%s%" PRIu64 ".txt", kept_name, calls);
    FILE *f = fopen(name, "w");
    if (!f) {
        perror(name);
        return;
    }
    fprintf(f, "# %s\ncall %s\npage %" PRIu32 "\nroom %zu\nplaces %zu\nlist %zu\nrecord %" PRIu64 "\nfield %" PRIu64
            "\nshift %zu\n", what, call_name[now.call], now.page, now.room, now.places, now.list, now.record, now.field,
            now.shift);
    for (int i = 0; i < STRETCHES; i++)
        write_stretch(f, i);
    if (fclose(f) == 0)
        printf("case kept; to run it again: bash tests/run --replay %s\n", name);
}

static const char *suite;

void name_suite(const char *name) { suite = name; }

static void differ(const char *what)
{
    printf("difference in %s", call_name[now.call]);
    if (names_page())
        printf(", page %" PRIu32, now.page);
    if (suite)
        printf(", suite %s", suite);
    printf(": %s\n", what);
    print_answer(DESK);
    print_answer(PLAIN);
    keep_case(what);
    printf("%" PRIu64 " calls compared, 1 differ\n", calls);
    fflush(stdout);
    _exit(1);
}

/* A side that touches what it was not lent is told like any other difference. */
static void stopped(int signal_number)
{
    static char what[80];
    lost = running;
    if (lost == DESK)
        ask(PLAIN);
    snprintf(what, sizeof what, "%s stopped with signal %d", side_name(lost), signal_number);
    differ(what);
}

static void watch_signals(void)
{
    static uint8_t spare_stack[1 << 17];
    static const int signals[] = {SIGSEGV, SIGBUS, SIGILL, SIGFPE, SIGABRT, SIGTRAP};
    sigaltstack(&(stack_t){.ss_sp = spare_stack, .ss_size = sizeof spare_stack}, NULL);
    struct sigaction action = {.sa_handler = stopped, .sa_flags = SA_NODEFER | SA_ONSTACK};
    for (size_t i = 0; i < sizeof signals / sizeof signals[0]; i++)
        sigaction(signals[i], &action, NULL);
}

static size_t first_difference(const uint8_t *a, const uint8_t *b, size_t n)
{
    size_t i = 0;
    while (i < n && a[i] == b[i])
        i++;
    return i;
}

/* What a call was lent for writing keeps its bytes but for those written, all of them if it refused. */
static void check_kept(int side, const char *name, const uint8_t *bytes, size_t size, size_t written)
{
    static char text[120];
    if (written <= size && memcmp(bytes - APRON, pattern, APRON) == 0 &&
        memcmp(bytes + written, pattern + APRON + written, size - written) == 0)
        return;
    snprintf(text, sizeof text, "%s changes %s that keep their bytes, or counts more than it was lent",
             side_name(side), name);
    differ(text);
}

static void check_notes(int side)
{
    const uint64_t *a = answer[side];
    const uint32_t *notes = notes_of(side);
    check_kept(side, "note places", (const uint8_t *)notes, 4 * now.places, a[0] ? 0 : 4 * a[2]);
    if (a[0] && a[2])
        differ("notes counted though refused");
    for (uint64_t i = 0; i + 1 < a[2]; i++)
        if (notes[i] / 256 >= notes[i + 1] / 256)
            differ("notes do not rise");
}

static void check_list(const uint32_t *list, uint64_t count)
{
    for (uint64_t i = 0; i < count; i++) {
        if (list[i] % 100 < 20 || list[i] % 100 > 35)
            differ("a payment is returned by another rule than 20 to 35");
        if (list[i] / 100 <= (i ? list[i - 1] / 100 : 0) || list[i] / 100 > payments_of(now.size[FILE_IN]))
            differ("returned payments do not rise, or are not there");
    }
}

/* Which payments come back is for the suites to ask; all else that the default way answers and leaves follows from it. */
static void check_sorted(int side)
{
    static sent wanted;
    const uint64_t *a = answer[side];
    const uint32_t *list = list_of(side);
    size_t n = now.size[FILE_IN];
    check_kept(side, "list places", (const uint8_t *)list, 4 * now.list, a[0] ? 0 : 4 * a[4]);
    if (a[0] && (a[3] || a[4] || a[5] || a[6]))
        differ("payments or euros counted though refused");
    if (!may_tell_sorted(lent(FILE_IN), n, a[0], a[1]))
        differ("the default way does not tell this number and record of such a file");
    if (a[0])
        return;
    check_list(list, a[4]);
    send_all_but(now.page, lent(FILE_IN), n, list, a[4], &wanted);
    if (a[3] == 0 || memcmp(a, wanted.answer, sizeof wanted.answer) != 0)
        differ("notes, payments or euros are not those of the kept file and of the returned payments");
    if (memcmp(out_of(side), wanted.forwarded, wanted.n) != 0 || memcmp(notes_of(side), wanted.notes, 4 * a[2]) != 0)
        differ("output or notes are not those of the kept file");
}

/* Here too it is for the suites to ask which payments come back; but each record is that of some payment, by some rule of 20
   to 35, in the order of the file. */
static void check_filed(int side)
{
    const uint64_t *a = answer[side];
    const uint8_t *file = lent(FILE_IN);
    size_t n = now.size[FILE_IN], payment = 0;
    if (a[0] && a[2])
        differ("records counted though refused");
    if (!may_tell_filed(file, n, now.size[CODES], now.room, a[0], a[1]))
        differ("this number and record are not told of such a file, table and room");
    if (a[0])
        return;
    if (a[2] >= payments_of(n))
        differ("no payment is kept");
    for (const uint8_t *r = out_of(side); r < out_of(side) + M8_BYTES * a[2]; r += M8_BYTES) {
        payment = m8_behind(now.page, file, n, payment, lent(CODES), r);
        if (payment == 0)
            differ("a record is that of no payment, or not in their order");
    }
}

/* The bytes that a call that is not refused writes to its output. */
static size_t bytes_sent(const uint64_t *a)
{
    return now.call == M8 ? M8_BYTES * a[2] : now.call == PREPARE ? file_bytes(a[3]) : now.size[FILE_IN];
}

/* What holds of every answer, whatever was lent. */
static void check_answer(int side)
{
    const uint64_t *a = answer[side];
    if (names_page() && (a[0] == 7) != (now.page >= PAGES))
        differ("7 is told exactly where there is no such page");
    if (prepares() || now.call == RESTORE || now.call == M8)
        check_kept(side, "output bytes", out_of(side), now.room, a[0] ? 0 : bytes_sent(a));
    if (prepares())
        check_notes(side);
    if (now.call == PREPARE)
        check_sorted(side);
    if (now.call == M8)
        check_filed(side);
    if (names_page() && (a[0] == 0 || a[0] == 7 || a[0] >= 43) && a[1] != 0)
        differ("record 0 expected");
    if (judges_fully() && a[0] && (a[3] || a[4] || a[5] || a[6]))
        differ("sums or changes answered though refused");
    if (judges_fully() && !may_point_to(a[0], a[2]))
        differ("no field of the rule begins at this place");
    if (now.call == SHOW && (a[1] ? a[0] > now.size[FILE_IN] || a[1] > now.size[FILE_IN] - a[0] : a[0] != 0))
        differ("part outside the file, or an empty part with a place");
}

/* ---- What is due by the paper ------------------------------------------------------------- */

static void check_due_bytes(int side, const char *name, int which, const void *have, size_t room)
{
    static char text[120];
    const uint8_t *wanted = lent(which);
    size_t n = now.size[which];
    if (n == 0 || (n <= room && memcmp(have, wanted, n) == 0))
        return;
    size_t i = first_difference(have, wanted, n < room ? n : room);
    snprintf(text, sizeof text, "of %s, hex %02X is due by the paper at byte %zu of the %s", side_name(side),
             wanted[i < n ? i : n - 1], i, name);
    differ(text);
}

/* The M8 records of the payments that are to come back, field by field of table 15. */
static void check_due_records(int side)
{
    static char text[120];
    uint8_t wanted[M8_BYTES];
    const uint32_t *returned = lent(RETURNED_DUE);
    size_t n = now.size[RETURNED_DUE] / 4;
    if (answer[side][0] || answer[side][2] != n || now.room / M8_BYTES < n)
        differ("a record for each returned payment is due by the paper");
    for (size_t i = 0; i < n; i++) {
        const uint8_t *record = out_of(side) + M8_BYTES * i;
        m8_of(now.page, lent(FILE_IN), returned[i], lent(CODES), wanted);
        size_t at = first_difference(record, wanted, M8_BYTES), field = 1;
        if (at == M8_BYTES)
            continue;
        while ((size_t)m8_field[field].last < at)
            field++;
        snprintf(text, sizeof text, "of %s, hex %02X is due by the paper at byte %zu of M8 record %zu, in DM8-%zu",
                 side_name(side), wanted[at], at, i + 1, field);
        differ(text);
    }
}

static void check_due(int side)
{
    static char text[120];
    const uint64_t *wanted = lent(ANSWER_DUE);
    for (size_t i = 0; i < now.size[ANSWER_DUE] / 8; i++)
        if (answer[side][i] != wanted[i]) {
            snprintf(text, sizeof text, "of %s, %s %" PRIu64 " is due by the paper", side_name(side),
                     answer_name[now.call][i], wanted[i]);
            differ(text);
        }
    check_due_bytes(side, "output", OUTPUT_DUE, out_of(side), now.room);
    check_due_bytes(side, "note places", NOTES_DUE, notes_of(side), 4 * now.places);
    if (now.call == M8 && now.size[RETURNED_DUE])
        check_due_records(side);
    if (now.call != M8)
        check_due_bytes(side, "list places", RETURNED_DUE, list_of(side), 4 * now.list);
}

/* ---- The call ----------------------------------------------------------------------------- */

static void check_sides_agree(const char *name, const uint8_t *a, const uint8_t *b, size_t n)
{
    static char text[120];
    if (memcmp(a, b, n) == 0)
        return;
    snprintf(text, sizeof text, "%s differ, first at byte %zu", name, first_difference(a, b, n));
    differ(text);
}

/* Every check of a call is made here, so that a replay makes it too. */
static const uint64_t *run(void)
{
    calls++;
    for (int side = 0; side < SIDES; side++) {
        fill_outputs(side);
        ask(side);
    }
    for (int side = 0; side < SIDES; side++)
        check_due(side);
    if (memcmp(answer[DESK], answer[PLAIN], sizeof answer[DESK]) != 0)
        differ("answers");
    for (int side = 0; side < SIDES; side++)
        check_answer(side);
    check_sides_agree("output bytes", out_of(DESK), out_of(PLAIN), now.room);
    check_sides_agree("note places", (uint8_t *)notes_of(DESK), (uint8_t *)notes_of(PLAIN), 4 * now.places);
    check_sides_agree("list places", (uint8_t *)list_of(DESK), (uint8_t *)list_of(PLAIN), 4 * now.list);
    for (int due = ANSWER_DUE; due < STRETCHES; due++)
        now.size[due] = 0;
    return answer[DESK];
}

static const uint64_t *call_with(int call, size_t room, size_t places, size_t list, uint64_t record, uint64_t field)
{
    now.call = call;
    now.room = room;
    now.places = places;
    now.list = list;
    now.record = record;
    now.field = field;
    return run();
}

const uint64_t *judge(void) { return call_with(JUDGE, 0, 0, 0, 0, 0); }
const uint64_t *judge_full(void) { return call_with(JUDGE_FULL, 0, 0, 0, 0, 0); }
const uint64_t *prepare(size_t room, size_t places, size_t list) { return call_with(PREPARE, room, places, list, 0, 0); }
const uint64_t *prepare_strict(size_t room, size_t places) { return call_with(PREPARE_STRICT, room, places, 0, 0, 0); }
const uint64_t *restore(size_t room) { return call_with(RESTORE, room, 0, 0, 0, 0); }
const uint64_t *show(uint64_t record, uint64_t field) { return call_with(SHOW, 0, 0, 0, record, field); }
const uint64_t *m8(size_t room) { return call_with(M8, room, 0, 0, 0, 0); }

const uint64_t *read_in_steps(const step *steps, size_t n)
{
    size_t length = 0;
    for (size_t i = 0; i < n; i++)
        length += steps[i].length;
    if (n == 0 || !steps[n - 1].is_end || length > now.size[FILE_IN]) {
        fprintf(stderr, "%zu steps with %zu bytes: no end, or more than is lent\n", n, length);
        exit(2);
    }
    lend(STEPS, steps, n * sizeof *steps);
    return call_with(READ, 0, 0, 0, 0, 0);
}

const uint8_t *output_left(void) { return out_of(DESK); }
const uint32_t *notes_left(void) { return notes_of(DESK); }
const uint32_t *list_left(void) { return list_of(DESK); }
uint64_t calls_made(void) { return calls; }

void open_areas(const char *cases)
{
    uint64_t state = 7;
    kept_name = cases;
    for (int i = 0; i < STRETCHES; i++)
        stretch[i] = make_area(most_bytes[i], true);
    cut = make_area(MOST_FED, true);
    for (int s = 0; s < SIDES; s++) {
        output[s] = make_area(MOST_FILE + SPARE, false);
        note_places[s] = make_area(4 * MOST_NOTES + SPARE, false);
        list_places[s] = make_area(SPARE, false);
    }
    for (size_t i = 0; i + 8 <= sizeof pattern; i += 8) {
        uint64_t eight = next_random(&state);
        memcpy(pattern + i, &eight, 8);
    }
    watch_signals();
}

/* ---- Replay ------------------------------------------------------------------------------- */

static bool read_number(FILE *f, const char *name, uint64_t *number)
{
    char word[32];
    return fscanf(f, " %31s %" SCNu64, word, number) == 2 && strcmp(word, name) == 0;
}

static bool read_stretch(FILE *f, int which)
{
    uint64_t n;
    unsigned byte;
    if (!read_number(f, stretch_name[which], &n) || n > most_bytes[which] - now.shift)
        return false;
    now.size[which] = (size_t)n;
    for (uint64_t k = 0; k < n; k++) {
        if (fscanf(f, " %2x", &byte) != 1)
            return false;
        (stretch[which].write - back(which))[k] = (uint8_t)byte;
    }
    printf("%s: %" PRIu64 " bytes\n", stretch_name[which], n);
    return true;
}

static bool read_figures(FILE *f)
{
    uint64_t page, room, places, list, shift;
    if (!read_number(f, "page", &page) || !read_number(f, "room", &room) || !read_number(f, "places", &places) ||
        !read_number(f, "list", &list) || !read_number(f, "record", &now.record) ||
        !read_number(f, "field", &now.field) || !read_number(f, "shift", &shift))
        return false;
    now.page = (uint32_t)page, now.room = (size_t)room, now.places = (size_t)places, now.list = (size_t)list;
    now.shift = (size_t)shift;
    printf("page %" PRIu64 ", room %" PRIu64 ", places %" PRIu64 ", list %" PRIu64 ", record %" PRIu64 ", field %" PRIu64
           ", shift %" PRIu64 "\n", page, room, places, list, now.record, now.field, shift);
    return page <= UINT32_MAX && room <= MOST_FILE + SPARE / 2 && places <= MOST_NOTES + SPARE / 8 &&
           list <= SPARE / 8 && shift <= SPARE / 2;
}

/* Reads a kept case into the request; says what it reads. */
static bool read_case(FILE *f)
{
    char word[32], line[200];
    if (!fgets(line, sizeof line, f) || fscanf(f, " call %31s", word) != 1)
        return false;
    printf("kept: %s", line);
    now.call = 0;
    while (now.call < CALLS && strcmp(word, call_name[now.call]) != 0)
        now.call++;
    if (now.call == CALLS || !read_figures(f))
        return false;
    for (int i = 0; i < STRETCHES; i++)
        if (!read_stretch(f, i))
            return false;
    return true;
}

static void print_steps(void)
{
    const step *s = lent(STEPS);
    for (size_t i = 0; i < now.size[STEPS] / sizeof *s && i < 20; i++)
        if (s[i].is_end)
            printf("  end, with the %staken numbers\n", s[i].other_taken ? "other " : "");
        else
            printf("  cut of %" PRIu32 " bytes, with the %stransfer list and the %scheque list\n", s[i].length,
                   s[i].other_transfer ? "other " : "", s[i].other_cheque ? "other " : "");
}

/* A code may have any bytes. */
static void print_record(const uint8_t *record)
{
    printf("  filed: ");
    for (int i = 0; i < M8_BYTES; i++)
        putchar(record[i] >= ' ' && record[i] <= '~' ? record[i] : '?');
    printf("\n");
}

static void print_run(int side)
{
    fill_outputs(side);
    ask(side);
    print_answer(side);
    for (uint64_t i = 0; prepares() && i < answer[side][2] && i < now.places && i < 10; i++)
        printf("  note: place %u, byte %u\n", notes_of(side)[i] / 256, notes_of(side)[i] % 256);
    for (uint64_t i = 0; now.call == PREPARE && i < answer[side][4] && i < now.list && i < 10; i++)
        printf("  returned: record %u, rule %u\n", list_of(side)[i] / 100, list_of(side)[i] % 100);
    for (uint64_t i = 0; now.call == M8 && i < answer[side][2] && i < now.room / M8_BYTES && i < 10; i++)
        print_record(out_of(side) + M8_BYTES * i);
}

int replay(const char *name)
{
    FILE *f = fopen(name, "r");
    if (!f) {
        perror(name);
        return 2;
    }
    bool good = read_case(f);
    fclose(f);
    if (!good) {
        fprintf(stderr, "%s: no kept case\n", name);
        return 2;
    }
    if (now.call == READ)
        print_steps();
    print_run(DESK);
    print_run(PLAIN);
    run();                                          /* tells a difference, if there is one */
    printf("%" PRIu64 " calls compared, 0 differ\n", calls);
    return 0;
}
