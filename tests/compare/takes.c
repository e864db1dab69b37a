#include "takes.h"

#include <inttypes.h>
#include <stdio.h>
#include <stdlib.h>

#include "../keeper.h"
#include "lent.h"

enum { DESK, PLAIN, SIDES };

/* ---- The book, and what is asked of it -------------------------------------------------------- */

#define NOT_TOLD UINT64_MAX                         /* which number is due */

/* A file; the number that is due, and whether totals are told, and which, that are due after it. */
typedef struct { plain_entry file; uint64_t due; int totals_told; plain_totals totals; } asked_take;

static plain_book opened, before, left;             /* as it was opened, as the last take found it, and as it stands */
static asked_take asked[PLAIN_TAKES];               /* since then */
static size_t asked_n;
static plain_taken told[SIDES];                     /* of the last of them, or of the opening */
static plain_totals shown[SIDES];                   /* what the screen is told after it */
static uint64_t takes = 0;
static const char *kept_name = NULL;                /* where cases are kept; nowhere if null */

void keep_takes(const char *cases) { kept_name = cases; }
uint64_t takes_made(void) { return takes; }
const plain_book *book_left(void) { return &left; }
size_t places_left(void) { return left.held < PLAIN_PLACES ? (size_t)left.held : PLAIN_PLACES; }

static bool same_entry(plain_entry a, plain_entry b)
{
    return a.number == b.number && a.day == b.day && a.payments == b.payments && a.euros == b.euros;
}

/* ---- Differences ------------------------------------------------------------------------------ */

static const char *side_name(int side) { return side == DESK ? "desk" : "plain"; }

static void print_told(int side)
{
    const plain_book *book = &told[side].book;
    printf("%s answers %" PRIu64 ", and the book is on day %" PRIu32 " and holds %" PRIu64 " with %" PRIu64 " payments, %"
           PRIu64 " euros;\n", side_name(side), told[side].number, book->day, book->held, book->payments, book->euros);
    printf("    its totals are told as %" PRIu64 " with %" PRIu64 " payments, %" PRIu64 " euros\n", shown[side].files,
           shown[side].payments, shown[side].euros);
}

static void print_place(int side, size_t i)
{
    const plain_entry *e = &told[side].book.places[i];
    printf("    place %zu of %s: %" PRIu64 " on day %" PRIu32 " with %" PRIu64 " payments, %" PRIu64 " euros\n", i,
           side_name(side), e->number, e->day, e->payments, e->euros);
}

/* The first place in which the sides differ, if there is one. */
static void print_places(void)
{
    size_t i = 0;
    while (i < PLAIN_PLACES && same_entry(told[DESK].book.places[i], told[PLAIN].book.places[i]))
        i++;
    for (int side = 0; side < SIDES && i < PLAIN_PLACES; side++)
        print_place(side, i);
}

static void print_asked(const asked_take *last)
{
    printf("take %zu, of %" PRIu64 " on day %" PRIu32 " with %" PRIu64 " payments, %" PRIu64 " euros,\n", asked_n,
           last->file.number, last->file.day, last->file.payments, last->file.euros);
    printf("    where the book was on day %" PRIu32 " and held %" PRIu64 " with %" PRIu64 " payments, %" PRIu64 " euros\n",
           before.day, before.held, before.payments, before.euros);
}

static void write_entry(FILE *f, plain_entry e)
{
    fprintf(f, "%" PRIu64 " %" PRIu32 " %" PRIu64 " %" PRIu64, e.number, e.day, e.payments, e.euros);
}

static void write_case(FILE *f, const char *what)
{
    fprintf(f, "# %s\nbook on day %" PRIu32 ", held %" PRIu64 ", payments %" PRIu64 ", euros %" PRIu64 "\n", what,
            opened.day, opened.held, opened.payments, opened.euros);
    for (size_t i = 0; i < PLAIN_PLACES; i++) {
        write_entry(f, opened.places[i]);
        fprintf(f, "\n");
    }
    fprintf(f, "takes %zu\n", asked_n);
    for (const asked_take *a = asked; a < asked + asked_n; a++) {
        write_entry(f, a->file);
        fprintf(f, " due %" PRIu64 ", totals %d %" PRIu64 " %" PRIu64 " %" PRIu64 "\n", a->due, a->totals_told,
                a->totals.files, a->totals.payments, a->totals.euros);
    }
}

static void keep_case(const char *what)
{
    char name[200];
    if (!kept_name)
        return;
    snprintf(name, sizeof name, "%s%" PRIu64 ".txt", kept_name, calls_made() + takes);
    FILE *f = fopen(name, "w");
    if (!f) {
        perror(name);
        return;
    }
    write_case(f, what);
    if (fclose(f) == 0)
        printf("case kept; to run it again: bash tests/run --replay %s\n", name);
}

static void differ(const char *what)
{
    printf("difference in take: %s\n", what);
    if (asked_n)
        print_asked(&asked[asked_n - 1]);
    print_told(DESK);
    print_told(PLAIN);
    print_places();
    keep_case(what);
    printf("%" PRIu64 " calls compared, 1 differ\n", calls_made() + takes);
    exit(1);
}

/* ---- What is due of a take -------------------------------------------------------------------- */

static bool same_totals(plain_totals a, plain_totals b)
{
    return a.files == b.files && a.payments == b.payments && a.euros == b.euros;
}

static plain_totals stored_in(const plain_book *book) { return (plain_totals){book->held, book->payments, book->euros}; }

static bool same_book(const plain_book *a, const plain_book *b)
{
    for (size_t i = 0; i < PLAIN_PLACES; i++)
        if (!same_entry(a->places[i], b->places[i]))
            return false;
    return a->day == b->day && same_totals(stored_in(a), stored_in(b));
}

/* Not yet five days later. The sum has 64 bits, for it may be beyond the last day. */
static bool still_held(plain_entry taken, uint32_t day) { return day < (uint64_t)taken.day + 5; }

static uint64_t number_due(plain_entry file)
{
    size_t held = 0;
    if (file.payments >= 10000 || file.euros >= 1000000000000000)
        return 53;
    if (file.day < left.day)
        return 52;
    for (size_t i = 0; i < places_left(); i++)
        if (still_held(left.places[i], file.day)) {
            held++;
            if (left.places[i].number == file.number)
                return 50;
        }
    return held < PLAIN_PLACES ? 0 : 51;
}

static plain_totals summed;                         /* over the places that were checked of the book that both left */

static void check_place(plain_entry due, const char *what)
{
    if (summed.files == PLAIN_PLACES || !same_entry(told[DESK].book.places[summed.files++], due))
        differ(what);
    summed.payments += due.payments;
    summed.euros += due.euros;
}

static void check_totals(plain_totals is, plain_totals due, const char *whose)
{
    char text[200];
    if (same_totals(is, due))
        return;
    snprintf(text, sizeof text, "%s: %" PRIu64 " with %" PRIu64 " payments, %" PRIu64 " euros are due by the paper", whose,
             due.files, due.payments, due.euros);
    differ(text);
}

/* What was not forgotten by that day, then the file, then zeros; and the totals of all that. */
static void check_taken(plain_entry file)
{
    if (told[DESK].book.day != file.day)
        differ("the book is not on the day of the take");
    summed = (plain_totals){0, 0, 0};
    for (size_t i = 0; i < places_left(); i++)
        if (still_held(left.places[i], file.day))
            check_place(left.places[i], "a held file is not in its place, or a forgotten one is there");
    check_place(file, "the file that is taken does not stand behind the held ones");
    check_totals(stored_in(&told[DESK].book), summed, "totals over what is held");
    while (summed.files < PLAIN_PLACES)
        check_place((plain_entry){0, 0, 0, 0}, "there are no zeros behind the held files");
}

static void check_number(int side, uint64_t due)
{
    char text[80];
    if (told[side].number == due)
        return;
    snprintf(text, sizeof text, "of %s, %" PRIu64 " is due by the paper", side_name(side), due);
    differ(text);
}

/* Nothing is added up where the totals are asked for. */
static void check_shown(void)
{
    for (int side = 0; side < SIDES; side++)
        if (!same_totals(shown[side], stored_in(&told[side].book)))
            differ("the totals that are told are not those that are stored");
}

static void check_told(asked_take last)
{
    for (int side = 0; side < SIDES && last.due != NOT_TOLD; side++)
        check_number(side, last.due);
    if (told[DESK].number != told[PLAIN].number || !same_book(&told[DESK].book, &told[PLAIN].book))
        differ("answers, or the books that are left");
    check_number(DESK, number_due(last.file));
    if (told[DESK].number == 0)
        check_taken(last.file);
    else if (!same_book(&told[DESK].book, &left))
        differ("a refused take changes the book");
    check_shown();
}

/* ---- Opening and taking ----------------------------------------------------------------------- */

static void show_totals(void)
{
    shown[DESK] = desk_kept_totals();
    shown[PLAIN] = plain_kept_totals();
}

static void ask(asked_take next)
{
    const plain_entry *file = &next.file;
    if (asked_n == PLAIN_TAKES) {
        fprintf(stderr, "more takes in one book than there is room for\n");
        exit(2);
    }
    asked[asked_n++] = next;
    takes++;
    before = left;
    told[DESK] = desk_take(file->number, file->day, file->payments, file->euros);
    told[PLAIN] = plain_take(file->number, file->day, file->payments, file->euros);
    show_totals();
    check_told(next);
    left = told[DESK].book;
}

void take(plain_entry file) { take_due(file, NOT_TOLD); }
void take_due(plain_entry file, uint64_t due) { ask((asked_take){.file = file, .due = due}); }

/* What is told is what is stored: that was looked at before. It is kept with the last take, if there is one, so that it is
   due again where the case is run again. */
void totals_due(plain_totals due)
{
    if (asked_n) {
        asked[asked_n - 1].totals_told = 1;
        asked[asked_n - 1].totals = due;
    }
    check_totals(shown[DESK], due, "totals of desk");
    check_totals(shown[PLAIN], due, "totals of plain");
}

static void begin_with(const plain_book *book)
{
    opened = left = *book;
    asked_n = 0;
}

/* The totals that are stored in it are told, right or wrong. */
void open_book(const plain_book *book)
{
    begin_with(book);
    desk_open_book(opened);
    plain_open_book(opened);
    told[DESK] = told[PLAIN] = (plain_taken){opened, 0};
    show_totals();
    check_shown();
}

/* It is on day 0, and there is nothing in it. */
void open_new_book(void)
{
    static const plain_book due;
    begin_with(&due);
    told[DESK] = (plain_taken){desk_open_new_book(), 0};
    told[PLAIN] = (plain_taken){plain_open_new_book(), 0};
    show_totals();
    for (int side = 0; side < SIDES; side++)
        if (!same_book(&told[side].book, &due))
            differ("a new book is on day 0 and has nothing in it");
    check_shown();
}

/* ---- Replay ----------------------------------------------------------------------------------- */

static bool read_entry(FILE *f, plain_entry *e)
{
    return fscanf(f, "%" SCNu64 "%" SCNu32 "%" SCNu64 "%" SCNu64, &e->number, &e->day, &e->payments, &e->euros) == 4;
}

static bool read_book(FILE *f, plain_book *book)
{
    if (fscanf(f, " book on day %" SCNu32 ", held %" SCNu64 ", payments %" SCNu64 ", euros %" SCNu64, &book->day,
               &book->held, &book->payments, &book->euros) != 4)
        return false;
    for (plain_entry *e = book->places; e < book->places + PLAIN_PLACES; e++)
        if (!read_entry(f, e))
            return false;
    return true;
}

static bool read_take(FILE *f, asked_take *a)
{
    return read_entry(f, &a->file)
        && fscanf(f, " due %" SCNu64 ", totals %d%" SCNu64 "%" SCNu64 "%" SCNu64, &a->due, &a->totals_told,
                  &a->totals.files, &a->totals.payments, &a->totals.euros) == 5;
}

/* Opens it and takes again; whether the file is a kept book. */
static bool replay_from(FILE *f)
{
    static plain_book book;
    char line[200];
    size_t n;
    asked_take next;
    if (!fgets(line, sizeof line, f) || !read_book(f, &book) || fscanf(f, " takes %zu", &n) != 1)
        return false;
    printf("kept: %sbook on day %" PRIu32 ", held %" PRIu64 ", %zu takes\n", line, book.day, book.held, n);
    open_book(&book);
    while (n-- > 0) {
        if (!read_take(f, &next))
            return false;
        ask(next);                                  /* tells a difference, if there is one */
        if (next.totals_told)
            totals_due(next.totals);
    }
    return true;
}

int replay_takes(const char *name)
{
    FILE *f = fopen(name, "r");
    if (!f)
        return -1;
    bool good = replay_from(f);
    fclose(f);
    if (!good)
        return -1;
    printf("%" PRIu64 " calls compared, 0 differ\n", takes);
    return 0;
}
