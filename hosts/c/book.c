/* A host: keeps the numbers of the files that were sent in a book, so that none is sent twice. A file's number is taken on
   a business day, which the office counts, and is forgotten five days later. With it the book has the payments and the whole
   euros of what went on, and the totals of all that it holds.

       book BOOK new                           makes a book file: on day 0, nothing is held
       book [--page 0|1] BOOK take DAY FILE    takes the number of FILE on DAY, if something of FILE goes on
       book BOOK list                          tells the book's day, what is held, and from which day on it is free
       book BOOK totals                        tells how many files, payments and whole euros are held on the book's day

   The page says at which codes FILE has the four German characters: 0 is DIN 66003, 1 is ISO 8859-1. Where none is named
   it is 1. DAY is a number from 0 to 4294967295, in digits. A path that begins with - is written as ./-name.

   Something of FILE goes on where prepare, the default way, does not refuse it. Payments that break a rule come back: how
   many is told, and they need a file of another number. They are not paid, so the book's figures are without them.

   The totals are those of the book's day, on which the last number was taken: what would be forgotten by today counts until
   the next take. A book from before there were figures (version 1 in docs/BOOK-FILE.md) has none: they count as 0, and list,
   totals and take say so on standard error. What take writes has version 2, and of that nothing is said: until older files
   are forgotten, list tells them with 0 payments, and the totals are without them.

   It loses no number, and nothing that fails changes BOOK:
   1. new makes a file where nothing is. What is there already is never replaced.
   2. take reads FILE and prepares it in memory. Where it is refused, that is told, and BOOK is not touched.
   3. BOOK.new is made: the path of BOOK with .new behind it. Only one program can make it, so no two take a number at the
      same time. Where it is there already, as a killed run leaves it, it stays and the run ends.
   4. Only then is BOOK read. Every byte has to be as a desk writes it, or did in version 1, and BOOK to be a regular file, no
      symbolic link. The number is taken in memory. Where it is refused, that is told.
   5. The new book is written to BOOK.new, down to the disk, and all is told. Where it cannot be printed nothing is taken.
   6. BOOK.new is renamed to BOOK, in one step. So at every moment BOOK is the whole old book or the whole new one.
   Where a step fails or the number is refused, BOOK.new is removed, and BOOK is as it was, byte for byte. That a number is
   taken is told before BOOK.new is renamed: where that fails it is said, and where a run is killed just then, list tells
   whether the number is held. At last the directory is synced; where only that fails, the new book is in place, and it is
   said that a power cut may undo it.

   Status 0: done; 1: FILE is refused, or its number is; 2: used wrongly, or something could not be read or written. */
#define _POSIX_C_SOURCE 200809L
#include "common.h"
#include "desk.h"

#include <errno.h>
#include <fcntl.h>
#include <inttypes.h>
#include <signal.h>
#include <stdbool.h>
#include <stdio.h>
#include <stdlib.h>
#include <string.h>
#include <sys/stat.h>
#include <unistd.h>

/* A file that is longer than any sound one fills the last place too, and is refused. */
static uint8_t file[DESK_MOST_BYTES + 1], forwarded[DESK_MOST_BYTES + 1];
static uint32_t notes[MOST_NOTES], returned[MOST_RETURNED];

/* The status to end with, where nothing failed. */
enum { DONE = 0, REFUSED = 1 };

enum { FORGOTTEN = 5 }; /* days after which a number is forgotten */

/* A book file at work: its path, the new file that becomes it, and the directory of both. No other program changes it while
   the new file is there. */
typedef struct {
    const char *path, *new_path;
    FILE *new_file;
    int directory;
} book_file;

/* Opens the directory in which a path's last name stands; the empty path is in none. */
static bool open_directory(const char *path, int *directory)
{
    const char *slash = strrchr(path, '/');
    char *name = joined(path, slash ? (size_t)(slash + 1 - path) : 0, !slash && *path ? "." : "");
    *directory = open(name, O_RDONLY | O_DIRECTORY);
    int why = errno;
    free(name);
    return *directory != -1 || wrong(path, strerror(why));
}

/* Makes the new file, which only one program can. */
static bool begin_work(const char *path, book_file *at_work)
{
    at_work->path = path;
    at_work->new_path = new_name(path);
    if (!open_directory(path, &at_work->directory))
        return false;
    at_work->new_file = fopen(at_work->new_path, "wbx"); /* x: only where there is none */
    if (at_work->new_file)
        return true;
    if (errno != EEXIST)
        return wrong(at_work->new_path, strerror(errno));
    return wrong(at_work->new_path, "is there already: another program is at work on the book, or was killed; "
                                    "if none is at work, remove this file");
}

/* Removes the new file before it is written: the book file is as it was. The status, for the caller to hand on. */
static int give_up(const book_file *at_work, int status)
{
    fclose(at_work->new_file);
    unlink(at_work->new_path);
    return status;
}

/* Writes the new file, down to the disk. Where that fails nothing of it is left. */
static bool write_book(const book_file *at_work, const desk_book *book)
{
    uint8_t text[DESK_BOOK_BYTES];
    size_t bytes = desk_book_write(book, text);
    if (bytes == 0) {
        give_up(at_work, FAILED);
        return wrong(at_work->new_path, "is not written, for no takes leave such a book");
    }
    return write_down(at_work->new_file, at_work->new_path, text, bytes);
}

/* Renames the new file, over the book file. */
static bool replace(const char *new_path, const char *path)
{
    return rename(new_path, path) == 0 || wrong(path, strerror(errno));
}

/* Where all was told, puts the new file in place, by that function; where not, or where that fails, removes it. The status
   to end with. */
static int end_work(const book_file *at_work, bool put(const char *new_path, const char *path))
{
    if (!is_printed() || !put(at_work->new_path, at_work->path)) {
        unlink(at_work->new_path);
        return FAILED;
    }
    if (fsync(at_work->directory) == 0 || errno == EINVAL) /* a file system that does not offer it */
        return DONE;
    fprintf(stderr, "%s: the new book is in place, but a power cut may undo it: %s\n", at_work->path, strerror(errno));
    return FAILED;
}

/* Reads the book of a regular file, and the permissions of that. Where a book that is read has no figures, that is said. */
static bool read_book(const char *path, desk_book *book, mode_t *mode)
{
    static uint8_t text[DESK_BOOK_BYTES + 1];
    char message[DESK_BOOK_MESSAGE];
    struct stat status;
    size_t n;
    if (lstat(path, &status) != 0)
        return wrong(path, strerror(errno));
    if (!S_ISREG(status.st_mode))
        return wrong(path, "is not a regular file; a symbolic link is not followed");
    *mode = status.st_mode & 0777;
    if (!read_file(path, text, sizeof text, &n))
        return false;
    bool is_read = desk_book_read(text, n, book, message);
    if (message[0])
        say(path, message);
    return is_read;
}

static void tell_book(const desk_book *book)
{
    printf("the book is on day %" PRIu32 ", with %" PRIu64 " of %d places held\n", book->day, book->held, DESK_BOOK_PLACES);
}

/* Tells when the place of a number is free again, and the number. */
static void tell_free(const desk_entry *entry)
{
    if (entry->day <= UINT32_MAX - FORGOTTEN)
        printf("free from day %" PRIu32 " on\n", entry->day + FORGOTTEN);
    else
        puts("not free on any day that is left");
}

static void tell_entry(const desk_entry *entry)
{
    printf("file number %" PRIu64 ": taken on day %" PRIu32 ", %" PRIu64 " payments, %" PRIu64 " whole euros, ",
           entry->number, entry->day, entry->payments, entry->euros);
    tell_free(entry);
}

/* Tells why a number is not taken, and from which day on it might be. */
static void tell_not_taken(const desk_book *book, const desk_entry *asked, uint64_t number)
{
    char line[DESK_LINE];
    desk_refusal_line(line, number, 0, 0);
    printf("refused on day %" PRIu32 ": %s\n", asked->day, line);
    for (uint64_t i = 0; number == DESK_TAKEN && i < book->held; i++)
        if (book->places[i].number == asked->number)
            tell_entry(&book->places[i]);
    if (number == DESK_BOOK_FULL) {
        printf("the next place is ");
        tell_free(&book->places[0]);
    }
    tell_book(book);
}

/* Makes a book file: the status to end with. */
static int make_book(const char *path)
{
    book_file at_work;
    desk_book book = desk_book_new();
    if (!is_free(path) || !begin_work(path, &at_work) || !write_book(&at_work, &book))
        return FAILED;
    tell_book(&book);
    return end_work(&at_work, put_in_place);
}

/* Tells what a book file holds: the status to end with. */
static int list_book(const char *path)
{
    desk_book book;
    mode_t mode;
    if (!read_book(path, &book, &mode))
        return FAILED;
    tell_book(&book);
    for (uint64_t i = 0; i < book.held; i++)
        tell_entry(&book.places[i]);
    return is_printed() ? DONE : FAILED;
}

/* Tells the totals that a book has: the status to end with. */
static int total_book(const char *path)
{
    desk_book book;
    mode_t mode;
    if (!read_book(path, &book, &mode))
        return FAILED;
    desk_totals totals = desk_book_totals(book);
    printf("totals on day %" PRIu32 ": files %" PRIu64 ", payments %" PRIu64 ", whole euros %" PRIu64 "\n",
           book.day, totals.files, totals.payments, totals.euros);
    return is_printed() ? DONE : FAILED;
}

/* Takes a number, with the figures of what goes on: the status to end with. */
static int take_number(const char *path, const desk_entry *asked, uint32_t page, const desk_prepared *sent)
{
    book_file at_work;
    desk_book book;
    mode_t mode;
    if (!begin_work(path, &at_work))
        return FAILED;
    if (!read_book(path, &book, &mode))
        return give_up(&at_work, FAILED);
    if (fchmod(fileno(at_work.new_file), mode) != 0) {
        wrong(at_work.new_path, strerror(errno));
        return give_up(&at_work, FAILED);
    }
    desk_taken taken = desk_book_take(book, asked->number, asked->day, asked->payments, asked->euros);
    if (taken.number) {
        tell_not_taken(&book, asked, taken.number);
        return give_up(&at_work, is_printed() ? REFUSED : FAILED);
    }
    if (!write_book(&at_work, &taken.book))
        return FAILED;
    printf("on %s %" PRIu64 " payments go on, %" PRIu64 " come back\n", page_names[page], sent->kept, sent->returned);
    tell_entry(asked);
    tell_book(&taken.book);
    return end_work(&at_work, replace);
}

/* Takes the number of a file, if something of it goes on: the status to end with. */
static int take_file(uint32_t page, const char *book_path, uint32_t day, const char *path)
{
    desk_entry asked = {.day = day};
    size_t n;
    if (!read_file(path, file, sizeof file, &n))
        return FAILED;
    desk_prepared sent = desk_prepare(page, file, n, DESK_ANNEXES, forwarded, sizeof forwarded, notes, MOST_NOTES,
                                      returned, MOST_RETURNED);
    if (sent.number) {
        desk_judgement judged = desk_judge_full(page, file, n, DESK_ANNEXES, NULL, 0);
        tell_refusal(page, &sent, &judged);
        return is_printed() ? REFUSED : FAILED;
    }
    if (!desk_file_number(file, n, &asked.number)) {
        wrong(path, "has no number"); /* cannot be: rules 11, 13 and 14 ask for digits */
        return FAILED;
    }
    asked.payments = sent.kept;
    asked.euros = sent.kept_euros;
    return take_number(book_path, &asked, page, &sent);
}

/* The day that a word names. */
static bool day_of(const char *word, uint32_t *day)
{
    uint64_t found = 0;
    size_t length = strspn(word, "0123456789");
    for (size_t i = 0; i < length && found <= UINT32_MAX; i++)
        found = found * 10 + (uint64_t)(word[i] - '0');
    *day = (uint32_t)found;
    if (length > 0 && word[length] == '\0' && found <= UINT32_MAX)
        return true;
    fprintf(stderr, "day %s: a day is a number from 0 to 4294967295, in digits\n", word);
    return false;
}

/* What the words behind the page ask for: the status to end with. */
static int work(uint32_t page, bool names_page, const words_left *left)
{
    static const struct { const char *word; int (*with_book)(const char *path); } works[] = {
        {"new", make_book}, {"list", list_book}, {"totals", total_book},
    };
    char **words = left->words;
    const char *asked = left->count > 1 ? words[1] : "";
    uint32_t day;
    for (size_t i = 0; left->count == 2 && !names_page && i < sizeof works / sizeof works[0]; i++)
        if (strcmp(asked, works[i].word) == 0)
            return is_path(words[0]) ? works[i].with_book(words[0]) : FAILED;
    if (left->count == 4 && strcmp(asked, "take") == 0) {
        bool is_understood = is_path(words[0]) && day_of(words[2], &day) && is_path(words[3]);
        return is_understood ? take_file(page, words[0], day, words[3]) : FAILED;
    }
    fprintf(stderr, "usage: book BOOK new, or book [--page 0|1] BOOK take DAY FILE, or book BOOK list, "
                    "or book BOOK totals\n");
    return FAILED;
}

/* Takes the place of standard streams that are closed, so that no file gets it which is opened later. What would be printed
   there cannot be: it is open for reading alone. */
static void fill_closed_streams(void)
{
    int descriptor;
    do
        descriptor = open("/dev/null", O_RDONLY);
    while (descriptor >= 0 && descriptor <= STDERR_FILENO);
    if (descriptor != -1)
        close(descriptor);
}

int main(int argc, char **argv)
{
    uint32_t page = DESK_ISO_8859_1;
    words_left left = {argc - 1, argv + 1};
    fill_closed_streams();
    signal(SIGPIPE, SIG_IGN); /* where nobody reads on, printing fails, and is told like every other failure */
    bool names_page = take_word(&left, "--page");
    if (names_page && !take_page(&left, &page))
        return FAILED;
    return work(page, names_page, &left);
}
