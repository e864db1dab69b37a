/* A host: prepares a file and tells what it finds. Payments that break a rule come back, each with its amount, its payee
   and the field; the others go on. Each change is told with its field and the characters before and after, restore is
   shown to give back what goes on, and the forwarded file, its notes and M8 records of what comes back are written. Or it
   judges a file that arrives on standard input, and tells how many characters would be changed.

       example [--page 0|1] [--strict | --m8 M8] FILE [FORWARDED NOTES]
       example [--page 0|1] -

   The page says at which codes the file has the four German characters: 0 is DIN 66003, 1 is ISO 8859-1. Where none is
   named it is 1. It is told with the verdict: store it with the pair, for restore needs the page and the country lists
   that prepare had. Any other word that begins with - is taken for an option; a file of such a name is ./-name.

   With --strict a file goes on as a whole or not at all. Without it what goes on is the kept file: Q, the payments that
   break no rule, and Z with their totals. Changes are told by their record and place there, returned payments by their
   record in FILE. Those stay in FILE alone, so keep it; and they need a new file number, for the kept file has that of FILE.
   A payee is told as the page reads it, in UTF-8. What the page has no character for, and what a terminal would obey, is
   told as U+FFFD.

   With --m8 there is an M8 record for each payment that comes back, with a code of docs/M8-CODES.md. Each is told, and
   all are written to M8, one behind the other: 124 bytes each, in ASCII. What the receiver's own messages have around
   them is not there (docs/DIFFERENCES.md, D50 and D51). Where no payment comes back M8 is not written. The strict way
   returns none, so it takes no --m8. M8 may be named without FORWARDED and NOTES: whoever has those already need not
   write them twice.

   Standard input may be of any length: it goes through a reader in cuts, and no more than one cut is held. It can be
   judged and not prepared, for prepare takes a whole file; the judge is always strict.

   It writes over nothing, and nothing that fails leaves anything behind:
   1. FORWARDED, NOTES and M8 are new files: what is there already is never replaced, FILE least of all.
   2. FILE is read, judged, prepared and restored in memory. What is restored has to be the very file, or where payments
      come back the kept file, put together from FILE and the list. Where M8 records are asked for, there has to be one
      for each payment that comes back.
   3. All this is told. Where it cannot be printed nothing is written: no file goes on with changes, or without
      payments, that nobody saw.
   4. Those that are named are written, down to the disk, each to a new file beside its target: the target's name with
      .new behind it. Where such a file is there already, as a killed run leaves it, it stays and the run ends.
   5. When all are complete they get their targets' names, the forwarded file last: none is without its notes, nor
      without the M8 records that were asked for. A file that has got such a name meanwhile is not replaced either: the
      new file is linked to the name, which fails there, and then loses its own. So the file system has to have links.
   Where a step fails, what was made is removed.

   In the notes file each note has four bytes, little-endian. Status 0: the whole file goes on, and all is done; 1:
   nothing goes on, for it is refused or not restored, or an M8 record is missing; 2: used wrongly, or something could not
   be read or written; 3: all is done, but some payments come back. */
#define _POSIX_C_SOURCE 200809L
#include "common.h"
#include "desk.h"

#include <errno.h>
#include <fcntl.h>
#include <inttypes.h>
#include <signal.h>
#include <stdbool.h>
#include <stdio.h>
#include <stdlib.h>
#include <string.h>
#include <sys/stat.h>
#include <unistd.h>

enum { CUT = 64 * 1024 }; /* bytes of a cut of standard input */
enum { T10B = 210, LINE = 35, T14A = 458, T14B = 472, Z3 = 5, Z4 = 20, Z5 = 35 }; /* where fields begin; a line of T10b */
enum { M8_DATE = 3, M8_FILE = 9, M8_AMOUNT = 38, M8_CODE = 56, M8_REFERENCE = 62 }; /* the same of an M8 record */
enum { ROOM = DESK_MOST_BYTES + 1 }; /* a file that is longer than any sound one fills the last place too, and is refused */
static uint8_t file[ROOM], forwarded[ROOM], restored[ROOM], kept[ROOM], m8[DESK_M8_BYTES(DESK_MOST_BYTES)];
static uint32_t notes[MOST_NOTES], returned[MOST_RETURNED];

/* The status to end with, where nothing failed. */
enum { ALL_GOES_ON = 0, NOTHING_GOES_ON = 1, SOME_COME_BACK = 3 };

/* What is asked for: the page, whether the file is to go on as a whole, where M8 records go (null: nowhere), and by the
   other words the paths, or - alone for standard input. */
typedef struct {
    uint32_t page;
    bool is_strict;
    const char *m8;
    words_left left;
} request;

/* Takes the path behind --m8. */
static bool take_m8(request *asked)
{
    if (asked->left.count < 1) {
        fprintf(stderr, "--m8 names no file\n");
        return false;
    }
    asked->m8 = asked->left.words[0];
    return take_word(&asked->left, asked->m8);
}

/* Takes the options, in any order and each once. */
static bool take_options(request *asked)
{
    for (bool names_page = false;;) {
        if (!asked->is_strict && take_word(&asked->left, "--strict")) {
            asked->is_strict = true;
        } else if (!names_page && take_word(&asked->left, "--page")) {
            names_page = true;
            if (!take_page(&asked->left, &asked->page))
                return false;
        } else if (!asked->m8 && take_word(&asked->left, "--m8")) {
            if (!take_m8(asked))
                return false;
        } else {
            return true;
        }
    }
}

static bool is_input(const char *word) { return strcmp(word, "-") == 0; }

/* Whether each word can be what it stands for: standard input stands alone, the strict way has no M8 records, and all other
   words are paths. */
static bool are_in_place(const request *asked)
{
    const words_left *left = &asked->left;
    int first = left->count > 0 && is_input(left->words[0]) ? 1 : 0;
    if (first && (left->count > 1 || asked->m8))
        return wrong(left->words[0], "standard input can only be judged; FORWARDED, NOTES and M8 need a FILE");
    if (asked->is_strict && asked->m8)
        return wrong("--m8", "with --strict no payment comes back, and there are no M8 records");
    if (asked->m8 && !is_path(asked->m8))
        return false;
    for (int i = first; i < left->count; i++)
        if (!is_path(left->words[i]))
            return false;
    return true;
}

/* Whether the words can be understood: one path or three, or - alone, behind the options, if any. */
static bool understand(request *asked)
{
    if (!take_options(asked))
        return false;
    if (are_in_place(asked) && (asked->left.count == 1 || asked->left.count == 3))
        return true;
    fprintf(stderr, "usage: example [--page 0|1] [--strict | --m8 M8] FILE [FORWARDED NOTES], or example [--page 0|1] -\n");
    return false;
}

/* The paths of what is written: the targets, and then the new files that become them. One that is not named is null. */
enum { FORWARDED, NOTES, M8, TARGETS, NEW = TARGETS, PATHS = 2 * TARGETS };

/* Where a new file is to be: its directory, and its name there. */
typedef struct {
    dev_t device;
    ino_t inode;
    const char *name;
} location;

/* Asks for the directory in which a path's last name stands. "/" keeps its slash; the empty path is in none. */
static bool locate(const char *path, location *found)
{
    struct stat status;
    const char *slash = strrchr(path, '/');
    found->name = slash ? slash + 1 : path;
    char *directory = joined(path, (size_t)(found->name - path), !slash && *path ? "." : "");
    bool is_there = stat(directory, &status) == 0;
    int why = errno;
    free(directory);
    if (!is_there)
        return wrong(path, strerror(why));
    found->device = status.st_dev;
    found->inode = status.st_ino;
    return true;
}

static bool same(const location *a, const location *b)
{
    return a->device == b->device && a->inode == b->inode && strcmp(a->name, b->name) == 0;
}

/* Whether all that will be written are new files, and different ones. */
static bool are_new(const char *const paths[PATHS])
{
    location at[PATHS];
    for (int i = 0; i < PATHS; i++) {
        if (paths[i] && (!is_free(paths[i]) || !locate(paths[i], &at[i])))
            return false;
        for (int j = 0; j < i; j++)
            if (paths[i] && paths[j] && same(&at[i], &at[j])) {
                fprintf(stderr, "%s and %s are the same file\n", paths[j], paths[i]);
                return false;
            }
    }
    return true;
}

/* What is to be written: the target, the new file that becomes it, and what it holds. */
typedef struct {
    const char *path, *new_path;
    const void *bytes;
    size_t size;
} output;

/* Writes a new file, down to the disk. Where that fails nothing of it is left. */
static bool write_new(const output *due)
{
    FILE *f = fopen(due->new_path, "wbx"); /* x: only where there is none */
    if (!f)
        return wrong(due->new_path, strerror(errno));
    return write_down(f, due->new_path, due->bytes, due->size);
}

/* Writes so many files, and puts them in place in their order: all, or none. */
static bool write_all(const output outputs[], int count)
{
    int written = 0, placed = 0;
    while (written < count && write_new(&outputs[written]))
        written++;
    while (written == count && placed < count && put_in_place(outputs[placed].new_path, outputs[placed].path))
        placed++;
    if (placed == count)
        return true;
    for (int i = 0; i < written; i++)
        unlink(i < placed ? outputs[i].path : outputs[i].new_path);
    return false;
}

static size_t bytes_kept(const desk_prepared *sent) { return Q + (size_t)sent->kept * T + Z; }

/* Writes what is named: M8 only where payments come back, and the forwarded file last. */
static bool write_named(const char *const paths[PATHS], const desk_prepared *sent)
{
    output outputs[TARGETS];
    int count = 0;
    if (paths[NOTES])
        outputs[count++] = (output){paths[NOTES], paths[NEW + NOTES], notes, sent->notes * sizeof notes[0]};
    if (paths[M8] && sent->returned)
        outputs[count++] = (output){paths[M8], paths[NEW + M8], m8, sent->returned * DESK_M8_RECORD};
    if (paths[FORWARDED])
        outputs[count++] = (output){paths[FORWARDED], paths[NEW + FORWARDED], forwarded, bytes_kept(sent)};
    return write_all(outputs, count);
}

/* Tells the change at a place of the file that goes on, and the byte that was there. Changes are in Q and in T records
   alone. */
static void tell_change(uint64_t place, unsigned original)
{
    bool in_q = place < Q;
    uint64_t record = in_q ? 0 : (place - Q) / T + 1;
    const desk_columns *found = desk_columns_at(in_q ? 'Q' : 'T', in_q ? place : (place - Q) % T);
    printf("record %" PRIu64 ", %s, place %" PRIu64 ": hex %02X becomes '%c'\n", record, found ? found->field : "?", place,
           original, forwarded[place]);
}

static void tell_changes(uint64_t count)
{
    for (uint64_t i = 0; i < count; i++)
        tell_change(notes[i] / 256, notes[i] % 256);
    printf("%" PRIu64 " characters changed\n", count);
}

/* A character of a text by its code in ISO 8859-1; 0 where the page has none. */
static uint8_t character(uint32_t page, uint8_t byte)
{
    static const char din_66003[] = "@[\\]{|}~", iso_8859_1[] = "\xA7\xC4\xD6\xDC\xE4\xF6\xFC\xDF";
    if (page != DESK_DIN_66003)
        return byte;
    const char *own = memchr(din_66003, byte, sizeof din_66003 - 1);
    if (own)
        return (uint8_t)iso_8859_1[own - din_66003];
    return byte < 0x80 ? byte : 0;
}

/* Tells a character in UTF-8, and a control character as U+FFFD. */
static void tell_character(uint8_t code)
{
    if (code < 0x20 || (code >= 0x7F && code < 0xA0))
        printf("\xEF\xBF\xBD");
    else if (code < 0x80)
        printf("%c", code);
    else
        printf("%c%c", 0xC0 | code >> 6, 0x80 | (code & 0x3F));
}

/* Tells a text without the spaces behind it. */
static void tell_text(uint32_t page, const uint8_t *text, size_t n)
{
    while (n > 0 && text[n - 1] == ' ')
        n--;
    printf("\"");
    for (size_t i = 0; i < n; i++)
        tell_character(character(page, text[i]));
    printf("\"");
}

/* The digits from one place of a record up to another as a number. Where it is asked for, the desk has found digits. */
static uint64_t number_at(const uint8_t *record, size_t place, size_t end)
{
    uint64_t number = 0;
    for (; place < end; place++)
        number = number * 10 + (uint64_t)(record[place] - '0');
    return number;
}

/* Tells a payment's amount, with the third digit behind the comma where it is not 0. */
static void tell_amount(const uint8_t *t)
{
    uint64_t euros = number_at(t, T14A, T14B), thousandths = number_at(t, T14B, T14B + 3);
    if (thousandths % 10)
        printf("%" PRIu64 ",%03" PRIu64 " euros", euros, thousandths);
    else
        printf("%" PRIu64 ",%02" PRIu64 " euros", euros, thousandths / 10);
}

static const uint8_t *payment(uint64_t record) { return file + Q + (record - 1) * T; }

/* Where a payment breaks the rule for which it comes back: what the judge says of it behind a sound Q and a sound payment
   of the same account. */
static uint64_t breaks_at(uint32_t page, size_t n, uint64_t record, uint64_t rule)
{
    uint8_t small[Q + T + T + Z];
    memcpy(small, forwarded, Q + T);
    memcpy(small + Q + T, payment(record), T);
    memcpy(small + Q + T + T, file + n - Z, Z);
    desk_judgement judged = desk_judge_full(page, small, sizeof small, DESK_ANNEXES, NULL, 0);
    return judged.number == rule ? judged.at : 0;
}

static void tell_returned(uint32_t page, size_t n, uint64_t record, uint64_t rule)
{
    char line[DESK_LINE];
    printf("record %" PRIu64 " comes back: ", record);
    tell_amount(payment(record));
    printf(" to ");
    tell_text(page, payment(record) + T10B, LINE);
    desk_refusal_line(line, rule, record, breaks_at(page, n, record, rule));
    printf("\n    %s\n", line);
}

static void tell_total(const char *name, uint64_t payments, uint64_t euros)
{
    printf("%s: %" PRIu64 " payments, %" PRIu64 " whole euros\n", name, payments, euros);
}

/* Tells which payments come back, and the totals. */
static void tell_sorted(uint32_t page, size_t n, const desk_prepared *sent)
{
    const uint8_t *z = file + n - Z;
    printf("not sound on %s: payments that break a rule come back, the others go on\n", page_names[page]);
    for (uint64_t i = 0; i < sent->returned; i++)
        tell_returned(page, n, returned[i] / 100, returned[i] % 100);
    tell_total("kept", sent->kept, sent->kept_euros);
    tell_total("returned", sent->returned, sent->returned_euros);
    tell_total("submitted", number_at(z, Z4, Z5), number_at(z, Z3, Z4));
    puts("the kept file has the submitted file's number; what comes back needs a new one");
    puts("in the kept file:");
}

static void tell_sound(uint32_t page, uint64_t payments, uint64_t euros, uint64_t cents)
{
    printf("sound on %s: %" PRIu64 " payments, %" PRIu64 " euros and %" PRIu64 " cents\n", page_names[page],
           payments, euros, cents);
}

/* Prepares the file by the way that is asked for. What the strict way sends is the whole file, as the judge counts it. */
static desk_prepared prepare(const request *asked, size_t n, const desk_judgement *judged)
{
    if (!asked->is_strict)
        return desk_prepare(asked->page, file, n, DESK_ANNEXES, forwarded, sizeof forwarded, notes, MOST_NOTES,
                            returned, MOST_RETURNED);
    desk_strict sent = desk_prepare_strict(asked->page, file, n, DESK_ANNEXES, forwarded, sizeof forwarded, notes, MOST_NOTES);
    return (desk_prepared){sent.number, sent.record, sent.notes, judged->payments, 0, judged->euros, 0};
}

/* Puts the kept file together: the records of FILE that are not in the list, and Z with the figures. */
static void put_together(size_t n, const desk_prepared *sent)
{
    char figures[64];
    uint8_t *end = kept + Q;
    memcpy(kept, file, Q);
    for (uint64_t record = 1, i = 0; record <= (n - Q - Z) / T; record++)
        if (i < sent->returned && returned[i] / 100 == record) {
            i++;
        } else {
            memcpy(end, payment(record), T);
            end += T;
        }
    snprintf(figures, sizeof figures, "%015" PRIu64 "%015" PRIu64, sent->kept_euros, sent->kept);
    memcpy(end, file + n - Z, Z);
    memcpy(end + Z3, figures, Z5 - Z3);
}

/* Tells the M8 record of a payment: number and date of the file, amount, reference and code. */
static void tell_m8(uint64_t payment_record, const uint8_t *record)
{
    const char *digits = (const char *)record, *meaning = desk_m8_meaning(record + M8_CODE);
    uint64_t cents = number_at(record, M8_AMOUNT, M8_CODE);
    printf("M8 of record %" PRIu64 ": file %.5s of 20%.2s-%.2s-%.2s, %" PRIu64 ",%02" PRIu64 " euros, reference ",
           payment_record, digits + M8_FILE, digits + M8_DATE, digits + M8_DATE + 2, digits + M8_DATE + 4,
           cents / 100, cents % 100);
    tell_text(DESK_ISO_8859_1, record + M8_REFERENCE, LINE); /* replaced: it reads alike on both pages */
    printf("\n    code ");
    for (int i = M8_CODE; i < M8_REFERENCE; i++)
        tell_character(record[i]);
    printf(": %s\n", meaning ? meaning : "?");
}

/* Makes the M8 records, and tells them. There has to be one for each payment that comes back. */
static bool make_m8(uint32_t page, size_t n, const desk_prepared *sent)
{
    desk_returns made = desk_m8(page, file, n, DESK_ANNEXES, desk_m8_codes, sizeof desk_m8_codes, m8, sizeof m8);
    if (made.number || made.count != sent->returned) {
        puts("M8 records are missing: nothing is written");
        return false;
    }
    for (uint64_t i = 0; i < made.count; i++)
        tell_m8(returned[i] / 100, m8 + i * DESK_M8_RECORD);
    if (!made.count)
        puts("no M8 records, and no file of them: no payment comes back");
    return true;
}

/* Judges, prepares and restores the file in memory, and tells what it finds. The status; where something goes on, what was
   sent, and what was restored from it is what goes on. */
static int examine(const request *asked, size_t n, desk_prepared *sent)
{
    desk_judgement judged = desk_judge_full(asked->page, file, n, DESK_ANNEXES, NULL, 0);
    *sent = prepare(asked, n, &judged);
    if (sent->number) {
        tell_refusal(asked->page, sent, &judged);
        return NOTHING_GOES_ON;
    }
    if (sent->returned)
        tell_sorted(asked->page, n, sent);
    else
        tell_sound(asked->page, judged.payments, judged.euros, judged.cents);
    tell_changes(sent->notes);

    size_t bytes = bytes_kept(sent);
    put_together(n, sent);
    desk_restored back = desk_restore(asked->page, forwarded, bytes, notes, sent->notes, DESK_ANNEXES,
                                      restored, sizeof restored);
    if (back.number || memcmp(kept, restored, bytes) != 0) {
        puts("not restored");
        return NOTHING_GOES_ON;
    }
    printf("restored: the very %s\n", sent->returned ? "kept file" : "file");
    if (asked->m8 && !make_m8(asked->page, n, sent))
        return NOTHING_GOES_ON;
    return sent->returned ? SOME_COME_BACK : ALL_GOES_ON;
}

/* The host's work on a file: the status to end with. */
static int work_on_file(const request *asked)
{
    bool writes_pair = asked->left.count == 3;
    const char *paths[PATHS] = {
        [FORWARDED] = writes_pair ? asked->left.words[1] : NULL,
        [NOTES] = writes_pair ? asked->left.words[2] : NULL,
        [M8] = asked->m8,
    };
    for (int i = 0; i < TARGETS; i++)
        paths[NEW + i] = paths[i] ? new_name(paths[i]) : NULL;
    size_t n = 0;
    if (!are_new(paths) || !read_file(asked->left.words[0], file, sizeof file, &n))
        return FAILED;
    desk_prepared sent;
    int status = examine(asked, n, &sent);
    if (!is_printed())
        return FAILED;
    return status == NOTHING_GOES_ON || write_named(paths, &sent) ? status : FAILED;
}

/* Hands standard input to the reader as it comes: to its end, or until it is longer than any sound file, for then more
   bytes change nothing. */
static bool feed_input(desk_reader *reader)
{
    static const char input[] = "standard input";
    static uint8_t cut[CUT];
    if (fcntl(STDIN_FILENO, F_GETFD) == -1)
        return wrong(input, "is closed");
    for (size_t bytes = 0; bytes <= DESK_MOST_BYTES;) {
        ssize_t n = read(STDIN_FILENO, cut, sizeof cut);
        if (n == 0)
            return true;
        if (n > 0) {
            *reader = desk_reader_feed(*reader, cut, (size_t)n, DESK_ANNEXES);
            bytes += (size_t)n;
        } else if (errno != EINTR) {
            return wrong(input, strerror(errno));
        }
    }
    return true;
}

/* The host's work on standard input: the status to end with. */
static int judge_input(uint32_t page)
{
    desk_reader reader = desk_reader_new(page);
    if (!feed_input(&reader))
        return FAILED;
    desk_answer found = desk_reader_end(reader, NULL, 0).answer;
    if (found.number) {
        tell_refused(page, found.number, found.record, found.at);
    } else {
        tell_sound(page, found.payments, found.euros, found.cents);
        printf("%" PRIu64 " characters would be changed\n", found.changes);
    }
    if (!is_printed())
        return FAILED;
    return found.number ? NOTHING_GOES_ON : ALL_GOES_ON;
}

int main(int argc, char **argv)
{
    request asked = {DESK_ISO_8859_1, false, NULL, {argc - 1, argv + 1}};
    if (!understand(&asked))
        return FAILED;
    signal(SIGPIPE, SIG_IGN); /* where nobody reads on, printing fails, and is told like every other failure */
    return is_input(asked.left.words[0]) ? judge_input(asked.page) : work_on_file(&asked);
}
