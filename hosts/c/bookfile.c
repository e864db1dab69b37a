#include "desk.h"

#include <inttypes.h>
#include <stdio.h>
#include <string.h>

enum { LINE_OF_NAME = 1, LINE_OF_DAY = 2, LINE_OF_FIRST = 4 };

/* A form of lines: a pattern, in which 0 stands for any digit and X for any capital hex digit, and what it says. */
typedef struct { const char *pattern, *due; } form;
static const form day_form = {"DAY 0000000000\n", "DAY, a space, 10 digits (at most 4294967295) and a line end (LF)"};
static const form held_form = {"HELD 000\n", "HELD, a space, 3 digits (at most 200) and a line end (LF)"};
static const form entry_form = {
    "00000000000000000000 0000000000 0000 000000000000000\n",
    "20 digits (at most 18446744073709551615), a space, 10 digits (at most 4294967295), a space, 4 digits, a space, "
    "15 digits and a line end (LF)",
};
static const form entry_form_1 = { /* of version 1 */
    "00000000000000000000 0000000000\n",
    "20 digits (at most 18446744073709551615), a space, 10 digits (at most 4294967295) and a line end (LF)",
};
static const form crc_form = {"CRC XXXXXXXX\n", "CRC, a space, 8 hex digits (0 to 9, A to F) and a line end (LF)"};

/* What is not yet read of a text, the number of the last line that was, where it is said what is wrong, and whether the
   version of the layout has payments and euros. */
typedef struct {
    const uint8_t *next, *end;
    unsigned line;
    char *message;
    bool has_figures;
} reading;

static void say(char *message, unsigned line, const char *what, const char *more)
{
    snprintf(message, DESK_BOOK_MESSAGE, "line %u: %s%s", line, what, more);
}

/* Says what is wrong with a line; always false, for the caller to hand on. */
static bool wrong(char *message, unsigned line, const char *what, const char *more)
{
    say(message, line, what, more);
    return false;
}

static bool malformed(const reading *text, const char *due)
{
    return wrong(text->message, text->line, "malformed; due is ", due);
}

static bool cut_short(const reading *text)
{
    return wrong(text->message, text->line, "the book is cut short here", "");
}

static bool is_digit(uint8_t byte) { return byte >= '0' && byte <= '9'; }

static bool fits(uint8_t byte, char due)
{
    if (due == '0')
        return is_digit(byte);
    if (due == 'X')
        return is_digit(byte) || (byte >= 'A' && byte <= 'F');
    return byte == (uint8_t)due;
}

/* Reads the first line, which names the version. */
static bool read_name(reading *text)
{
    static const char name[] = "KAARAVIZHE BOOK ";
    const size_t length = sizeof name - 1, n = (size_t)(text->end - text->next);
    size_t i = length;
    text->line++;
    if (memcmp(text->next, name, n < length ? n : length) != 0)
        return wrong(text->message, text->line, "not a book file", "");
    while (i < n && is_digit(text->next[i]))
        i++;
    if (i >= n)
        return cut_short(text);
    if (i == length || text->next[i] != '\n')
        return malformed(text, "KAARAVIZHE BOOK, a space, 1 or 2, and a line end (LF)");
    const uint8_t version = text->next[length];
    if (i > length + 1 || (version != '1' && version != '2'))
        return wrong(text->message, text->line, "another version of the layout; this desk reads versions 1 and 2", "");
    text->has_figures = version == '2';
    text->next += i + 1;
    return true;
}

/* Reads a line of this form, in which a number may still be too high; null where it has another one. */
static const uint8_t *next_line(reading *text, const form *due)
{
    const uint8_t *line = text->next;
    const size_t length = strlen(due->pattern), n = (size_t)(text->end - line);
    text->line++;
    for (size_t i = 0; i < length && i < n; i++)
        if (!fits(line[i], due->pattern[i])) {
            malformed(text, due->due);
            return NULL;
        }
    if (n < length) {
        cut_short(text);
        return NULL;
    }
    text->next += length;
    return line;
}

/* So many digits of a line of this form as a number, which is not more than the highest. */
static bool number_at(const reading *text, const form *due, const uint8_t *digits, int count, uint64_t highest,
                      uint64_t *number)
{
    *number = 0;
    for (int i = 0; i < count; i++) {
        uint64_t digit = (uint64_t)(digits[i] - '0');
        if (*number > (highest - digit) / 10)
            return malformed(text, due->due);
        *number = *number * 10 + digit;
    }
    return true;
}

static bool read_day(reading *text, uint64_t *day)
{
    const uint8_t *line = next_line(text, &day_form);
    return line && number_at(text, &day_form, line + 4, 10, UINT32_MAX, day);
}

static bool read_held(reading *text, uint64_t *held)
{
    const uint8_t *line = next_line(text, &held_form);
    return line && number_at(text, &held_form, line + 5, 3, DESK_BOOK_PLACES, held);
}

/* Reads the line of a held number. Payments and euros have no more digits than a take passes; in version 1 they are 0. */
static bool read_entry(reading *text, desk_entry *entry)
{
    uint64_t day;
    const form *due = text->has_figures ? &entry_form : &entry_form_1;
    const uint8_t *line = next_line(text, due);
    if (!line || !number_at(text, due, line, 20, UINT64_MAX, &entry->number)
        || !number_at(text, due, line + 21, 10, UINT32_MAX, &day))
        return false;
    entry->day = (uint32_t)day;
    entry->payments = entry->euros = 0;
    return !text->has_figures
        || (number_at(text, due, line + 32, 4, UINT64_MAX, &entry->payments)
            && number_at(text, due, line + 37, 15, UINT64_MAX, &entry->euros));
}

/* Reads the last line, and compares its CRC with that of all bytes before it. */
static bool read_crc(reading *text, const uint8_t *begin)
{
    char both[64];
    const uint8_t *line = next_line(text, &crc_form);
    if (!line)
        return false;
    if (text->next < text->end)
        return wrong(text->message, text->line + 1, "bytes behind the end of the book", "");
    uint32_t stored = 0, found = desk_crc_32(begin, (size_t)(line - begin));
    for (int i = 4; i < 12; i++)
        stored = stored << 4 | (uint32_t)(is_digit(line[i]) ? line[i] - '0' : line[i] - 'A' + 10);
    if (stored == found)
        return true;
    snprintf(both, sizeof both, "%08" PRIX32 ", and the lines before it have %08" PRIX32, stored, found);
    return wrong(text->message, text->line, "damaged; the stored CRC is ", both);
}

/* Takes these entries, in this order, into a new book. Takes of what a book holds leave that very book, its totals too
   (docs/RULES.md, 9.11): so where it is not on this day, or an entry is refused or forgotten by a later one, there is no such
   book. 53 does not occur, for the digits of the figures are few enough; nor does 51, for there are no more than 200. */
static bool take_anew(uint64_t day, uint64_t held, const desk_entry entries[], desk_book *book, char *message)
{
    static const char no_such[] = "no desk leaves such a book; ";
    *book = desk_book_new();
    for (uint64_t i = 0; i < held; i++) {
        const desk_entry *entry = &entries[i];
        desk_taken taken = desk_book_take(*book, entry->number, entry->day, entry->payments, entry->euros);
        const unsigned line = LINE_OF_FIRST + (unsigned)i;
        if (taken.number == DESK_TAKEN)
            return wrong(message, line, no_such, "the number stands in an earlier line too");
        if (taken.number)
            return wrong(message, line, no_such, "the day is earlier than in the line before");
        if (taken.book.held != i + 1)
            return wrong(message, line, no_such, "by this day a number of an earlier line is forgotten");
        *book = taken.book;
    }
    return book->day == day
        || wrong(message, LINE_OF_DAY, no_such, "its day is that of the last number in it, and 0 where there is none");
}

bool desk_book_read(const uint8_t *text, size_t n, desk_book *book, char message[DESK_BOOK_MESSAGE])
{
    static const uint8_t none[1];
    if (n == 0)
        text = none; /* it may be null */
    reading lines = {text, text + n, 0, message, false};
    uint64_t day, held;
    desk_entry entries[DESK_BOOK_PLACES];
    desk_book found;
    if (!read_name(&lines) || !read_day(&lines, &day) || !read_held(&lines, &held))
        return false;
    for (uint64_t i = 0; i < held; i++)
        if (!read_entry(&lines, &entries[i]))
            return false;
    if (!read_crc(&lines, text) || !take_anew(day, held, entries, &found, message))
        return false;
    *book = found;
    message[0] = '\0';
    if (!lines.has_figures)
        say(message, LINE_OF_NAME, "version 1 of the layout has no payments and euros; ",
            "those of the files in it count as 0");
    return true;
}

/* Writes a line, and answers where it ends. */
static uint8_t *put_line(uint8_t *place, const char *line)
{
    size_t length = strlen(line);
    memcpy(place, line, length);
    return place + length;
}

/* The same of a held number's line; null where it has payments or euros of more digits than a take passes. */
static uint8_t *put_entry(uint8_t *place, const desk_entry *entry)
{
    char line[96];
    int length = snprintf(line, sizeof line, "%020" PRIu64 " %010" PRIu32 " %04" PRIu64 " %015" PRIu64 "\n",
                          entry->number, entry->day, entry->payments, entry->euros);
    return length == (int)strlen(entry_form.pattern) ? put_line(place, line) : NULL;
}

size_t desk_book_write(const desk_book *book, uint8_t text[DESK_BOOK_BYTES])
{
    uint8_t own[DESK_BOOK_BYTES], *place = own;
    char line[64], message[DESK_BOOK_MESSAGE];
    desk_book back;
    if (book->held > DESK_BOOK_PLACES)
        return 0;
    snprintf(line, sizeof line, "KAARAVIZHE BOOK 2\nDAY %010" PRIu32 "\nHELD %03" PRIu64 "\n", book->day, book->held);
    place = put_line(place, line);
    for (uint64_t i = 0; i < book->held; i++)
        if (!(place = put_entry(place, &book->places[i])))
            return 0;
    snprintf(line, sizeof line, "CRC %08" PRIX32 "\n", desk_crc_32(own, (size_t)(place - own)));
    place = put_line(place, line);
    const size_t bytes = (size_t)(place - own);
    if (!desk_book_read(own, bytes, &back, message) || back.payments != book->payments || back.euros != book->euros)
        return 0;
    memcpy(text, own, bytes);
    return bytes;
}

uint32_t desk_crc_32(const uint8_t *bytes, size_t n)
{
    uint32_t crc = UINT32_MAX;
    for (size_t i = 0; i < n; i++) {
        crc ^= bytes[i];
        for (int bit = 0; bit < 8; bit++)
            crc = crc & 1 ? crc >> 1 ^ 0xEDB88320 : crc >> 1;
    }
    return ~crc;
}

bool desk_file_number(const uint8_t *file, size_t n, uint64_t *number)
{
    static const struct { size_t place, end; } parts[] = {{13, 23}, {163, 169}, {169, 171}}; /* Q4, Q6 and Q7 */
    uint64_t found = 0;
    for (size_t i = 0; i < sizeof parts / sizeof parts[0]; i++)
        for (size_t place = parts[i].place; place < parts[i].end; place++) {
            if (place >= n || !is_digit(file[place]))
                return false;
            found = found * 10 + (uint64_t)(file[place] - '0');
        }
    *number = found;
    return true;
}
