#include "desk.h"

#include <inttypes.h>
#include <stdio.h>

/* The refusals, in the English words of docs/WORDS.md. */
static const struct { uint64_t number; const char *words; } refusals[] = {
    {1, "file longer than 7,679,744 bytes (9,999 payments)"},
    {2, "file ends inside a record, or where one is due"},
    {3, "length digits wrong for the letter"},
    {4, "letter not allowed here"},
    {5, "bytes after Z"},
    {7, "judge, prepare, M8, restore: code page neither 0 nor 1"},
    {10, "Q3 is not 50400042"},
    {11, "Q4 is not eight zeros and two digits"},
    {12, "first line of Q5 blank"},
    {13, "Q6 is no date YYMMDD (years 2000 to 2099)"},
    {14, "a non-digit in Q7, Q8, Q10 or Q11"},
    {15, "Q9 is not N"},
    {16, "Q12 not all spaces"},
    {20, "a non-digit in T3 or T4b, or T4a not EUR"},
    {21, "T3 or T4b differs from record 1"},
    {22, "T5, T6 or T7b not all zeros, or T7a not spaces"},
    {23, "T22 is not 00 (transfer), 20 or 22 (cheques)"},
    {24, "T21 not 00, 01 or 02; for a cheque, not 00"},
    {25, "cheque: T8 or T9b not blank, or T9a not spaces"},
    {26, "transfer: T9a wrong: beside a BIC neither three spaces nor two capitals and a space; without one, "
         "not a listed country and a space"},
    {27, "transfer: T8 has no BIC shape and T9b is blank"},
    {28, "T10a not a listed country and a space"},
    {29, "first line of T10b blank; for a cheque, also line 3 or line 4"},
    {30, "T11 not all spaces"},
    {31, "transfer: T12 does not begin with `/` and a non-space; cheque: T12 not blank"},
    {32, "T13 not EUR"},
    {33, "a non-digit in T14a or T14b, last digit of T14b not 0, or amount zero"},
    {34, "a non-digit in T16 to T19 or T25, or T27 not 00"},
    {35, "T26 not all spaces"},
    {40, "a non-digit in Z3 or Z4, or Z5 not all spaces"},
    {41, "Z4 is not the number of T records"},
    {42, "Z3 is not the sum of all T14a (whole euros, no cents)"},
    {43, "prepare, M8: every payment would be returned"},
    {50, "judge, book: the file number (Q4, Q6, Q7) is a taken one"},
    {51, "book: 200 numbers are held"},
    {52, "book: the day is earlier than the book's"},
    {53, "book: more than 9,999 payments, or more than 999,999,999,999,999 euros"},
    {60, "prepare, M8, restore: output room shorter than the file that goes on or is restored, or than the M8 records"},
    {61, "prepare: more changes in the file that goes on than note places"},
    {62, "M8: the code table is not 96 bytes"},
    {63, "prepare: returned list has fewer places than returned payments"},
    {70, "restore: no sound file yields this pair"},
};

/* The fields of docs/RULES.md, 2. A name begins with the letter of its record's kind. */
static const desk_columns fields[] = {
    {"Q3", 6, 13},      {"Q4", 14, 23},     {"Q5", 24, 163},    {"Q6", 164, 169},   {"Q7", 170, 171},
    {"Q8", 172, 177},   {"Q9", 178, 178},   {"Q10", 179, 180},  {"Q11", 181, 188},  {"Q12", 189, 256},
    {"T3", 6, 13},      {"T4a", 14, 16},    {"T4b", 17, 26},    {"T5", 27, 32},     {"T6", 33, 40},
    {"T7a", 41, 43},    {"T7b", 44, 53},    {"T8", 54, 64},     {"T9a", 65, 67},    {"T9b", 68, 207},
    {"T10a", 208, 210}, {"T10b", 211, 350}, {"T11", 351, 420},  {"T12", 421, 455},  {"T13", 456, 458},
    {"T14a", 459, 472}, {"T14b", 473, 475}, {"T15", 476, 615},  {"T16", 616, 617},  {"T17", 618, 619},
    {"T18", 620, 621},  {"T19", 622, 623},  {"T20", 624, 648},  {"T21", 649, 650},  {"T22", 651, 652},
    {"T23", 653, 679},  {"T24", 680, 714},  {"T25", 715, 715},  {"T26", 716, 766},  {"T27", 767, 768},
    {"Z3", 6, 20},      {"Z4", 21, 35},     {"Z5", 36, 256},
};

enum { FIELDS = sizeof fields / sizeof fields[0] };

const char *desk_words(uint64_t number)
{
    for (size_t i = 0; i < sizeof refusals / sizeof refusals[0]; i++)
        if (refusals[i].number == number)
            return refusals[i].words;
    return "no rule of the desk";
}

char desk_kind(uint64_t number)
{
    if (number >= 10 && number <= 16)
        return 'Q';
    if (number >= 20 && number <= 35)
        return 'T';
    return number >= 40 && number <= 42 ? 'Z' : 0;
}

const desk_columns *desk_field(char kind, size_t index)
{
    for (size_t i = 0; i < FIELDS; i++)
        if (fields[i].field[0] == kind && index-- == 0)
            return &fields[i];
    return NULL;
}

const desk_columns *desk_columns_at(char kind, uint64_t offset)
{
    for (size_t i = 0; i < FIELDS; i++)
        if (fields[i].field[0] == kind && offset < fields[i].last && offset + 1 >= fields[i].first)
            return &fields[i];
    return NULL;
}

void desk_refusal_line(char line[DESK_LINE], uint64_t number, uint64_t record, uint64_t at)
{
    const char *words = desk_words(number);
    char kind = desk_kind(number);
    bool is_rule = kind || (number >= 1 && number <= 5);
    const desk_columns *found = desk_columns_at(kind, at);
    if (!is_rule)
        snprintf(line, DESK_LINE, "number %" PRIu64 ": %s", number, words);
    else if (!found)
        snprintf(line, DESK_LINE, "rule %" PRIu64 " at record %" PRIu64 ": %s", number, record, words);
    else if (found->first == found->last)
        snprintf(line, DESK_LINE, "rule %" PRIu64 " at record %" PRIu64 ", %s, column %" PRIu64 ": %s", number, record,
                 found->field, found->first, words);
    else
        snprintf(line, DESK_LINE, "rule %" PRIu64 " at record %" PRIu64 ", %s, columns %" PRIu64 " to %" PRIu64 ": %s",
                 number, record, found->field, found->first, found->last, words);
}
