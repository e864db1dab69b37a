/* The book of taken files, requests A7 and A8 of document 02: examples, worked out by hand, also of books that no take
   leaves; both sides of each limit; every short row of takes; books that are full, and whose places are used again; the
   last days; random books of both kinds. */
#include <string.h>

#include "chance.h"
#include "suites.h"
#include "takes.h"

enum { PLACES = 200 };
#define LAST_DAY 4294967295u
#define LAST_NUMBER 18446744073709551615u
#define MOST_PAYMENTS 9999u
#define MOST_EUROS 999999999999999u

/* A file that has as many payments as its number says, and so many thousand euros; and the totals that are due of such
   files, by the payments of all of them. */
static plain_entry numbered(uint64_t number, uint32_t day) { return (plain_entry){number, day, number, 1000 * number}; }
static void numbered_due(uint64_t files, uint64_t sum) { totals_due((plain_totals){files, sum, 1000 * sum}); }

/* ---- Examples --------------------------------------------------------------------------------- */

/* A number, its day, and what is answered. */
typedef struct { uint64_t number; uint32_t day; uint64_t answer; } example_take;

/* In a new book. */
typedef struct { size_t n; example_take takes[12]; } example;

static const example examples[] = {
    /* taken on day 7, it is held through day 11; and what is refused with 50 is not taken anew */
    {7, {{5, 7, 0}, {5, 7, 50}, {5, 8, 50}, {5, 9, 50}, {5, 10, 50}, {5, 11, 50}, {5, 12, 0}}},
    {4, {{5, 7, 0}, {5, 11, 50}, {5, 12, 0}, {5, 16, 50}}},
    {3, {{5, 7, 0}, {5, 13, 0}, {5, 17, 50}}},
    {5, {{1, 0, 0}, {1, 4, 50}, {1, 5, 0}, {1, 4, 52}, {1, 5, 50}}},
    {4, {{1, 3, 0}, {1, 8, 0}, {1, 12, 50}, {1, 13, 0}}},
    /* 50 on a later day moves no day, so an earlier one may follow, but for those before the book's */
    {8, {{5, 7, 0}, {5, 11, 50}, {6, 7, 0}, {7, 6, 52}, {5, 6, 52}, {7, 8, 0}, {8, 7, 52}, {8, 8, 0}}},
    /* and it forgets nothing: on day 8 the first number is forgotten, but the second one is held */
    {5, {{1, 0, 0}, {2, 4, 0}, {2, 8, 50}, {1, 4, 50}, {1, 5, 0}}},
    /* 52 on an earlier day comes before 50, and moves no day either */
    {6, {{1, 9, 0}, {1, 8, 52}, {2, 0, 52}, {1, 4, 52}, {1, 9, 50}, {2, 9, 0}}},
    /* each number by itself */
    {9, {{1, 0, 0}, {2, 1, 0}, {3, 4, 0}, {1, 4, 50}, {1, 5, 0}, {2, 5, 50}, {2, 6, 0}, {3, 8, 50}, {3, 9, 0}}},
    /* any 64-bit number, also where half of it is that of another */
    {12, {{0, 0, 0}, {0, 0, 50}, {LAST_NUMBER, 0, 0}, {4294967296u, 0, 0}, {4294967295u, 0, 0},
          {9223372036854775808u, 0, 0}, {1, 0, 0}, {4294967297u, 0, 0}, {LAST_NUMBER, 4, 50}, {0, 4, 50}, {0, 5, 0},
          {LAST_NUMBER, 5, 0}}},
    /* any day: all at once, and up to the last one, before which there is no room for five more */
    {6, {{1, 0, 0}, {2, 3, 0}, {1, LAST_DAY, 0}, {2, LAST_DAY, 0}, {1, LAST_DAY, 50}, {3, LAST_DAY - 1, 52}}},
    {5, {{9, LAST_DAY, 0}, {9, LAST_DAY, 50}, {8, LAST_DAY - 1, 52}, {9, 0, 52}, {8, LAST_DAY, 0}}},
    {5, {{9, LAST_DAY - 5, 0}, {9, LAST_DAY - 1, 50}, {9, LAST_DAY, 0}, {9, LAST_DAY, 50}, {8, LAST_DAY - 5, 52}}},
    {5, {{9, LAST_DAY - 4, 0}, {9, LAST_DAY - 4, 50}, {9, LAST_DAY, 50}, {8, LAST_DAY, 0}, {9, LAST_DAY, 50}}},
    {4, {{9, LAST_DAY - 4, 0}, {9, LAST_DAY, 50}, {8, LAST_DAY - 3, 0}, {9, LAST_DAY - 4, 52}}},
    {4, {{9, 2147483647u, 0}, {8, 2147483648u, 0}, {9, 2147483651u, 50}, {9, 2147483652u, 0}}},
};
enum { EXAMPLES = sizeof examples / sizeof examples[0] };

/* The figures of each are of another size, so that a total tells which of them are in it. */
static void take_each(const example_take *takes, size_t n)
{
    uint64_t payments = 1, euros = 1;
    for (size_t i = 0; i < n; i++, payments *= 2, euros *= 10)
        take_due((plain_entry){takes[i].number, takes[i].day, payments, euros}, takes[i].answer);
}

static void each_example(void)
{
    for (const example *e = examples; e < examples + EXAMPLES; e++) {
        open_new_book();
        take_each(e->takes, e->n);
    }
}

/* ---- Examples of totals ----------------------------------------------------------------------- */

/* A file, what is answered, and the totals that are then due. */
typedef struct { plain_entry file; uint64_t answer; plain_totals due; } totals_take;

/* In a new book. */
typedef struct { size_t n; totals_take takes[8]; } totals_example;

static const totals_example totals_examples[] = {
    /* payments to payments, and euros to euros; also where there are more payments than euros */
    {3, {{{5, 7, 2, 199}, 0, {1, 2, 199}}, {{6, 7, 3, 1000000}, 0, {2, 5, 1000199}},
         {{7, 8, 9000, 1}, 0, {3, 9005, 1000200}}}},
    /* 0 payments and 0 euros are taken, each and both; the number is held */
    {4, {{{5, 0, 0, 0}, 0, {1, 0, 0}}, {{5, 0, 0, 0}, 50, {1, 0, 0}}, {{6, 0, 1, 0}, 0, {2, 1, 0}},
         {{7, 4, 0, 1}, 0, {3, 1, 1}}}},
    /* taken on day 7, a file counts while the book is on days 7 to 11 */
    {4, {{{5, 7, 10, 100}, 0, {1, 10, 100}}, {{6, 11, 20, 200}, 0, {2, 30, 300}}, {{7, 12, 40, 400}, 0, {2, 60, 600}},
         {{8, 16, 80, 800}, 0, {2, 120, 1200}}}},
    /* several are forgotten at once: four of five, then both that are left, and three of one day */
    {7, {{{1, 0, 1, 10}, 0, {1, 1, 10}}, {{2, 1, 2, 20}, 0, {2, 3, 30}}, {{3, 2, 4, 40}, 0, {3, 7, 70}},
         {{4, 3, 8, 80}, 0, {4, 15, 150}}, {{5, 4, 16, 160}, 0, {5, 31, 310}}, {{6, 8, 32, 320}, 0, {2, 48, 480}},
         {{7, 13, 64, 640}, 0, {1, 64, 640}}}},
    {5, {{{1, 3, 1, 10}, 0, {1, 1, 10}}, {{2, 3, 2, 20}, 0, {2, 3, 30}}, {{3, 3, 4, 40}, 0, {3, 7, 70}},
         {{4, LAST_DAY, 0, 0}, 0, {1, 0, 0}}, {{5, LAST_DAY, 9, 1}, 0, {2, 9, 1}}}},
    /* a number that is taken again counts with its new figures alone */
    {4, {{{5, 7, 1, 10}, 0, {1, 1, 10}}, {{5, 11, 2, 20}, 50, {1, 1, 10}}, {{5, 12, 4, 40}, 0, {1, 4, 40}},
         {{5, 17, 0, 0}, 0, {1, 0, 0}}}},
    /* no refusal counts, whatever its day; and none forgets: the first file is forgotten on day 5 */
    {8, {{{1, 0, 1, 10}, 0, {1, 1, 10}}, {{2, 4, 2, 20}, 0, {2, 3, 30}}, {{2, 4, 4, 40}, 50, {2, 3, 30}},
         {{2, 8, 4, 40}, 50, {2, 3, 30}}, {{3, 3, 4, 40}, 52, {2, 3, 30}}, {{3, 8, 10000, 40}, 53, {2, 3, 30}},
         {{1, 4, 4, 40}, 50, {2, 3, 30}}, {{1, 5, 8, 80}, 0, {2, 10, 100}}}},
    /* nor does 53 move the day: what was allowed before it is allowed after it */
    {5, {{{1, 7, 1, 10}, 0, {1, 1, 10}}, {{2, LAST_DAY, 10000, 0}, 53, {1, 1, 10}},
         {{2, 12, 0, 1000000000000000}, 53, {1, 1, 10}}, {{2, 7, 9999, 999999999999999}, 0, {2, 10000, 1000000000000009}},
         {{1, 12, 0, 1}, 0, {1, 0, 1}}}},
};
enum { TOTALS_EXAMPLES = sizeof totals_examples / sizeof totals_examples[0] };

static void take_with_totals(const totals_take *takes, size_t n)
{
    for (size_t i = 0; i < n; i++) {
        take_due(takes[i].file, takes[i].answer);
        totals_due(takes[i].due);
    }
}

static void each_totals_example(void)
{
    for (const totals_example *e = totals_examples; e < totals_examples + TOTALS_EXAMPLES; e++) {
        open_new_book();
        totals_due((plain_totals){0, 0, 0});
        take_with_totals(e->takes, e->n);
    }
}

/* ---- Both sides of each limit ----------------------------------------------------------------- */

/* Payments, euros, and what is answered where nothing else is wrong. */
static const struct { uint64_t payments, euros, answer; } limits[] = {
    {0, 0, 0}, {1, 1, 0}, {9998, 0, 0}, {9999, 0, 0}, {0, 999999999999998, 0}, {0, 999999999999999, 0},
    {9999, 999999999999999, 0}, {10000, 0, 53}, {10001, 0, 53}, {0, 1000000000000000, 53}, {0, 1000000000000001, 53},
    {10000, 999999999999999, 53}, {9999, 1000000000000000, 53}, {10000, 1000000000000000, 53},
    /* the one's limit is not the other's */
    {0, 9999, 0}, {0, 10000, 0}, {9999, 10000, 0}, {999999999999999, 0, 53}, {999999999999999, 9999, 53},
    /* and neither has 16 bits, 32, or a sign: half of a large figure may be a small one */
    {65536, 0, 53}, {75535, 0, 53}, {4294967295u, 0, 53}, {4294967296u, 0, 53}, {4294967297u, 1, 53}, {4294977295u, 0, 53},
    {0, 65536, 0}, {0, 2764472319u, 0}, {0, 2764472320u, 0}, {0, 4294967295u, 0}, {0, 4294967296u, 0}, {1, 4294967297u, 0},
    {0, 1125899906842624, 53}, {0, 1125899906842625, 53}, {0, 4503599627370496, 53},
    {9223372036854775807u, 0, 53}, {9223372036854775808u, 0, 53},
    {0, 9223372036854775807u, 53}, {0, 9223372036854775808u, 53},
    {LAST_NUMBER, 0, 53}, {0, LAST_NUMBER, 53}, {LAST_NUMBER, LAST_NUMBER, 53}, {LAST_NUMBER, 1, 53}, {1, LAST_NUMBER, 53},
};
enum { LIMITS = sizeof limits / sizeof limits[0] };

/* A take of each; where its figures are not too large, this one is answered. */
static void take_each_limit(uint64_t number, uint32_t day, uint64_t otherwise)
{
    for (size_t i = 0; i < LIMITS; i++)
        take_due((plain_entry){number, day, limits[i].payments, limits[i].euros},
                 limits[i].answer ? limits[i].answer : otherwise);
}

/* Where nothing else is wrong, what passes counts, and nothing else does. */
static void each_limit_alone(void)
{
    for (size_t i = 0; i < LIMITS; i++) {
        bool passes = limits[i].answer == 0;
        open_new_book();
        take_due((plain_entry){5, 7, limits[i].payments, limits[i].euros}, limits[i].answer);
        totals_due(passes ? (plain_totals){1, limits[i].payments, limits[i].euros} : (plain_totals){0, 0, 0});
        take_due((plain_entry){5, 6, 0, 0}, passes ? 52 : 0);
    }
}

/* 53 before 52 and 50, where one of them or both are due; the book is that of the first take. */
static void each_limit_before_others(void)
{
    open_new_book();
    take_due((plain_entry){1, 9, 3, 70}, 0);
    take_each_limit(2, 8, 52);
    take_each_limit(1, 9, 50);
    take_each_limit(1, 13, 50);
    take_each_limit(1, 8, 52);
    take_each_limit(1, 0, 52);
    totals_due((plain_totals){1, 3, 70});
}

/* ---- Examples of books that no take leaves ---------------------------------------------------- */

/* Its day, what it says that it holds, its first places, and takes in it. */
typedef struct { uint64_t number; uint32_t day; } example_place;
typedef struct { uint32_t day; uint64_t held; example_place places[3]; size_t n; example_take takes[6]; } odd_example;

static const odd_example odd_examples[] = {
    /* behind what is held nothing counts */
    {7, 1, {{5, 7}, {6, 7}, {6, 7}}, 3, {{5, 7, 50}, {6, 7, 0}, {6, 7, 50}}},
    {7, 0, {{5, 7}, {5, 7}}, 2, {{5, 7, 0}, {5, 7, 50}}},
    /* a number twice: it is held while one of them is */
    {8, 2, {{5, 7}, {5, 8}}, 3, {{5, 12, 50}, {5, 11, 50}, {5, 13, 0}}},
    {8, 3, {{5, 8}, {5, 4}, {5, 8}}, 4, {{5, 12, 50}, {6, 9, 0}, {5, 12, 50}, {5, 13, 0}}},
    /* days not in their order: each by itself */
    {9, 3, {{5, 9}, {6, 5}, {7, 8}}, 5, {{6, 9, 50}, {6, 10, 0}, {7, 12, 50}, {7, 13, 0}, {5, 13, 50}}},
    /* a day later than the book's, up to the last one: held, until five days after it */
    {7, 1, {{5, 100}}, 5, {{5, 7, 50}, {6, 7, 0}, {5, 99, 50}, {5, 104, 50}, {5, 105, 0}}},
    {0, 2, {{5, LAST_DAY}, {6, LAST_DAY - 4}}, 4, {{5, 0, 50}, {6, 3, 50}, {7, 3, 0}, {5, LAST_DAY, 50}}},
    {0, 2, {{5, LAST_DAY - 5}, {6, LAST_DAY - 4}}, 3, {{5, LAST_DAY - 1, 50}, {5, LAST_DAY, 0}, {6, LAST_DAY, 50}}},
    /* long forgotten, and still in its place */
    {90, 2, {{5, 3}, {6, 90}}, 3, {{6, 90, 50}, {5, 89, 52}, {5, 90, 0}}},
    {LAST_DAY, 1, {{5, 0}}, 2, {{5, LAST_DAY, 0}, {5, LAST_DAY, 50}}},
};
enum { ODD_EXAMPLES = sizeof odd_examples / sizeof odd_examples[0] };

static void each_odd_example(void)
{
    for (const odd_example *e = odd_examples; e < odd_examples + ODD_EXAMPLES; e++) {
        plain_book book = {.day = e->day, .held = e->held};
        for (size_t i = 0; i < sizeof e->places / sizeof e->places[0]; i++)
            book.places[i] = numbered(e->places[i].number, e->places[i].day);
        open_book(&book);
        take_each(e->takes, e->n);
    }
}

/* Its day, the totals that are stored in it, its first places, and takes in it. */
typedef struct {
    uint32_t day;
    plain_totals stored;
    plain_entry places[3];
    size_t n;
    totals_take takes[5];
} odd_totals_example;

static const odd_totals_example odd_totals_examples[] = {
    /* wrong totals: a refused take gives them back as they are, and one that is accepted does not read them */
    {7, {1, 1000, 5}, {{5, 7, 2, 199}}, 5, {{{5, 7, 1, 1}, 50, {1, 1000, 5}}, {{6, 6, 1, 1}, 52, {1, 1000, 5}},
        {{6, 12, 10000, 1}, 53, {1, 1000, 5}}, {{6, 7, 3, 300}, 0, {2, 5, 499}}, {{7, 12, 1, 1}, 0, {1, 1, 1}}}},
    {7, {2, LAST_NUMBER, 0}, {{5, 7, 2, 199}, {6, 7, 3, 1}}, 3, {{{6, 11, 1, 1}, 50, {2, LAST_NUMBER, 0}},
        {{7, 11, 4, 800}, 0, {3, 9, 1000}}, {{8, 12, 0, 0}, 0, {2, 4, 800}}}},
    {0, {0, 9, 90}, {{0, 0, 0, 0}}, 2, {{{5, 0, 1, 2}, 0, {1, 1, 2}}, {{6, 5, 3, 4}, 0, {1, 3, 4}}}},
    /* behind what is held no figure counts, and none is left there */
    {7, {1, 2, 199}, {{5, 7, 2, 199}, {6, 7, 50, 60}, {7, 7, 70, 80}}, 3, {{{5, 7, 0, 0}, 50, {1, 2, 199}},
        {{7, 7, 1, 1}, 0, {2, 3, 200}}, {{6, 8, 0, 0}, 0, {3, 3, 200}}}},
    /* each place counts by itself, also where a number stands in two */
    {8, {2, 3, 30}, {{5, 7, 1, 10}, {5, 8, 2, 20}}, 3, {{{5, 12, 4, 40}, 50, {2, 3, 30}}, {{6, 11, 4, 40}, 0, {3, 7, 70}},
        {{7, 12, 8, 80}, 0, {3, 14, 140}}}},
    /* days not in their order, one later than the book's, and one long forgotten and still in its place */
    {9, {3, 0, 0}, {{5, 9, 1, 10}, {6, 5, 2, 20}, {7, 8, 4, 40}}, 3, {{{8, 9, 8, 80}, 0, {4, 15, 150}},
        {{6, 10, 16, 160}, 0, {4, 29, 290}}, {{7, 13, 32, 320}, 0, {4, 57, 570}}}},
    {7, {1, 1, 10}, {{5, 100, 1, 10}}, 4, {{{6, 7, 2, 20}, 0, {2, 3, 30}}, {{7, 99, 4, 40}, 0, {2, 5, 50}},
        {{8, 104, 8, 80}, 0, {2, 9, 90}}, {{9, 105, 16, 160}, 0, {2, 24, 240}}}},
    {90, {2, 3, 30}, {{5, 3, 1, 10}, {6, 90, 2, 20}}, 2, {{{6, 90, 4, 40}, 50, {2, 3, 30}},
        {{7, 90, 4, 40}, 0, {2, 6, 60}}}},
    /* figures that no take passes stand in their places as they are, and count */
    {7, {2, 0, 0}, {{5, 6, 10000, 1000000000000000}, {6, 7, 4294967296u, 9223372036854775807u}}, 3, {
        {{7, 7, 1, 1}, 0, {3, 4294977297u, 9224372036854775808u}},
        {{8, 11, 2, 2}, 0, {3, 4294967299u, 9223372036854775810u}}, {{9, 12, 4, 4}, 0, {2, 6, 6}}}},
    /* sums beyond 2^64 are counted from 0 again, and they are right again once one of them is forgotten */
    {7, {2, 0, 0}, {{5, 6, LAST_NUMBER, 1}, {6, 7, 3, LAST_NUMBER}}, 3, {{{7, 7, 0, 0}, 0, {3, 2, 0}},
        {{8, 11, 5, 5}, 0, {3, 8, 4}}, {{9, 12, 0, 1}, 0, {2, 5, 6}}}},
    {7, {3, 0, 0}, {{4, 7, LAST_NUMBER, 9223372036854775808u}, {5, 6, LAST_NUMBER, 9223372036854775808u},
        {6, 7, LAST_NUMBER, 7}}, 3, {{{7, 7, 2, 9}, 0, {4, LAST_NUMBER, 16}}, {{8, 7, 1, 0}, 0, {5, 0, 16}},
        {{9, 11, 0, 1}, 0, {5, 1, 9223372036854775825u}}}},
};
enum { ODD_TOTALS_EXAMPLES = sizeof odd_totals_examples / sizeof odd_totals_examples[0] };

static void each_odd_totals_example(void)
{
    for (const odd_totals_example *e = odd_totals_examples; e < odd_totals_examples + ODD_TOTALS_EXAMPLES; e++) {
        const plain_totals *stored = &e->stored;
        plain_book book = {.day = e->day, .held = stored->files, .payments = stored->payments, .euros = stored->euros};
        memcpy(book.places, e->places, sizeof e->places);
        open_book(&book);
        totals_due(*stored);
        take_with_totals(e->takes, e->n);
    }
}

/* Where a book says that it holds 200 or more, all places count; here all of them are of one day. Where the same number
   stands in all of them there is no place for another either. Its totals are wrong. */
static void books_that_say_more(bool same_number)
{
    static const uint64_t held[] = {200, 201, 255, 256, 257, 456, 65536, 4294967296u, 4294967297u, 9223372036854775808u,
        LAST_NUMBER};
    for (size_t i = 0; i < sizeof held / sizeof held[0]; i++) {
        plain_book book = {.day = 7, .held = held[i], .payments = 8, .euros = 9};
        for (size_t k = 0; k < PLACES; k++)
            book.places[k] = numbered(same_number ? 200 : k + 1, 7);
        open_book(&book);
        take_due(numbered(200, 7), 50);
        take_due(numbered(201, 7), 51);
        take_due(numbered(201, 11), 51);
        take_due(numbered(200, 11), 50);
        take_due(numbered(201, 6), 52);
        take_due(numbered(10000, 12), 53);
        totals_due((plain_totals){held[i], 8, 9});
        take_due(numbered(200, 12), 0);
        numbered_due(1, 200);
        take_due(numbered(201, 12), 0);
        numbered_due(2, 401);
    }
}

/* In the totals all places count too, the last one among them, which is of another day: on day 12 it alone is held, or it
   alone is forgotten. */
static void book_that_says_more_of_two_days(uint32_t most, uint32_t last, plain_totals due)
{
    plain_book book = {.day = 8, .held = LAST_NUMBER};
    for (size_t k = 0; k < PLACES; k++)
        book.places[k] = numbered(k + 1, k + 1 < PLACES ? most : last);
    open_book(&book);
    take_due(numbered(201, 12), 0);
    totals_due(due);
}

/* ---- Full books ------------------------------------------------------------------------------- */

static void take_from(uint64_t first, size_t n, uint32_t day)
{
    for (uint64_t number = first; number < first + n; number++)
        take_due(numbered(number, day), 0);
}

/* 200 on one day, and nothing more on that day and the next four, as far as there are so many days. */
static void full_on(uint32_t day)
{
    open_new_book();
    take_from(1, PLACES, day);
    numbered_due(PLACES, 20100);
    for (uint32_t later = 0; later <= 4 && later <= LAST_DAY - day; later++) {
        take_due(numbered(201, day + later), 51);
        take_due(numbered(1, day + later), 50);     /* 50 before 51 */
        take_due(numbered(200, day + later), 50);
        take_due(numbered(201, day), 51);           /* an earlier day again */
    }
    if (day > 0) {
        take_due(numbered(201, day - 1), 52);       /* 52 before both */
        take_due(numbered(1, day - 1), 52);
    }
    numbered_due(PLACES, 20100);
    if (LAST_DAY - day < 5)
        return;
    take_due(numbered(1, day + 5), 0);              /* all are forgotten */
    numbered_due(1, 1);
    take_from(201, PLACES - 1, day + 5);
    take_due(numbered(2, day + 5), 51);
    numbered_due(PLACES, 59701);
}

static void each_full_book(void)
{
    static const uint32_t days[] = {0, 1, 7, 255, 65535, 2147483645, 4294967289u, 4294967290u, 4294967291u, 4294967294u,
        4294967295u};
    for (size_t i = 0; i < sizeof days / sizeof days[0]; i++)
        full_on(days[i]);
}

/* Some on one day and the rest on the next: five days after the first, just so many places are free, and each is used again
   by a file with 200 payments more. A day later those of the first two days are gone. */
static void full_of_two_days(size_t first)
{
    open_new_book();
    take_from(1, first, 20);
    take_from(first + 1, PLACES - first, 21);
    take_due(numbered(201, 24), 51);
    take_due(numbered(first + 1, 25), 50);
    numbered_due(PLACES, 20100);
    take_from(201, first, 25);
    numbered_due(PLACES, 20100 + 200 * first);
    take_due(numbered(1, 25), 51);
    take_due(numbered(first + 1, 25), 50);
    take_due(numbered(first + 1, 26), 0);
    numbered_due(first + 1, first * (401 + first) / 2 + first + 1);
}

/* 40 a day fill the book on the fifth. From then on 40 are forgotten each day, and those very numbers are taken again. */
static void forty_a_day(uint32_t first, uint32_t days)
{
    open_new_book();
    for (uint32_t day = first; day < first + days; day++) {
        uint64_t number = 1 + 40 * (day % 5);
        take_from(number, 40, day);
        take_due(numbered(number, day + 4), 50);
        if (day >= first + 4) {
            take_due(numbered(201, day), 51);
            numbered_due(PLACES, 20100);
        }
    }
}

/* The largest totals that takes leave. In a full book 53 comes before 51 too, and before 50 and 52. */
static void full_of_the_largest(void)
{
    const plain_totals most = {200, 1999800, 199999999999999800};
    open_new_book();
    for (uint64_t number = 1; number <= PLACES; number++)
        take_due((plain_entry){number, 20, MOST_PAYMENTS, MOST_EUROS}, 0);
    totals_due(most);
    take_each_limit(201, 20, 51);
    take_each_limit(201, 24, 51);
    take_each_limit(200, 24, 50);
    take_each_limit(201, 19, 52);
    totals_due(most);
    take_due((plain_entry){201, 25, MOST_PAYMENTS + 1, MOST_EUROS}, 53);
    totals_due(most);
    take_due((plain_entry){201, 25, MOST_PAYMENTS, MOST_EUROS}, 0);
    totals_due((plain_totals){1, 9999, 999999999999999});
}

/* And so for days on: 40 a day, of which the last 200 are held. */
static void the_largest_for_days(void)
{
    open_new_book();
    for (uint64_t number = 0; number < 2000; number++)
        take_due((plain_entry){number, (uint32_t)(number / 40), MOST_PAYMENTS, MOST_EUROS}, 0);
    totals_due((plain_totals){200, 1999800, 199999999999999800});
}

/* ---- Every short row of takes ----------------------------------------------------------------- */

static const uint32_t row_days[] = {0, 1, 4, 5, 6, 9, 10};
enum { DAYS = sizeof row_days / sizeof row_days[0] };

/* Four takes, each of one of two numbers on one of seven days. Each has ten times the figures of the one before it, so that
   a total tells which of them are in it. */
static void each_short_row(void)
{
    enum { CHOICES = 2 * DAYS };
    for (size_t row = 0; row < CHOICES * CHOICES * CHOICES * CHOICES; row++) {
        uint64_t times = 1;
        open_new_book();
        for (size_t k = 0, rest = row; k < 4; k++, rest /= CHOICES, times *= 10)
            take((plain_entry){rest % 2, row_days[rest % CHOICES / 2], times, 7 * times});
    }
}

/* Three takes, of which each may also have too many payments or too many euros. */
static void each_row_with_large_figures(void)
{
    static const struct { uint64_t payments, euros; } figures[] = {{1, 7}, {MOST_PAYMENTS + 1, 7}, {1, MOST_EUROS + 1}};
    enum { FIGURES = sizeof figures / sizeof figures[0], CHOICES = 2 * DAYS * FIGURES };
    for (size_t row = 0; row < CHOICES * CHOICES * CHOICES; row++) {
        uint64_t times = 1;
        open_new_book();
        for (size_t k = 0, rest = row; k < 3; k++, rest /= CHOICES, times *= 10) {
            uint32_t day = row_days[rest % CHOICES / 2 % DAYS];
            size_t of = rest % CHOICES / 2 / DAYS;
            take((plain_entry){rest % 2, day, times * figures[of].payments, times * figures[of].euros});
        }
    }
}

/* ---- Random books ----------------------------------------------------------------------------- */

static uint32_t later(uint32_t day, uint32_t by) { return by < LAST_DAY - day ? day + by : LAST_DAY; }
static uint32_t earlier(uint32_t day, uint32_t by) { return by < day ? day - by : 0; }

/* So many numbers, among them the least, the greatest, and such as have a half in common; of 0 all that there are. */
static uint64_t some_number(size_t numbers)
{
    uint64_t half = below(numbers) / 4;
    if (numbers == 0)
        return any();
    switch (below(4)) {
    case 0: return half;
    case 1: return half << 32;
    case 2: return half << 32 | half;
    default: return LAST_NUMBER - half;
    }
}

/* A place of the book as it stands; one that does not count where none does. */
static plain_entry some_place(void) { return book_left()->places[below(places_left())]; }

/* Just beyond the most, or of any size; also such as have zeros in their lower half. */
static uint64_t large_figure(uint64_t most)
{
    uint64_t figure = any();
    switch (below(3)) {
    case 0: return most + 1 + figure % 3;
    case 1: return figure >> below(64);
    default: return figure << below(64);
    }
}

/* Mostly one that passes, also 0, the most and those about it; now and then a larger one. */
static uint64_t some_figure(uint64_t most)
{
    uint64_t figure = any();
    if (one_in(50))
        return large_figure(most);
    switch (below(8)) {
    case 0: return 0;
    case 1: return most - figure % 3;
    case 2: return (figure >> below(64)) % (most + 1);
    default: return figure % (most + 1);
    }
}

static void take_some(uint64_t number, uint32_t day)
{
    uint64_t payments = some_figure(MOST_PAYMENTS), euros = some_figure(MOST_EUROS);
    take((plain_entry){number, day, payments, euros});
}

/* Any distance, a short one as likely as a long one. */
static uint32_t some_days(void)
{
    uint32_t days = (uint32_t)any();
    return days >> below(32);
}

/* Some day, and one of so many numbers, or one of the book's; the day goes on about once in so many takes. */
static void random_take(size_t numbers, size_t pace)
{
    uint64_t number = some_number(numbers);
    uint32_t today = book_left()->day;
    plain_entry place = some_place();
    bool goes_on = one_in(pace);
    switch (below(8)) {
    case 0: take_some(number, earlier(today, one_in(2) ? 1 : some_days())); break;
    case 1: take_some(place.number, later(place.day, (uint32_t)below(5))); break;
    case 2: take_some(place.number, goes_on ? later(place.day, 5) : today); break;
    case 3: take_some(number, goes_on ? later(today, (uint32_t)below(7)) : today); break;
    default: take_some(number, goes_on ? later(today, (uint32_t)below(3)) : today);
    }
}

static void random_takes(size_t takes, size_t numbers, size_t pace)
{
    while (takes-- > 0)
        random_take(numbers, pace);
}

/* How many numbers there are; and how slowly days go on. Of many numbers and slow days books get full. */
static const size_t numbers_of[] = {1, 3, 20, 100, 400, 1000, 0}, paces[] = {1, 3, 20, 80, 150};
enum { NUMBERS = sizeof numbers_of / sizeof numbers_of[0], PACES = sizeof paces / sizeof paces[0] };

/* Day 0, one of the last days, or any other. */
static uint32_t some_day(void)
{
    switch (below(8)) {
    case 0: return LAST_DAY - (uint32_t)below(12);
    case 1: case 2: case 3: return some_days();
    default: return 0;
    }
}

/* From some day on, now and then in a book that is nearly full. */
static void random_history(size_t takes, size_t numbers, size_t pace)
{
    open_new_book();
    take_some(LAST_NUMBER / 2, some_day());
    if (one_in(3))
        for (size_t fresh = 155 + below(60); fresh > 0; fresh--) {
            uint64_t number = any();
            take_some(number, later(book_left()->day, one_in(60)));
        }
    random_takes(takes, numbers, pace);
}

/* Any number, or one of the book's, on any day. */
static void random_jumps(size_t takes)
{
    open_new_book();
    while (takes-- > 0) {
        uint64_t number = one_in(4) ? some_place().number : any();
        uint32_t by = some_days();
        take_some(number, one_in(4) ? (uint32_t)any() : later(book_left()->day, by >> below(32)));
    }
}

/* ---- Random books that no take leaves --------------------------------------------------------- */

static uint64_t some_held(void)
{
    uint64_t held = any();
    switch (below(6)) {
    case 0: return held >> below(64);
    case 1: return PLACES + 1 + held % 3;
    case 2: return PLACES - held % 3;
    case 3: return PLACES;
    default: return held % (PLACES + 1);
    }
}

/* A day about the book's, on which the number is held, forgotten once in so many times, and now and then not yet taken. */
static uint32_t day_about(uint32_t day, size_t forgotten)
{
    uint32_t by = (uint32_t)below(5);
    return one_in(forgotten) ? earlier(day, 5 + by) : one_in(20) ? later(day, 1 + by) : earlier(day, by);
}

/* Figures that takes pass, or any: a few of the largest are enough for sums beyond 2^64. */
static uint64_t forged_figure(uint64_t most, bool any_figure)
{
    uint64_t figure = any();
    return any_figure ? figure >> (one_in(2) ? 0 : below(64)) : figure % (most + 1);
}

static plain_book forged_book(size_t numbers, size_t forgotten)
{
    bool any_day = one_in(8), any_figure = one_in(3);
    plain_book book = {.day = some_day()};
    book.day = later(book.day, (uint32_t)below(20));
    book.held = some_held();
    book.payments = forged_figure(PLACES * MOST_PAYMENTS, one_in(2));
    book.euros = forged_figure(PLACES * MOST_EUROS, one_in(2));
    for (plain_entry *e = book.places; e < book.places + PLACES; e++) {
        e->number = some_number(numbers);
        e->day = any_day ? (uint32_t)any() : day_about(book.day, forgotten);
        e->payments = forged_figure(MOST_PAYMENTS, any_figure);
        e->euros = forged_figure(MOST_EUROS, any_figure);
    }
    return book;
}

/* Numbers that stand there twice, days in any order, and totals that are no sums; there are entries in all places, however
   many are held. */
static void random_forged_book(void)
{
    static const size_t numbers[] = {8, 60, 400, 0}, forgotten[] = {1, 2, 20, 200, 2000};
    size_t many = numbers[below(sizeof numbers / sizeof numbers[0])];
    size_t one_of = forgotten[below(sizeof forgotten / sizeof forgotten[0])];
    plain_book book = forged_book(many, one_of);
    open_book(&book);
    for (size_t takes = 1 + below(6); takes > 0; takes--) {
        uint64_t number = book.places[below(PLACES)].number;
        if (one_in(4))
            take_some(number, later(book_left()->day, (uint32_t)below(4)));
        else
            random_take(many, 2);
    }
}

/* ---- Suite ------------------------------------------------------------------------------------ */

void each_book(void)
{
    each_example();
    each_totals_example();
    each_limit_alone();
    each_limit_before_others();
    each_odd_example();
    each_odd_totals_example();
    books_that_say_more(false);
    books_that_say_more(true);
    book_that_says_more_of_two_days(7, 8, (plain_totals){2, 401, 401000});
    book_that_says_more_of_two_days(8, 7, (plain_totals){200, 20101, 20101000});
    full_of_the_largest();
    the_largest_for_days();
    each_full_book();
    for (size_t first = 1; first < PLACES; first += 33)
        full_of_two_days(first);
    forty_a_day(0, 200);
    forty_a_day(LAST_DAY - 103, 100);
    each_short_row();
    each_row_with_large_figures();
    for (size_t k = 0; k < 4 * NUMBERS * PACES; k++)
        random_history(50 + below(300), numbers_of[k % NUMBERS], paces[k / NUMBERS % PACES]);
    random_history(9000, 20, 1);
    for (size_t pace = 20; pace <= 120; pace += 20)
        random_history(9000, 0, pace);
    for (int k = 0; k < 200; k++)
        random_jumps(30);
    for (int k = 0; k < 20000; k++)
        random_forged_book();
}

void random_book(void)
{
    size_t takes = below(300), numbers = numbers_of[below(NUMBERS)], pace = paces[below(PACES)];
    if (one_in(2))
        random_history(takes, numbers, pace);
    else if (one_in(4))
        random_jumps(30);
    else
        for (int k = 0; k < 20; k++)
            random_forged_book();
}
