/* Books of taken files, requests A7 and A8 of document 02, on both sides: a book is opened, and files are taken in it one
   after the other. After each take the sides are held to one another, and then to what the papers and hosts/c/desk.h say of
   a take: the number that is answered, and every field of the book; its totals are added up here once more. After each
   opening and each take both sides are asked for the totals, which are those that are stored. A take that differs is kept,
   with the book as it was opened and all takes before it. */
#ifndef TAKES_H
#define TAKES_H

#include <stddef.h>
#include <stdint.h>

#include "../plain.h"

/* Cases that differ are kept under this name, with the call's number and .txt behind it. */
void keep_takes(const char *cases);

void open_new_book(void);                           /* as both sides make it */
void open_book(const plain_book *book);             /* any book */

/* The book as it stands, and how many of its places count. */
const plain_book *book_left(void);
size_t places_left(void);

/* Takes a file by its number, a day, its payments and whole euros; and where it was worked out by hand what is answered. */
void take(plain_entry file);
void take_due(plain_entry file, uint64_t due);

/* Where it was worked out by hand which totals are told of the book as it stands. */
void totals_due(plain_totals due);

uint64_t takes_made(void);

/* Runs a kept book again; the status to end with, or -1 where the file is no kept book. */
int replay_takes(const char *name);

#endif
