/* The desk's side of a book that is kept from take to take, in calls that take and answer what the plain ones do: the desk's
   own calls keep no book. tests/find-mutants has the faulty plain ones in their place. */
#ifndef KEEPER_H
#define KEEPER_H

#include "plain.h"

plain_book desk_open_new_book(void);
void desk_open_book(plain_book book);
plain_taken desk_take(uint64_t number, uint32_t day, uint64_t payments, uint64_t euros);
plain_totals desk_kept_totals(void);                /* not desk_totals, which is a type of hosts/c/desk.h */

#endif
