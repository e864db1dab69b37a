#include "keeper.h"

#include <string.h>

#include "desk.h"

_Static_assert((int)DESK_BOOK_PLACES == (int)PLAIN_PLACES, "the places of a book");

static desk_book kept;

static plain_book fields_of(const desk_book *book)
{
    plain_book fields = {.day = book->day, .held = book->held, .payments = book->payments, .euros = book->euros};
    for (size_t i = 0; i < PLAIN_PLACES; i++) {
        const desk_entry *place = &book->places[i];
        fields.places[i] = (plain_entry){place->number, place->day, place->payments, place->euros};
    }
    return fields;
}

plain_book desk_open_new_book(void)
{
    kept = desk_book_new();
    return fields_of(&kept);
}

/* Whatever stands between the fields is not the book's. */
void desk_open_book(plain_book book)
{
    memset(&kept, 0xA5, sizeof kept);
    kept.day = book.day;
    kept.held = book.held;
    kept.payments = book.payments;
    kept.euros = book.euros;
    for (size_t i = 0; i < PLAIN_PLACES; i++) {
        kept.places[i].number = book.places[i].number;
        kept.places[i].day = book.places[i].day;
        kept.places[i].payments = book.places[i].payments;
        kept.places[i].euros = book.places[i].euros;
    }
}

/* The book that a take gives back is the one that is kept, also where the take is refused. */
plain_taken desk_take(uint64_t number, uint32_t day, uint64_t payments, uint64_t euros)
{
    desk_taken taken = desk_book_take(kept, number, day, payments, euros);
    kept = taken.book;
    return (plain_taken){fields_of(&kept), taken.number};
}

plain_totals desk_kept_totals(void)
{
    desk_totals totals = desk_book_totals(kept);
    return (plain_totals){totals.files, totals.payments, totals.euros};
}
