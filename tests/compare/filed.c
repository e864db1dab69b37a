#include "filed.h"

void lend_codes(int table, size_t n)
{
    static uint8_t codes[SPARE + CODE_BYTES];
    for (size_t i = 0; i < n; i++)
        codes[i] = (uint8_t)(7 + 37 * i);                   /* no byte twice in 256 */
    for (size_t i = 0; table == NAMED && i < n; i += CODE_BYTES) {
        codes[i] = 'R';
        put_number(codes + i + 1, CODE_BYTES - 1, 20 + i / CODE_BYTES);
    }
    lend(CODES, codes, n);
}

uint64_t filed_number(uint64_t refused, size_t room, size_t records)
{
    return refused ? refused : lent_codes_n() != TABLE_BYTES ? 62 : room < M8_BYTES * records ? 60 : 0;
}

void file_in(size_t room, verdict told, const uint32_t *returned, size_t n)
{
    uint64_t number = filed_number(told.rule, room, n);
    if (number) {
        due(number, told.record, 0, 0, 0);
    } else {
        amount sum = amount_of_payments(lent_file(0), returned, n);
        due(0, 0, n, sum.euros, sum.cents);
        due_returned(returned, n);
    }
    m8(room);
}

enum { LENGTHS = 13, M8_ROOMS = 5 };
_Static_assert(LENGTHS * M8_ROOMS == FILINGS, "each length in each room");

void file_returned(size_t way, verdict told, const uint32_t *returned, size_t n)
{
    static const size_t lengths[LENGTHS] = {96, 95, 96, 97, 96, 0, 96, 108, 96, 90, 96, 102, 256 + 96};
    size_t needed = M8_BYTES * n, table = way / M8_ROOMS % LENGTHS;
    const size_t rooms[M8_ROOMS] = {needed, needed ? needed - 1 : 0, needed ? needed - M8_BYTES : 0, 0, needed + 1 + way};
    lend_codes(table % 4 ? ODD : NAMED, lengths[table]);
    file_in(rooms[way % M8_ROOMS], told, returned, n);
}

/* Where the room for what goes on was too short, it is not known how many come back: one at least, and one is kept. */
void file_after_prepare(const uint64_t *sorted, bool t_rule)
{
    size_t turn = next_turn(FILING) % FILINGS;
    const verdict told = {sorted[0], sorted[1], 0};
    bool room_short = told.rule == 60 || told.rule == 61 || told.rule == 63;
    if (!room_short) {
        file_returned(turn, told, list_left(), told.rule ? 0 : sorted[4]);
    } else if (!t_rule) {
        file_returned(turn, (verdict){0, 0, 0}, NULL, 0);
    } else {
        lend_codes(NAMED, TABLE_BYTES);
        due(0, 0);
        m8(M8_BYTES * payments_of(lent_file_n()));
    }
}
