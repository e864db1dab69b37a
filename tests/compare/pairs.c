/* Prepare and restore: rooms, pairs that are right, and pairs that are changed in one way. */
#include <string.h>

#include "plans.h"
#include "suites.h"

static uint8_t forwarded[MOST_FILE + SPARE], changed_file[MOST_FILE + SPARE];
static uint32_t notes[MOST_NOTES + 8], changed_notes[MOST_NOTES + 8];
static size_t notes_n, changed_n, room;
static bool have = false;

bool have_pair(void) { return have; }

/* Room that is not needed; none of it now and then. */
static size_t spare(size_t n) { return one_in(3) ? 0 : below(n); }

/* The forwarded file yields itself, with no notes; and with its notes it gives the file back. */
static void turn_back(void)
{
    lend(FILE_IN, forwarded, draft_n);
    lend(NOTES_IN, notes, 4 * notes_n);
    due(0, 0);
    due_output(draft, draft_n);
    restore(draft_n + spare(100));
    due(0, 0, 0);
    due_output(forwarded, draft_n);
    prepare_both_ways(draft_n, below(2) * 5);
    lend_draft();
}

void prepare_pair(bool sound)
{
    if (sound) {
        notes_n = forwarded_of(code_page(), draft, draft_n, forwarded, notes);
        due(0, 0, notes_n);
        due_output(forwarded, draft_n);
        due_notes(notes, notes_n);
    }
    size_t bytes = draft_n + spare(100), places = 140 + payments * 553 + spare(40);
    const uint64_t *answer = prepare_both_ways(bytes, places);
    have = answer[0] == 0;
    if (!have)
        return;
    if (!sound)
        notes_n = forwarded_of(code_page(), draft, draft_n, forwarded, notes);
    turn_back();
}

static void rooms(size_t room_way, size_t places_way)
{
    const size_t bytes[6] = {0, draft_n - 1, draft_n, draft_n + 1, draft_n + 300, below(draft_n)};
    const size_t places[6] = {0, notes_n - 1, notes_n, notes_n + 1, notes_n + 50, below(notes_n)};
    if (notes_n == 0 && places_way == 1)
        return;
    uint64_t number = bytes[room_way] < draft_n ? 60 : places[places_way] < notes_n ? 61 : 0;
    due(number, 0, number ? 0 : notes_n);
    prepare_both_ways(bytes[room_way], places[places_way]);
}

void random_rooms(void)
{
    size_t room_way = below(6);
    rooms(room_way, below(6));
}

/* ---- Ways to change the prepared pair ------------------------------------------------------ */

static void insert_note(size_t at, uint8_t byte)
{
    size_t i = changed_n++;
    for (; i > 0 && changed_notes[i - 1] / 256 > at; i--)
        changed_notes[i] = changed_notes[i - 1];
    changed_notes[i] = (uint32_t)(at * 256 + byte);
}

static bool noted(size_t at)
{
    for (size_t i = 0; i < changed_n; i++)
        if (changed_notes[i] / 256 == at)
            return true;
    return false;
}

/* A place inside or outside the text fields, half of them at a field's edge. */
static size_t random_place(bool inside)
{
    for (;;) {
        size_t at = below(draft_n);
        if (one_in(2)) {
            size_t field = 1 + below(9), base = field == 1 ? 0 : 256 + 768 * below(payments);
            int edge = one_in(2) ? text_field[field].first - !inside : text_field[field].last + !inside;
            at = base + (size_t)edge;
        }
        if (in_text(at, draft_n) == inside)
            return at;
    }
}

/* Each changes the file or the notes above, or names another page, and answers the number that restore then owes, or that
   the way is not open to this pair, or that the number is left to the comparison. */
enum { NOT_OPEN = -1, NOT_SETTLED = -2 };
typedef int change(void);

static int as_it_is(void) { return 0; }

static int no_notes(void)
{
    changed_n = 0;
    return 0;
}

static int one_note_less(void)
{
    if (notes_n == 0)
        return NOT_OPEN;
    size_t i = one_in(2) ? notes_n - 1 : below(notes_n);
    memmove(changed_notes + i, changed_notes + i + 1, 4 * (--changed_n - i));
    return 0;
}

static int same_replacement(void)
{
    if (notes_n == 0)
        return NOT_OPEN;
    size_t i = below(notes_n), at = notes[i] / 256;
    changed_notes[i] = (uint32_t)(at * 256 + changed_into(forwarded[at]));
    return 0;
}

static int one_note_more(void)
{
    size_t at = random_place(true);
    uint8_t byte = changed_into(forwarded[at]);
    if (noted(at) || byte == forwarded[at])
        return NOT_OPEN;
    insert_note(at, byte);
    return 0;
}

static int unreplaced(void)
{
    size_t at = random_place(true);
    if (noted(at))
        return NOT_OPEN;
    insert_note(at, forwarded[at]);
    return 70;
}

static int other_replacement(void)
{
    if (notes_n == 0)
        return NOT_OPEN;
    size_t i = below(notes_n), at = notes[i] / 256;
    uint8_t byte = forwarded[at] == ' ' ? on_page((uint8_t)"$&[\\]~Aa0/"[below(10)]) : blank_byte();
    changed_notes[i] = (uint32_t)(at * 256 + byte);
    return 70;
}

static int two_at_one_place(void)
{
    if (notes_n == 0)
        return NOT_OPEN;
    size_t i = below(notes_n), at = notes[i] / 256;
    insert_note(at, one_in(2) ? (uint8_t)notes[i] : changed_into(forwarded[at]));
    return 70;
}

static int falling_places(void)
{
    if (notes_n < 2)
        return NOT_OPEN;
    size_t i = below(notes_n - 1), k = one_in(2) ? i + 1 : i + 1 + below(notes_n - 1 - i);
    changed_notes[i] = notes[k];
    changed_notes[k] = notes[i];
    return 70;
}

static int outside_text(void)
{
    size_t at = random_place(false);
    uint8_t byte = changed_into(forwarded[at]);
    if (byte == forwarded[at])
        return NOT_OPEN;
    insert_note(at, byte);
    return 70;
}

static int outside_file(void)
{
    size_t n = draft_n, first = (size_t)text_field[2].first;
    size_t at = one_in(2) ? n + below(1000) : one_in(2) ? 0xFFFFFF : n + 768 * below(10) + first;
    changed_notes[changed_n++] = (uint32_t)(at * 256 + (one_in(2) ? blank_byte() : 255u));
    return 70;
}

static int zeros_behind(void)
{
    for (size_t more = 1 + below(3); more > 0; more--)
        changed_notes[changed_n++] = 0;
    return 70;
}

static int zero_before(void)
{
    insert_note(0, 0);
    return 70;
}

static int not_clean(void)
{
    uint8_t *b = changed_file + random_place(true);
    *b = one_in(2) ? changed_into(' ') : on_page((uint8_t)"&$[\\]~"[below(6)]);
    return 70;
}

static int not_sound(void)
{
    uint8_t *b = changed_file + random_place(false);
    *b = one_in(2) ? *b ^ (uint8_t)(1u << below(8)) : (uint8_t)any();
    return NOT_SETTLED;
}

static int no_room(void)
{
    room = one_in(2) ? draft_n - 1 : one_in(2) ? 0 : below(draft_n);
    if (one_in(2)) changed_notes[changed_n++] = (uint32_t)any();
    if (one_in(2)) changed_file[random_place(false)] ^= 1;
    return 60;
}

/* Both pages make the same of every character, but for the German ones of either. */
static int other_page(void)
{
    uint32_t page = code_page();
    use_page(1 - page);
    for (size_t i = 0; i < notes_n; i++)
        if (becomes(page, (uint8_t)notes[i]) != becomes(1 - page, (uint8_t)notes[i]))
            return 70;
    return 0;
}

/* Every page leaves the characters of a forwarded file as they are. */
static int other_page_without_notes(void)
{
    use_page(1 - code_page());
    return no_notes();
}

static int no_page(void)
{
    if (one_in(2)) no_room();
    if (one_in(2)) changed_notes[changed_n++] = (uint32_t)any();
    use_page(no_such_page());
    return 7;
}

static change *const changes[] = {
    as_it_is, no_notes, one_note_less, same_replacement, one_note_more, unreplaced, other_replacement, two_at_one_place,
    falling_places, outside_text, outside_file, zeros_behind, zero_before, not_clean, not_sound, no_room, other_page,
    other_page_without_notes, no_page
};
enum { CHANGES = sizeof changes / sizeof changes[0] };

/* The file that the changed pair belongs to: each noted byte put back. */
static const uint8_t *put_back(void)
{
    static uint8_t original[MOST_FILE + SPARE];
    memcpy(original, changed_file, draft_n);
    for (size_t i = 0; i < changed_n; i++)
        original[changed_notes[i] / 256] = (uint8_t)changed_notes[i];
    return original;
}

static void restore_changed(change *way)
{
    uint32_t page = code_page();
    memcpy(changed_file, forwarded, draft_n);
    memcpy(changed_notes, notes, 4 * (changed_n = notes_n));
    room = draft_n + spare(50);
    int number = way();
    if (number == NOT_OPEN)
        return;
    lend(FILE_IN, changed_file, draft_n);
    lend(NOTES_IN, changed_notes, 4 * changed_n);
    if (number != NOT_SETTLED)
        due((uint64_t)number, 0);
    if (number == 0)
        due_output(put_back(), draft_n);
    restore(room);
    use_page(page);
    lend_draft();
}

void random_change(void) { restore_changed(changes[below(CHANGES)]); }

/* ---- Suites -------------------------------------------------------------------------------- */

void each_room_and_pair(void)
{
    for (size_t i = 0; i < 60; i++) {
        size_t count = 1 + below(3);
        bool sound = random_file(count, NULL, (int)below(3));
        lend_draft();
        judge_and_read();
        prepare_pair(sound);
        for (size_t k = 0; k < 36; k++)
            rooms(k / 6, k % 6);
        for (size_t k = 0; k < 4 * CHANGES; k++)
            restore_changed(changes[k / 4]);
    }
}

void some_rooms_and_changes(void)
{
    for (size_t places = 0; places < 3; places++)
        rooms(2, places);
    rooms(1, 3);
    for (size_t i = 0; i < CHANGES; i += 4)
        restore_changed(changes[i]);
}
