#include "submitted.h"

#include <string.h>

#include "filed.h"
#include "suites.h"

payment_kind kinds[MOST_PAYMENTS + 1];
unsigned lowest[MOST_PAYMENTS + 1];
verdict before, behind;

void begin_faults(void)
{
    memset(lowest, 0, (payments + 1) * sizeof lowest[0]);
    before = behind = (verdict){0, 0, 0};
}

void submit_kinds(size_t count)
{
    random_file(count, kinds + 1, (int)below(3));
    for (size_t r = 1; r <= count; r++)
        fit_payment(r, kinds[r]);
    begin_faults();
}

void submit(size_t count)
{
    for (size_t r = 1; r <= count; r++)
        kinds[r] = (payment_kind)below(4);
    submit_kinds(count);
}

/* Who breaks rule 21 is seen by what stands there: record 1 does not, and another may be changed in the same way. */
void break_payment(size_t record, unsigned rule)
{
    if (break_rule(rule, record, kinds[record]) && rule != 21)
        lowest[record] = rule;
    sample_z(draft, payments);
}

void put_non_digit(size_t record, int at)
{
    record_of(record)[at] = (uint8_t)"/:OX ,."[below(7)];
    if (lowest[record] == 0 || lowest[record] > 33)
        lowest[record] = 33;
}

unsigned first_rule(size_t record)
{
    const uint8_t *t = record_of(record), *t_1 = record_of(1);
    bool differs = memcmp(t + 5, t_1 + 5, 8) != 0 || memcmp(t + 16, t_1 + 16, 10) != 0;
    return differs && (lowest[record] == 0 || lowest[record] > 21) ? 21 : lowest[record];
}

/* What the judge and the strict way tell: record by record. */
static verdict strict_verdict(void)
{
    if (before.rule)
        return before;
    for (size_t r = 1; r <= payments; r++)
        if (first_rule(r))
            return (verdict){first_rule(r), r, 0};
    return behind;
}

/* What refuses the whole file by the default way, whatever room there is. */
static verdict refusal(void)
{
    if (before.rule)
        return before;
    for (size_t r = 1; r <= payments; r++)
        if (non_digit_in_t14(record_of(r)))
            return (verdict){33, r, 0};
    if (behind.rule)
        return behind;
    for (size_t r = 1; r <= payments; r++)
        if (first_rule(r) == 0)
            return (verdict){0, 0, 0};
    return (verdict){43, 0, 0};
}

static verdict told;
static uint32_t list[MOST_PAYMENTS];
static size_t list_n;
static sent goes_on;                                /* where nothing refuses the file */

void lend_submitted(void)
{
    list_n = 0;
    for (size_t r = 1; r <= payments; r++)
        if (first_rule(r))
            list[list_n++] = (uint32_t)(r * 100 + first_rule(r));
    told = refusal();
    if (told.rule == 0)
        send_all_but(code_page(), draft, draft_n, list, list_n, &goes_on);
    lend_draft();
}

/* ---- Rooms ----------------------------------------------------------------------------------- */

static size_t bytes_needed(void) { return told.rule ? draft_n : goes_on.n; }
static size_t places_needed(void) { return told.rule ? 2 : goes_on.answer[2]; }

/* 60, 61 and 63, in this order, come after all that refuses the file. */
static void prepare_in(size_t room, size_t places, size_t list_places)
{
    verdict v = told;
    if (v.rule == 0)
        v.rule = room < bytes_needed() ? 60 : places < places_needed() ? 61 : list_places < list_n ? 63 : 0;
    if (v.rule) {
        due(v.rule, v.record, 0, 0, 0, 0, 0);
    } else {
        due_numbers(goes_on.answer, 7);
        due_output(goes_on.forwarded, goes_on.n);
        due_notes(goes_on.notes, goes_on.answer[2]);
        due_returned(list, list_n);
    }
    prepare(room, places, list_places);
}

/* As much as is needed, one less, none, or more. */
static size_t about(size_t needed, size_t way)
{
    switch (way) {
    case 0: return needed;
    case 1: return needed ? needed - 1 : 0;
    case 2: return 0;
    default: return needed + 1 + below(60);
    }
}

void in_room(size_t way)
{
    size_t room = about(bytes_needed(), way / 16), places = about(places_needed(), way / 4 % 4);
    prepare_in(room, places, about(list_n, way % 4));
    file_returned(way, told, list, list_n);
}

/* ---- What goes on ---------------------------------------------------------------------------- */

void follow_what_goes_on(void)
{
    const uint64_t *a = goes_on.answer;
    lend(FILE_IN, goes_on.kept, goes_on.n);
    due(0, 0, 0, a[3], a[5]);
    judge_full();
    due(0, 0, a[2]);
    due_output(goes_on.forwarded, goes_on.n);
    due_notes(goes_on.notes, a[2]);
    prepare_both_ways(goes_on.n, a[2]);
    lend(FILE_IN, goes_on.forwarded, goes_on.n);
    due(0, 0, 0, a[3], a[5]);
    judge_full();
    lend(NOTES_IN, goes_on.notes, 4 * a[2]);
    due(0, 0);
    due_output(goes_on.kept, goes_on.n);
    restore(goes_on.n);
}

void sort_submitted(void)
{
    verdict strict = strict_verdict();
    lend_submitted();
    in_room(0);
    in_room(below(ROOMS));
    in_room(below(ROOMS));
    due(strict.rule, strict.record);
    judge_full();
    due(strict.rule, strict.record);
    prepare_strict(draft_n, 140 + 553 * payments);
    if (told.rule == 0)
        follow_what_goes_on();
}
