/* What is due of each call, on a draft on which the verdict is known. */
#include <string.h>

#include "filed.h"
#include "plans.h"
#include "suites.h"

void judge_lent(verdict told)
{
    due(told.rule, told.record, told.at);
    judge_full();
}

void read_lent(verdict told)
{
    due(told.rule, told.record, told.at);
    judge_and_read();
}

void judge_for_payroll_hosts(verdict told)
{
    if (code_page() != 0)
        return;                                         /* their call stays there */
    due(100 * told.record + told.rule);
    judge();
}

void judge_each_way(verdict told)
{
    read_lent(told);
    judge_for_payroll_hosts(told);
}

void judge_by_turns(verdict told)
{
    if (next_turn(JUDGING) % 4 == 0)
        judge_each_way(told);
    else
        judge_lent(told);
}

void show_part(uint64_t record, uint64_t field, bool walked)
{
    bool there = walked && (record == 0 ? field == 1 : record <= payments && field >= 2 && field <= 9);
    uint64_t start = 0, length = 0;
    if (there) {
        start = (uint64_t)text_field[field].first + (record ? 256 + (record - 1) * 768 : 0);
        length = (uint64_t)(text_field[field].last - text_field[field].first + 1);
    }
    due(start, length);
    show(record, field);
}

static void judge_a_taken_number(verdict told)
{
    uint64_t number = file_number();
    lend_taken(&number, 1);
    due(told.rule ? told.rule : 50, told.record, told.at, 0, 0, 0);
    judge_and_read();
    lend_taken(NULL, 0);
}

const uint64_t *prepare_both_ways(size_t room, size_t places)
{
    static uint64_t strict[3];
    size_t n = lent_file_n(), list = below(6);
    memcpy(strict, prepare_strict(room, places), sizeof strict);
    bool t_rule = strict[0] >= 20 && strict[0] <= 35;
    if (strict[0] == 0) {
        due(0, 0, strict[2], payments_of(n), 0, euros_of(lent_file(0), payments_of(n)), 0);
        due_output(output_left(), n);
        due_notes(notes_left(), strict[2]);
    } else if (!t_rule) {
        due(strict[0], strict[1], 0, 0, 0, 0, 0);
    }
    const uint64_t *sorted = prepare(room, places, list);
    if (t_rule && sorted[0] == 0) {
        due_returned((const uint32_t[]){(uint32_t)(100 * strict[1] + strict[0])}, 1);
        prepare(room, places, list);
    }
    file_after_prepare(sorted, t_rule);
    return strict;
}

static void prepare_it(verdict told)
{
    if (told.rule == 0) {
        prepare_pair(true);
        return;
    }
    due(told.rule, told.record, 0);
    size_t room = one_in(2) ? below(draft_n) : draft_n, places = below(8);
    prepare_both_ways(room, places);
}

/* A sound file without notes is a pair where the table leaves it as it is. */
static void restore_it(uint64_t rule)
{
    bool clean = true;
    for (size_t at = 0; rule == 0 && at < draft_n; at++)
        clean &= !in_text(at, draft_n) || becomes(code_page(), draft[at]) == draft[at];
    lend(NOTES_IN, NULL, 0);
    due(rule == 0 && clean ? 0 : 70, 0);
    restore(draft_n);
}

static void show_any(verdict told)
{
    uint64_t field = below(11);
    show_part(one_in(3) ? below(payments + 3) : told.record, field, told.rule == 0 || told.rule >= 10);
}

void another_call(size_t turn, verdict told)
{
    switch (turn % 4) {
    case 0: judge_a_taken_number(told); break;
    case 1: prepare_it(told); break;
    case 2: restore_it(told.rule); break;
    default: show_any(told);
    }
}
