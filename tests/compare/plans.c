#include "plans.h"

#include <stdio.h>
#include <stdlib.h>
#include <string.h>

static step plan[MOST_STEPS];
static size_t plan_n, planned;                      /* the steps; the bytes that they cut */

void begin_plan(void) { plan_n = planned = 0; }

static void add_step(step s)
{
    if (plan_n == MOST_STEPS) {
        fprintf(stderr, "more than %d steps\n", (int)MOST_STEPS);
        exit(2);
    }
    plan[plan_n++] = s;
}

void cut_to(size_t place, unsigned lists)
{
    add_step((step){.length = (uint32_t)(place - planned), .other_transfer = (lists & OTHER_TRANSFERS) != 0,
                    .other_cheque = (lists & OTHER_CHEQUES) != 0});
    planned = place;
}

void end_with(bool other_taken) { add_step((step){.is_end = 1, .other_taken = other_taken}); }

unsigned lists_at(size_t byte)
{
    size_t before = 0;
    const step *s = plan;
    while (before + s->length <= byte)
        before += s++->length;
    return (s->other_transfer ? OTHER_TRANSFERS : 0) | (s->other_cheque ? OTHER_CHEQUES : 0);
}

size_t random_place_near_an_edge(size_t n)
{
    size_t edge = one_in(8) ? 0 : one_in(8) ? n : 256 + 768 * below(n / 768 + 1);
    size_t place = edge + below(2 * NEAR + 1);
    place = place < NEAR ? 0 : place - NEAR;
    return place < n ? place : n;
}

/* A place that is the next cut's end, between the last one's and this one; the last one's again makes an empty cut. */
static size_t random_end(size_t place)
{
    if (one_in(6))
        return planned;
    size_t end = one_in(2) ? random_place_near_an_edge(place) : planned + below(place - planned + 1);
    return end < planned ? planned : end;
}

void random_cuts_to(size_t place, unsigned allowed)
{
    for (size_t cuts = below(6); cuts > 0; cuts--) {
        size_t end = random_end(place);
        cut_to(end, (unsigned)below(4) & allowed);
    }
    if (planned < place || one_in(4))
        cut_to(place, (unsigned)below(4) & allowed);
}

void read_by_plan(const uint64_t *numbers)
{
    for (size_t n = 1; n <= plan_n; n++) {
        if (!plan[n - 1].is_end)
            continue;
        if (numbers)
            due_numbers(numbers, 7);
        read_in_steps(plan, n);
    }
}

const uint64_t *judged_with_changes(void)
{
    static uint64_t numbers[7];
    memcpy(numbers, judge_full(), sizeof numbers);
    if (numbers[0] == 0)
        numbers[6] = changes_of(code_page(), lent_file(0), lent_file_n());
    return numbers;
}

const uint64_t *judge_and_read(void)
{
    const uint64_t *numbers = judged_with_changes();
    begin_plan();
    random_cuts_to(lent_file_n(), SAME_LISTS);
    end_with(false);
    read_by_plan(numbers);
    return numbers;
}
