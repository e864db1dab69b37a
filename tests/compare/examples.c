/* Send the good ones, request A5 of document 02: examples, with their answers worked out by hand. */
#include <string.h>

#include "filed.h"
#include "suites.h"

/* The second payee is M&M STUDIO. */
static void three_payments(void)
{
    three_samples();
    memcpy(record_of(2) + 210, "M&M STUDIO   ", 13);
}

/* Other bytes in them; what the judge tells, record * 100 + number; what the default way answers; the returned payments; and
   the note of the ampersand, if it goes on: 1235 * 256 + 38, or, where the first payment is returned, 467 * 256 + 38. */
typedef struct {
    new_bytes other[4];
    uint64_t judged, answer[7];
    uint32_t returned[3], note;
} example;

enum { BEHIND_ONE = 316198, FIRST = 119590 };

static const example examples[] = {
    {{{0}}, 0, {0, 0, 1, 3, 0, 1199, 0}, {0}, BEHIND_ONE},
    /* one payment, two, and all of them; what is returned has no note */
    {{{2, 455, "USD"}}, 232, {0, 0, 0, 2, 1, 1120, 79}, {232}, 0},
    {{{1, 455, "USD"}}, 132, {0, 0, 1, 2, 1, 1079, 120}, {132}, FIRST},
    {{{3, 455, "USD"}}, 332, {0, 0, 1, 2, 1, 199, 1000}, {332}, BEHIND_ONE},
    {{{1, 455, "USD"}, {2, 715, "X"}}, 132, {0, 0, 0, 1, 2, 1000, 199}, {132, 235}, 0},
    {{{1, 455, "USD"}, {3, 650, "00"}}, 132, {0, 0, 1, 1, 2, 79, 1120}, {132, 326}, FIRST},
    {{{2, 350, "X"}, {3, 315, "         "}}, 230, {0, 0, 0, 1, 2, 120, 1079}, {230, 329}, 0},
    {{{1, 766, "01"}, {2, 766, "01"}, {3, 766, "01"}}, 134, {43}, {0}, 0},
    /* the first rule that a payment breaks, whichever field stands before */
    {{{2, 715, "X"}, {2, 455, "USD"}, {2, 13, "USD"}}, 220, {0, 0, 0, 2, 1, 1120, 79}, {220}, 0},
    {{{2, 53, "SC123456   "}, {2, 650, "10"}}, 223, {0, 0, 0, 2, 1, 1120, 79}, {223}, 0},
    /* rule 21 compares with record 1: it is the mistyped account that goes on */
    {{{1, 16, "0012345679"}}, 221, {0, 0, 0, 1, 2, 120, 1079}, {221, 321}, 0},
    {{{1, 5, "50400043"}}, 221, {0, 0, 0, 1, 2, 120, 1079}, {221, 321}, 0},
    {{{3, 16, "0012345679"}}, 321, {0, 0, 1, 2, 1, 199, 1000}, {321}, BEHIND_ONE},
    /* even if that one is returned; T4a is not compared */
    {{{1, 455, "USD"}, {2, 16, "0012345679"}}, 132, {0, 0, 0, 1, 2, 1000, 199}, {132, 221}, 0},
    {{{1, 455, "USD"}, {2, 16, "0012345679"}, {3, 16, "0012345679"}}, 132, {43}, {0}, 0},
    {{{1, 455, "USD"}, {1, 16, "0012345679"}}, 132, {43}, {0}, 0},
    {{{1, 13, "USD"}}, 120, {0, 0, 1, 2, 1, 1079, 120}, {120}, FIRST},
    {{{1, 5, "5040004X"}}, 120, {43}, {0}, 0},
    {{{1, 16, "001234567 "}}, 120, {43}, {0}, 0},
    /* a tenth of a cent, and nothing at all, come back; Z3 is the sum of what is submitted */
    {{{2, 474, "5"}}, 233, {0, 0, 0, 2, 1, 1120, 79}, {233}, 0},
    {{{2, 458, "00000000000000000"}, {4, 5, "000000000001120"}}, 233, {0, 0, 0, 2, 1, 1120, 0}, {233}, 0},
    {{{2, 458, "00000000000000005"}, {4, 5, "000000000001120"}}, 233, {0, 0, 0, 2, 1, 1120, 0}, {233}, 0},
    {{{2, 458, "00000000000000000"}}, 233, {42, 4}, {0}, 0},
    {{{1, 455, "USD"}, {2, 458, "00000000000000"}, {3, 455, "USD"}, {4, 5, "000000000001120"}}, 132,
     {0, 0, 1, 1, 2, 0, 1120}, {132, 332}, FIRST},
    /* a non-digit refuses the file, whatever else that payment or another breaks */
    {{{2, 458, "X"}}, 233, {33, 2}, {0}, 0},
    {{{2, 474, "X"}}, 233, {33, 2}, {0}, 0},
    {{{2, 13, "USD"}, {2, 472, " "}}, 220, {33, 2}, {0}, 0},
    {{{2, 13, "USD"}, {3, 471, "/"}}, 220, {33, 3}, {0}, 0},
    {{{1, 473, ":"}, {2, 13, "USD"}}, 133, {33, 1}, {0}, 0},
    {{{2, 474, "5"}, {3, 474, "O"}}, 233, {33, 3}, {0}, 0},
    {{{2, 472, "X"}, {3, 458, "X"}}, 233, {33, 2}, {0}, 0},
    {{{1, 766, "01"}, {2, 766, "01"}, {3, 766, "01"}, {3, 458, "X"}}, 134, {33, 3}, {0}, 0},
    {{{2, 13, "USD"}, {3, 458, "X"}, {4, 5, "000000000001200"}}, 220, {33, 3}, {0}, 0},
    {{{2, 458, "X"}, {4, 255, "X"}}, 233, {33, 2}, {0}, 0},
    /* Z as it is submitted, wrong, or already that of the kept payments; before 43 */
    {{{2, 13, "USD"}, {4, 255, "X"}}, 220, {40, 4}, {0}, 0},
    {{{2, 13, "USD"}, {4, 5, "000000000001120000000000000002"}}, 220, {41, 4}, {0}, 0},
    {{{2, 13, "USD"}, {4, 20, "000000000000002"}}, 220, {41, 4}, {0}, 0},
    {{{2, 13, "USD"}, {4, 5, "000000000001120"}}, 220, {42, 4}, {0}, 0},
    {{{2, 13, "USD"}, {4, 5, "000000000001200"}}, 220, {42, 4}, {0}, 0},
    {{{4, 5, "000000000001200"}}, 442, {42, 4}, {0}, 0},
    {{{1, 766, "01"}, {2, 766, "01"}, {3, 766, "01"}, {4, 5, "000000000000000"}}, 134, {42, 4}, {0}, 0},
    {{{1, 766, "01"}, {2, 766, "01"}, {3, 766, "01"}, {4, 20, "000000000000000"}}, 134, {41, 4}, {0}, 0},
    /* Q, and before it structure */
    {{{0, 177, "J"}, {2, 13, "USD"}}, 15, {15, 0}, {0}, 0},
    {{{0, 177, "J"}, {1, 458, "X"}, {4, 255, "X"}}, 15, {15, 0}, {0}, 0},
    {{{0, 177, "J"}, {2, 4, "X"}, {2, 13, "USD"}, {1, 458, "X"}}, 204, {4, 2}, {0}, 0},
    {{{2, 13, "USD"}, {4, 3, "7"}}, 403, {3, 4}, {0}, 0},
};
enum { EXAMPLES = sizeof examples / sizeof examples[0] };

static void lend_example(const example *e)
{
    three_payments();
    put_new_bytes(e->other, 4);
    lend_draft();
}

/* The judge, the call for payroll hosts and the strict way tell what they told before; the default way and M8 in rooms that
   are just large enough. */
static void run_example(const example *e)
{
    uint64_t number = e->judged % 100, record = e->judged / 100;
    lend_example(e);
    due(e->judged);
    judge();
    due(number, record);
    judge_full();
    due(number, record, number ? 0 : 1);
    prepare_strict(draft_n, 1);
    due_numbers(e->answer, 7);
    due_notes(&e->note, e->answer[2]);
    due_returned(e->returned, e->answer[4]);
    prepare(e->answer[0] ? draft_n : file_bytes(e->answer[3]), e->answer[2], e->answer[4]);
    file_returned(0, (verdict){e->answer[0], e->answer[1], 0}, e->returned, e->answer[4]);
}

/* 7 comes before everything. */
static void run_example_on_no_page(const example *e)
{
    uint32_t page = code_page();
    lend_example(e);
    use_page(no_such_page());
    size_t room = below(2) * draft_n, places = below(3), list = below(5);
    due(7, 0, 0, 0, 0, 0, 0);
    prepare(room, places, list);
    due(7, 0, 0);
    prepare_strict(room, places);
    file_returned((size_t)(e - examples), (verdict){7, 0, 0}, e->returned, e->answer[4]);
    use_page(page);
}

/* The sum is that of what is submitted, also where that of the kept payments would stand in Z3. */
static void edges_of_the_sum(void)
{
    for (unsigned more = 0; more < 2; more++) {
        draft_of_the_largest_sum(more);
        put(record_of(11) + 455, "USD");
        lend_draft();
        if (more) {
            due(42, 12, 0, 0, 0, 0, 0);
        } else {
            due(0, 0, 0, 10, 1, 999999999999990u, 9);
            due_returned((const uint32_t[]){1132}, 1);
        }
        prepare(file_bytes(10), 0, 1);
        file_returned(0, more ? (verdict){42, 12, 0} : (verdict){0, 0, 0}, (const uint32_t[]){1132}, 1);
    }
}

/* A payee who is blank on the other page. */
static void payees_of_each_page(void)
{
    three_payments();
    for (size_t r = 1; r <= 2; r++) {
        memset(record_of(r) + 210, ' ', 35);
        record_of(r)[210] = r == 1 ? 0x5B : 0xC4;
    }
    lend_draft();
    if (code_page() == 0)
        due(0, 0, 1, 2, 1, 1120, 79);
    else
        due(0, 0, 1, 2, 1, 1079, 120);
    due_notes((const uint32_t[]){466 * 256 + (code_page() == 0 ? 0x5B : 0xC4)}, 1);
    const uint32_t returned[] = {code_page() == 0 ? 229 : 129};
    due_returned(returned, 1);
    prepare(file_bytes(2), 1, 1);
    file_returned(0, (verdict){0, 0, 0}, returned, 1);
}

/* By the first bytes of two lists; a lone last one is ignored. */
static void by_lists(size_t transfers_n, size_t cheques_n, const uint64_t answer[7], const uint32_t *returned)
{
    use_lists("USGB", transfers_n, "US", cheques_n);
    due_numbers(answer, 7);
    due_returned(returned, answer[4]);
    prepare(draft_n, 1, 3);
    file_returned(0, (verdict){answer[0], 0, 0}, returned, answer[4]);
}

static void each_lent_list(void)
{
    three_payments();
    put(record_of(2) + 207, "GB ");
    lend_draft();
    by_lists(4, 2, (const uint64_t[7]){0, 0, 1, 3, 0, 1199, 0}, NULL);
    by_lists(2, 2, (const uint64_t[7]){0, 0, 0, 2, 1, 1120, 79}, (const uint32_t[]){228});
    by_lists(3, 0, (const uint64_t[7]){0, 0, 0, 1, 2, 120, 1079}, (const uint32_t[]){228, 328});
    by_lists(1, 2, (const uint64_t[7]){0, 0, 0, 1, 2, 1000, 199}, (const uint32_t[]){128, 228});
    by_lists(0, 1, (const uint64_t[7]){43}, NULL);
    use_annexes();
}

void each_sorted_example(void)
{
    for (const example *e = examples; e < examples + EXAMPLES; e++) {
        run_example(e);
        run_example_on_no_page(e);
    }
    edges_of_the_sum();
    payees_of_each_page();
    each_lent_list();
}
