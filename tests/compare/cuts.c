/* Files as they arrive, request A3 of document 02: cuts at and near every edge between records, single bytes, empty cuts
   and none; other lists for other cuts; ends that are asked for again, and cuts behind them; more bytes than a file may
   have. */
#include <string.h>

#include "plans.h"
#include "suites.h"

/* ---- Near each edge --------------------------------------------------------------------------- */

/* Two cuts; three, of which the one in the middle is empty, or a single byte; and three, of which the first ends near any
   edge. An empty one at the start and one at the end now and then. */
static void cut_near(size_t place, size_t way)
{
    size_t n = lent_file_n(), before = random_place_near_an_edge(place);
    begin_plan();
    if (one_in(8))
        cut_to(0, SAME_LISTS);
    if (way % 4 == 3)
        cut_to(before, SAME_LISTS);
    cut_to(place, SAME_LISTS);
    if (way % 4 == 1)
        cut_to(place, SAME_LISTS);
    if (way % 4 == 2 && place < n)
        cut_to(place + 1, SAME_LISTS);
    cut_to(n, SAME_LISTS);
    if (one_in(8))
        cut_to(n, SAME_LISTS);
    end_with(false);
}

/* A few bytes either side of the edge. */
static void each_cut_near(size_t edge, const uint64_t *numbers)
{
    for (size_t k = 0; k <= 2 * NEAR; k++)
        if (edge + k >= NEAR && edge + k - NEAR <= lent_file_n()) {
            cut_near(edge + k - NEAR, any());
            read_by_plan(numbers);
        }
}

static void each_cut(const uint64_t *numbers)
{
    each_cut_near(0, numbers);
    for (size_t edge = 256; edge < lent_file_n() + 768; edge += 768)
        each_cut_near(edge, numbers);
    each_cut_near(lent_file_n(), numbers);
}

/* As many bytes a time. */
static void cut_evenly(size_t bytes)
{
    size_t n = lent_file_n();
    begin_plan();
    for (size_t place = bytes; place < n; place += bytes)
        cut_to(place, SAME_LISTS);
    cut_to(n, SAME_LISTS);
    end_with(false);
}

/* The draft, on which the verdict is known, in each of these ways, and byte by byte. */
static void read_draft(verdict told)
{
    lend_draft();
    due(told.rule, told.record, told.at);
    const uint64_t *numbers = judged_with_changes();
    each_cut(numbers);
    cut_evenly(1);
    read_by_plan(numbers);
}

/* ---- Broken structure ------------------------------------------------------------------------- */

static void three_payments(void)
{
    static const payment_kind kinds[3] = {CODE_AND_BANK, CHEQUE, BIC_ALONE};
    random_file(3, kinds, 1);
}

/* A content fault in one record; behind Z there is none. */
static void spoil_content(size_t record)
{
    if (record <= payments + 1)
        record_of(record)[5] = 'X';
}

static void each_wrong_head(void)
{
    for (size_t record = 0; record <= payments + 1; record++) {
        uint8_t *head = record_of(record), kept[5];
        memcpy(kept, head, 5);
        head[4] = record == 2 ? 'Q' : 'X';
        read_draft(broken_at(4, record, 0));
        memcpy(head, kept, 5);
        head[3]++;
        read_draft(broken_at(3, record, 0));
        memcpy(head, kept, 5);
    }
}

static void each_end_too_early(void)
{
    size_t whole = draft_n;
    for (size_t edge = 0; edge < whole; edge += edge ? 768 : 256)
        for (size_t k = 0; k <= 2 * NEAR; k++) {
            draft_n = edge + k - (edge ? NEAR : 0);
            read_draft(broken_at(2, draft_n < 256 ? 0 : 1 + (draft_n - 256) / 768, 0));
        }
    draft_n = whole - 1;
    read_draft(broken_at(2, payments + 1, 0));
    draft_n = whole;
}

static void each_end_too_late(void)
{
    static const size_t more[] = {1, 2, 4, 5, 6, 255, 256, 257, 768, 1024};
    size_t whole = draft_n;
    memcpy(draft + whole, draft, 1024);
    for (size_t i = 0; i < sizeof more / sizeof more[0]; i++) {
        draft_n = whole + more[i];
        read_draft(broken_at(5, payments + 1, 0));
    }
    draft_n = whole;
}

/* Structure outranks content, in whatever record that is broken. */
static void each_broken_structure(void)
{
    three_payments();
    for (size_t record = payments + 3; record-- > 0; ) {
        spoil_content(record);
        each_wrong_head();
        each_end_too_early();
        each_end_too_late();
    }
}

/* ---- No cut, and only empty ones -------------------------------------------------------------- */

static void empty_cuts(size_t count)
{
    const uint64_t number = code_page() < PAGES ? 2 : 7;
    for (unsigned lists = SAME_LISTS; lists <= OTHER_LISTS; lists++) {
        begin_plan();
        for (size_t i = 0; i < count; i++)
            cut_to(0, lists);
        end_with(false);
        end_with(true);
        read_by_plan((const uint64_t[7]){number});
    }
}

static void nothing_arrives(void)
{
    uint32_t page = code_page();
    const uint32_t pages[] = {page, no_such_page(), 2, UINT32_MAX};
    for (size_t i = 0; i < 4; i++) {
        use_page(pages[i]);
        for (size_t count = 0; count <= 3; count++)
            empty_cuts(count);
    }
    use_page(page);
}

/* ---- Other lists for other cuts --------------------------------------------------------------- */

/* Two pairs of lists: the annexes, which have all countries of the draft, and two lists that have none of them. Either pair
   may be the other one. */
static bool other_are_right;

static void lend_two_pairs_of_lists(bool other_right, size_t none_n)
{
    static const char none[] = "ZZQQX";
    other_are_right = other_right;
    lend(other_right ? TRANSFER : OTHER_TRANSFER, none, none_n);
    lend(other_right ? CHEQUE_LIST : OTHER_CHEQUE_LIST, none, none_n);
    lend(other_right ? OTHER_TRANSFER : TRANSFER, annex_ii, ANNEX_II_BYTES);
    lend(other_right ? OTHER_CHEQUE_LIST : CHEQUE_LIST, annex_i, ANNEX_I_BYTES);
}

/* Where the cut that holds the payment's last byte has a list without its countries: rule 26 is broken by the bank's, if it
   is asked for, else rule 28 by the payee's. */
static unsigned rule_by_lists(payment_kind kind, size_t record)
{
    unsigned lists = lists_at(256 + 768 * record - 1);
    bool other = lists & (kind == CHEQUE ? OTHER_CHEQUES : OTHER_TRANSFERS);
    return other == other_are_right ? 0 : kind == CODE_AND_BANK ? 26 : 28;
}

/* The first payment whose lists lack its country. */
static verdict verdict_by_lists(const payment_kind *kinds)
{
    for (size_t record = 1; record <= payments; record++) {
        unsigned rule = rule_by_lists(kinds[record - 1], record);
        if (rule)
            return broken_at(rule, record, 0);
    }
    return broken_at(0, 0, 0);
}

/* By the plan, on a draft that is sound by the annexes, or on which another verdict is known. */
static void read_by_lists(const payment_kind *kinds, verdict otherwise, const uint64_t *sound)
{
    verdict told = verdict_by_lists(kinds);
    if (told.rule == 0 || (otherwise.rule && otherwise.rule < 10))
        told = otherwise;
    else if (otherwise.rule)
        told = first_of(told, otherwise);
    read_by_plan(told.rule ? (const uint64_t[7]){told.rule, told.record, told.at} : sound);
}

/* One cut, which may be empty, has other lists than the one before it and the one behind it. */
static void one_cut_with(unsigned lists, size_t from, size_t to)
{
    begin_plan();
    cut_to(from, ~lists & OTHER_LISTS);
    cut_to(to, lists);
    cut_to(lent_file_n(), ~lists & OTHER_LISTS);
    end_with(false);
}

/* From near an edge of a payment, or from its middle, to the same place or to a later one. */
static void each_cut_with_other_lists(const payment_kind *kinds, const uint64_t *sound)
{
    static const size_t in_payment[] = {0, 1, 2, 5, 384, 763, 766, 767};
    enum { EACH = sizeof in_payment / sizeof in_payment[0], PLACES = 3 * EACH + 1 };
    size_t places[PLACES] = {[PLACES - 1] = 256 + 3 * 768};
    for (size_t i = 0; i + 1 < PLACES; i++)
        places[i] = 256 + 768 * (i / EACH) + in_payment[i % EACH];
    for (size_t from = 0; from < PLACES; from++)
        for (size_t to = from; to < PLACES; to++)
            for (unsigned lists = SAME_LISTS; lists <= OTHER_LISTS; lists++) {
                one_cut_with(lists, places[from], places[to]);
                read_by_lists(kinds, broken_at(0, 0, 0), sound);
            }
}

/* What is due of the draft where each cut has the right lists. */
static const uint64_t *numbers_by_the_annexes(void)
{
    use_annexes();
    lend_draft();
    due(0, 0, 0);
    return judged_with_changes();
}

static void random_cuts_with_other_lists(const payment_kind *kinds, verdict otherwise, const uint64_t *sound)
{
    for (int k = 0; k < 8; k++) {
        begin_plan();
        random_cuts_to(lent_file_n(), OTHER_LISTS);
        end_with(false);
        read_by_lists(kinds, otherwise, sound);
    }
}

/* Another fault in the draft: none, one of structure, one of content before the countries, or one behind them. */
static verdict random_fault(void)
{
    size_t record = below(payments + 2);
    bool payment = record >= 1 && record <= payments;
    int at = payment ? 715 : 255;
    uint8_t *r = record_of(record);
    switch (below(4)) {
    case 0: r[4] = 'X'; return broken_at(4, record, 0);
    case 1: r[5] = 'X'; return broken_at(payment ? 20 : record ? 40 : 10, record, 5);
    case 2: r[at] = 'X'; return broken_at(payment ? 35 : record ? 40 : 16, record, at);
    default: return broken_at(0, 0, 0);
    }
}

static void each_list_for_its_cut(void)
{
    static const payment_kind sets[3][3] = {
        {CODE_AND_BANK, CHEQUE, BIC_ALONE}, {CHEQUE, BIC_AND_COUNTRY, CODE_AND_BANK}, {BIC_ALONE, CODE_AND_BANK, CHEQUE}
    };
    static const size_t none_n[4] = {0, 2, 4, 5};
    for (size_t turn = 0; turn < 300; turn++) {
        const payment_kind *kinds = sets[turn % 3];
        random_file(3, kinds, 1);
        const uint64_t *sound = numbers_by_the_annexes();
        lend_two_pairs_of_lists(turn / 3 % 2, none_n[turn / 6 % 4]);
        if (turn < 6)
            each_cut_with_other_lists(kinds, sound);
        verdict otherwise = random_fault();
        lend_draft();
        random_cuts_with_other_lists(kinds, otherwise, sound);
    }
    use_annexes();
}

/* ---- The end again, and cuts behind it --------------------------------------------------------- */

/* Whether the number of the draft stands in the taken numbers, and in the other ones. */
static void lend_taken_and_other(bool in_taken, bool in_other)
{
    uint64_t number = file_number(), list[3] = {number + 1, in_taken ? number : 0, UINT64_MAX};
    lend(TAKEN, list, sizeof list);
    list[1] = in_other ? number : number - 1;
    lend(OTHER_TAKEN, list, sizeof list);
}

/* Three ends, each with the taken numbers or with the other ones; between them come the bytes behind the file's. */
static void plan_three_ends(size_t file_n, unsigned others)
{
    begin_plan();
    random_cuts_to(file_n, SAME_LISTS);
    end_with(others & 1);
    if (one_in(2))
        random_cuts_to(file_n + below(lent_file_n() - file_n + 1), OTHER_LISTS);
    end_with(others & 2);
    random_cuts_to(lent_file_n(), OTHER_LISTS);
    end_with(others & 4);
}

/* The first bytes of the draft are the file; the rest of it comes after the end, and changes nothing. */
static void each_end_again(size_t file_n)
{
    uint64_t without[7];
    lend_taken(NULL, 0);
    lend(FILE_IN, draft, file_n);
    memcpy(without, judged_with_changes(), sizeof without);
    lend_draft();
    for (unsigned way = 0; way < 4 * 8; way++) {
        bool in_taken = way & 8, in_other = way & 16, taken = way & 1 ? in_other : in_taken;
        lend_taken_and_other(in_taken, in_other);
        plan_three_ends(file_n, way);
        read_by_plan(taken && without[0] == 0 ? (const uint64_t[7]){50} : without);
    }
    lend_taken(NULL, 0);
}

/* The whole file, with nothing behind it, a byte, or records; and the file without its end, which comes too late. */
static void each_end_of_the_draft(void)
{
    static const size_t behind[] = {0, 1, 5, 256, 768};
    size_t whole = draft_n;
    memcpy(draft + whole, draft + 256, 768);
    for (size_t i = 0; i < sizeof behind / sizeof behind[0]; i++) {
        draft_n = whole + behind[i];
        each_end_again(whole);
    }
    draft_n = whole;
    for (int k = 0; k < 8; k++)
        each_end_again(k == 0 ? 0 : k == 1 ? whole - 1 : random_place_near_an_edge(whole));
}

static void each_end(void)
{
    uint32_t page = code_page();
    for (int k = 0; k < 4; k++) {
        three_payments();
        if (k == 1)
            spoil_content(below(payments + 2));
        if (k == 2)
            use_page(no_such_page());
        each_end_of_the_draft();
        use_page(page);
    }
}

/* ---- Random bytes ------------------------------------------------------------------------------ */

/* Any bytes; now and then with the heads of records at their places. */
static void random_bytes(void)
{
    static const char heads[] = "0256Q0768T0256Z";
    draft_n = below(one_in(2) ? 20 : 3000);
    for (size_t i = 0; i < draft_n; i++)
        draft[i] = (uint8_t)any();
    for (size_t record = 0; one_in(2) && record < 4; record++)
        memcpy(record_of(record), heads + (record ? 5 + 5 * below(2) : 0), 5);
    lend_draft();
    judge_and_read();
}

/* ---- More bytes than a file may have ------------------------------------------------------------ */

/* In one cut, in two about the longest file's end, in even ones, and at random. */
static void read_long(const uint64_t *numbers)
{
    size_t n = lent_file_n();
    for (size_t place = MOST_FILE - 1; place <= MOST_FILE + 1 && place <= n; place++) {
        cut_near(place, place);
        read_by_plan(numbers);
    }
    cut_evenly(n);
    read_by_plan(numbers);
    cut_evenly(1000 + below(200));
    read_by_plan(numbers);
    begin_plan();
    random_cuts_to(n, SAME_LISTS);
    end_with(true);
    read_by_plan(numbers);
}

/* Rule 1 outranks all but 7, whatever else is wrong with the bytes. */
static void read_too_long(void)
{
    static const size_t more[] = {1, 2, 256, 1024, MOST_FILE - 1, 2 * MOST_FILE};
    uint32_t page = code_page();
    for (size_t i = 0; i < sizeof more / sizeof more[0]; i++) {
        draft_n = MOST_FILE + more[i];
        lend_draft();
        read_long((const uint64_t[7]){1});
    }
    use_page(no_such_page());
    read_long((const uint64_t[7]){7});
    use_page(page);
}

/* As long as a file may be; and longer. */
static void read_long_and_longer(verdict told)
{
    draft_n = MOST_FILE;
    lend_draft();
    due(told.rule, told.record, told.at);
    read_long(judged_with_changes());
    read_too_long();
}

/* Sound; with a fault of content, first or last; with one of structure, first, or in the middle; with all that behind Z. */
void long_arrivals(void)
{
    long_draft(MOST_PAYMENTS);
    read_long_and_longer(broken_at(0, 0, 0));
    record_of(MOST_PAYMENTS)[455] = 'X';
    read_long_and_longer(broken_at(32, MOST_PAYMENTS, 455));
    draft[5] = 'X';
    read_long_and_longer(broken_at(10, 0, 5));
    record_of(5000)[0] = 'X';
    read_long_and_longer(broken_at(3, 5000, 0));
    sample_z(draft, 3);
    read_long_and_longer(broken_at(5, 4, 0));
    draft[4] = 'X';
    read_long_and_longer(broken_at(4, 0, 0));
}

/* ---- Suites -------------------------------------------------------------------------------------- */

void each_arrival(void)
{
    for (uint32_t page = 0; page < PAGES; page++) {
        use_page(page);
        nothing_arrives();
        each_list_for_its_cut();
        each_end();
        each_broken_structure();
        with_each_rule_broken(read_draft);
        for (int k = 0; k < 2000; k++)
            random_bytes();
    }
    use_page(0);
}

/* The draft with the lists in use and with parts of the annexes, now and then cut off, and with bytes that come after the
   end. What is due is left to the comparison. */
void random_arrival(void)
{
    size_t file_n = one_in(3) ? random_place_near_an_edge(draft_n) : draft_n;
    lend_draft();
    lend(OTHER_TRANSFER, annex_ii, below(ANNEX_II_BYTES + 1));
    lend(OTHER_CHEQUE_LIST, annex_i, below(ANNEX_I_BYTES + 1));
    bool in_taken = one_in(2), in_other = one_in(2);
    lend_taken_and_other(in_taken, in_other);
    begin_plan();
    random_cuts_to(file_n, OTHER_LISTS);
    end_with(one_in(2));
    random_cuts_to(draft_n, OTHER_LISTS);
    end_with(one_in(2));
    read_by_plan(NULL);
    lend_taken(NULL, 0);
}
