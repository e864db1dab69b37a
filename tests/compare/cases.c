/* The cases that document 01 names; taken numbers and shown parts; every length; the longest files. */
#include <string.h>

#include "plans.h"
#include "suites.h"

/* ---- Taken numbers -------------------------------------------------------------------------- */

/* Neighbours of the number, and numbers that a narrower reading takes for it. */
static uint64_t untaken(size_t way)
{
    uint64_t number = file_number();
    const uint64_t near[8] = {number + 1, number - 1, UINT64_MAX, number + ((uint64_t)1 << 32),
        number + ((uint64_t)1 << 63), number % 1000000000, number + 10000000000u, number / 100};
    return near[way % 8] == number ? number + 2 : near[way % 8];
}

static void judge_taken(uint64_t *list, size_t n, size_t first, size_t second, size_t way)
{
    for (size_t i = 0; i < n; i++)
        list[i] = i == first || i == second ? file_number() : untaken(i + way);
    lend_taken(list, n);
    due(first < n || second < n ? 50 : 0, 0, 0);
    judge_and_read();
}

/* The number at each place of short lists, once and twice, and lists without it. */
static void short_taken_lists(void)
{
    uint64_t list[6];
    for (size_t n = 0; n <= 6; n++)
        for (size_t first = 0; first <= n; first++)
            for (size_t second = first; second <= n; second++)
                for (size_t way = 0; way < 8; way++)
                    judge_taken(list, n, first, second, way);
}

static void long_taken_lists(void)
{
    static uint64_t list[SPARE / 8];
    static const size_t sizes[] = {41, 42, 63, 64, 65, 100, 200, 255, 256, 257, 600, 4097, SPARE / 8};
    for (size_t i = 0; i < sizeof sizes / sizeof sizes[0]; i++) {
        size_t n = sizes[i];
        const size_t places[] = {0, 1, 39, 40, 41, n / 2, n - 2, n - 1, n};
        for (size_t k = 0; k < sizeof places / sizeof places[0]; k++)
            judge_taken(list, n, places[k], places[k], k);
    }
    lend_taken(NULL, 0);
}

/* Their call answers as the whole judge does on page 0. */
static void judge_both_on_page_0(void)
{
    uint32_t page = code_page();
    use_page(0);
    const uint64_t *full = judge_and_read();
    due(full[1] * 100 + full[0]);
    judge();
    use_page(page);
}

void random_taken_numbers(bool sound)
{
    uint64_t list[100];
    size_t n = below(100), times = n ? below(4) : 0;
    for (size_t i = 0; i < n; i++)
        list[i] = untaken(below(8));
    for (size_t k = 0; k < times; k++)
        list[one_in(3) ? 0 : one_in(3) ? n - 1 : below(n)] = file_number();
    lend_taken(list, n);
    if (sound)
        due(times ? 50 : 0, 0, 0);
    judge_and_read();
    lend_taken(NULL, 0);
    judge_both_on_page_0();
}

/* ---- Shown parts ---------------------------------------------------------------------------- */

enum { RECORDS_ASKED = 13, FIELDS_ASKED = 18 };

static uint64_t record_asked(size_t i)
{
    const uint64_t records[RECORDS_ASKED] = {0, 1, 2, payments, payments + 1, payments + 2, payments / 2 + 1, 10000,
        UINT64_MAX, ((uint64_t)1 << 56) + 1, ((uint64_t)1 << 57) + 1, ((uint64_t)1 << 32) + 1, (uint64_t)1 << 63};
    return records[i];
}

static uint64_t field_asked(size_t i)
{
    static const uint64_t fields[FIELDS_ASKED] = {0, 1, 2, 3, 4, 5, 6, 7, 8, 9, 10, 11, 255, 258, UINT64_MAX,
        ((uint64_t)1 << 32) + 2, ((uint64_t)1 << 56) + 1, (uint64_t)1 << 60};
    return fields[i];
}

/* All of them, on a file that the walk passes: content is not asked for. */
static void each_part(void)
{
    for (size_t i = 0; i < RECORDS_ASKED; i++)
        for (size_t k = 0; k < FIELDS_ASKED; k++)
            show_part(record_asked(i), field_asked(k), true);
}

void random_parts(void)
{
    for (int k = 0; k < 2; k++) {
        uint64_t record = record_asked(below(RECORDS_ASKED)), field = field_asked(below(FIELDS_ASKED));
        show(record, field);
    }
}

/* ---- Structure ------------------------------------------------------------------------------ */

static const char heads[] = "0256Q0768T0256Z0768Q0256T0768Z0255Q0769T0256X 768T0256z0768t2560Q\xB0" "768T";

static void take_out(size_t at, size_t n)
{
    memmove(draft + at, draft + at + n, draft_n - at - n);
    draft_n -= n;
}

static void append(const uint8_t *bytes, size_t n)
{
    memmove(draft + draft_n, bytes, n);
    draft_n += n;
}

/* Bytes of the first payment, or of Z and what is behind it. */
static void append_more(size_t n) { append(one_in(2) ? draft + 256 : draft + draft_n - 256, n); }

static void cut_near_an_edge(void)
{
    size_t edge = one_in(6) ? 0 : 256 + 768 * below(payments + 2), to = edge + below(7);
    to = to < 3 ? 0 : to - 3;
    draft_n = to < draft_n ? to : draft_n - 1;
}

void spoil_structure(void)
{
    size_t record = below(payments + 2);
    uint8_t *r = record_of(record);
    switch (below(9)) {
    case 0: cut_near_an_edge(); break;
    case 1: append_more(one_in(3) ? 768 : one_in(3) ? 256 : 1 + below(5)); break;
    case 2: memcpy(r, heads + 5 * below(sizeof heads / 5), 5); break;
    case 3: r[4] = (uint8_t)"QTZqtz 0"[below(8)]; break;
    case 4: memcpy(r, heads + 5 * below(sizeof heads / 5), 4); break;
    case 5: memcpy(draft + 256, draft, 256); break;                     /* Q twice */
    case 6: take_out(256, draft_n - 512); break;                        /* Z after Q */
    case 7: take_out((size_t)(r - draft), record == 0 || record > payments ? 256 : 768); break;
    default: draft_n = below(draft_n + 1);
    }
    if (one_in(3)) spoil_any_byte();
    if (one_in(8)) draft_n = below(draft_n + 1);
}

/* Cuts at every length, with and without a content fault; what a longer file adds. */
void each_length(void)
{
    random_file(2, NULL, 0);
    size_t whole = draft_n;
    for (int faulty = 0; faulty < 2; faulty++) {
        if (faulty) draft[5] = 'X', draft[256 + 13] = 'X';
        for (draft_n = 0; draft_n < whole; draft_n++) {
            size_t record = draft_n < 256 ? 0 : 1 + (draft_n - 256) / 768;
            verdict told = broken_at(2, record, 0);
            lend_draft();
            judge_each_way(told);
            another_call(draft_n, told);
        }
    }
    for (size_t more = 1; more <= 800; more++) {
        draft_n = whole;
        append_more(more > 256 ? 256 : more);
        draft_n = whole + more;
        verdict told = broken_at(5, 3, 0);
        lend_draft();
        judge_each_way(told);
        another_call(more, told);
    }
}

/* ---- Cases of the paper --------------------------------------------------------------------- */

/* Two payments of 120,50 and 79,75; the second payee is M&M STUDIO. */
static void worked_example(void)
{
    payments = 2;
    draft_n = file_bytes(2);
    sample_q(draft);
    sample_t(record_of(1), BIC_ALONE, "US", 120, 50);
    sample_t(record_of(2), BIC_ALONE, "US", 79, 75);
    memcpy(record_of(2) + 210, "M&M STUDIO   ", 13);
    sample_z(draft, 2);
    lend_draft();
}

static void answers_of_the_example(void)
{
    worked_example();
    due(0, 0, 0, 2, 199, 125);
    judge_and_read();
    draft[1235] = '+';                                  /* in the draft alone: the file is lent already */
    due(0, 0, 1);
    due_output(draft, draft_n);
    due_notes((const uint32_t[]){316198}, 1);
    prepare_both_ways(draft_n, 1);
}

static void short_files(void)
{
    static const struct { const char *bytes; uint64_t rule; } files[] = {
        {"", 2}, {"0256", 2}, {"XXXX", 2}, {"XXXXX", 4}, {"9999Q", 3}, {"0256Q", 2}
    };
    for (size_t i = 0; i < sizeof files / sizeof files[0]; i++) {
        lend(FILE_IN, files[i].bytes, strlen(files[i].bytes));
        judge_each_way(broken_at(files[i].rule, 0, 0));
    }
}

/* A code is record * 100 + rule, as payroll hosts get it. */
static verdict of_code(uint64_t code, int place) { return broken_at(code % 100, code / 100, place); }

static void judge_draft(uint64_t code, int place)
{
    lend_draft();
    judge_each_way(of_code(code, place));
}

/* Zeros, as long as a file may be and one byte longer. */
static void zeros(void)
{
    memset(draft, 0, MOST_FILE + 1);
    draft_n = MOST_FILE + 1;
    judge_draft(1, 0);
    draft_n = MOST_FILE;
    judge_draft(4, 0);
}

/* The example with other bytes at one place, and the code that is then due; of_code has the place that is due with it. */
typedef struct { size_t record; int at; const char *bytes; uint64_t code; } edge;

static void run_edges(const edge *e, size_t count)
{
    for (; count > 0; e++, count--) {
        worked_example();
        put(record_of(e->record) + e->at, e->bytes);
        judge_draft(e->code, e->at);
        for (size_t turn = 0; turn < 4; turn++)
            another_call(turn, of_code(e->code, e->at));
    }
}

static void edges_of_the_rules(void)
{
    static const edge edges[] = {
        {0, 0, "0255Q", 3}, {1, 0, "0769T", 103}, {2, 0, "0768t", 204}, {3, 0, "0257Z", 303},
        {1, 0, "0256Z", 104}, {1, 0, "0256Q", 104}, {2, 0, "0256Q", 204}, {3, 0, "0256Q", 304},
        {2, 0, "0256Z", 205}, {2, 0, "0768Z", 203}, {3, 0, "0256T", 303}, {3, 0, "0768T", 302},
        {0, 163, "000229", 0}, {0, 163, "010229", 13},
        {1, 53, "SC123456   ", 126},
        {2, 472, "500", 0}, {2, 472, "505", 233},
        {2, 210, "===================================", 229},
        {3, 5, "000000000000200", 342}, {3, 5, "000000000000200000000000000003", 341}, {3, 255, "X", 340}
    };
    run_edges(edges, sizeof edges / sizeof edges[0]);
    each_part();
}

static void edges_of_the_sum(void)
{
    for (unsigned more = 0; more < 2; more++) {
        draft_of_the_largest_sum(more);
        lend_draft();
        if (more)
            due(42, 12, 5, 0, 0, 0);
        else
            due(0, 0, 0, 11, 999999999999999u, 1089);
        judge_and_read();
    }
}

static void countries_of_any_content(void)
{
    static const edge edges[] = {
        {1, 207, "BC ", 128}, {1, 207, "X  ", 128}, {1, 207, "XX ", 128}, {1, 207, "   ", 228}, {1, 207, "AB ", 228}
    };
    use_lists("  ABCD\xFF\x00X", 9, "", 0);
    run_edges(edges, sizeof edges / sizeof edges[0]);
    worked_example();
    memcpy(record_of(1) + 207, "\xFF\x00 ", 3);
    memcpy(record_of(2) + 207, "   ", 3);
    judge_draft(0, 0);
    memcpy(record_of(1) + 207, "X\x00 ", 3);             /* the lone last byte, and what may stand behind it */
    judge_draft(128, 207);
}

/* With a BIC, capitals are asked of T9a, listed or not; without one, the list decides. */
static void banks_country(void)
{
    static const edge with_bic[] = {{2, 64, "a1 ", 226}, {2, 64, "ZZ ", 0}};
    static const struct { const char *country; uint64_t code; } without[] = {{"a1 ", 0}, {"   ", 0}, {"ZZ ", 226}};
    use_lists("US  a1", 6, "US", 2);
    run_edges(with_bic, 2);
    for (int i = 0; i < 3; i++) {
        worked_example();
        put(record_of(2) + 53, "SC123456   ");
        put(record_of(2) + 64, without[i].country);
        put(record_of(2) + 206, "/");
        judge_draft(without[i].code, 64);
    }
}

void named_cases(void)
{
    use_annexes();
    answers_of_the_example();
    short_files();
    zeros();
    edges_of_the_rules();
    edges_of_the_sum();
    countries_of_any_content();
    banks_country();
    use_annexes();
    worked_example();
    short_taken_lists();
    long_taken_lists();
    each_part();
}

/* ---- 9,999 payments, one byte more, and faults far back; few, for they are long ------------- */

static void long_sound_file(void)
{
    long_draft(MOST_PAYMENTS);
    lend_draft();
    lend_taken(NULL, 0);
    due(0);
    judge();
    due(0, 0, 0, 9999, 49995000, 495000);
    judge_and_read();
    prepare_pair(true);
    some_rooms_and_changes();
    each_part();
}

static void faults_far_back(void)
{
    uint8_t *t27 = record_of(payments) + 766, kept = *t27;
    *t27 = 'X';
    judge_draft(999934, 766);
    *t27 = kept;
    draft[draft_n - 1] = 'X';
    judge_draft(1000040, 255);
    draft[--draft_n] = ' ';
    judge_draft(1000002, 0);
    draft_n = MOST_FILE;
}

static void as_many_notes_as_can_be(void)
{
    for (size_t at = 0; at < draft_n; at++)
        if (in_text(at, draft_n))
            draft[at] = changed_into(draft[at]);
    lend_draft();
    read_lent(broken_at(0, 0, 0));
    prepare_pair(true);
    some_rooms_and_changes();
}

static void one_byte_too_long(void)
{
    draft_n = MOST_FILE + 1;
    lend_draft();
    for (size_t turn = 0; turn < 4; turn++)
        another_call(turn, of_code(1, 0));
    judge_draft(1, 0);
}

void long_files(void)
{
    long_sound_file();
    faults_far_back();
    as_many_notes_as_can_be();
    one_byte_too_long();
}
