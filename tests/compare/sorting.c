/* Send the good ones, request A5 of document 02: which payments come back and by which rule, what the rest goes on as, what
   refuses the whole file, and in which order that is told. */
#include "filed.h"
#include "submitted.h"
#include "suites.h"

/* ---- Each rule, in one, two or all of three payments ------------------------------------------ */

/* One record of the draft is broken, in whichever field. */
static void sort_broken(verdict judged)
{
    begin_faults();
    if (judged.rule >= 40)
        behind = judged;
    else if (judged.rule >= 20 && judged.rule != 21)
        lowest[judged.record] = (unsigned)judged.rule;
    else if (judged.rule && judged.rule < 20)
        before = judged;
    if (judged.rule == 33)
        sample_z(draft, payments);                      /* of amounts that are zero now */
    sort_submitted();
}

enum { SETS = 8 };                                  /* of three payments, the first one in bit 0 */

static bool in_set(size_t record, unsigned set) { return set >> (record - 1) & 1; }

static void break_set(unsigned set, unsigned rule)
{
    for (size_t r = 1; r <= 3; r++)
        if (in_set(r, set))
            break_payment(r, rule);
}

static void each_rule_in_each_set(payment_kind kind)
{
    for (unsigned rule = 20; rule <= 35; rule++)
        for (unsigned set = 0; set < SETS; set++) {
            for (size_t r = 1; r <= 3; r++)
                kinds[r] = in_set(r, set) ? kind : (payment_kind)below(4);
            submit_kinds(3);
            break_set(set, rule);
            sort_submitted();
            lend_submitted();
            for (size_t way = 0; way < ROOMS; way++)
                in_room(way);
        }
}

/* ---- Faults that refuse the file, beside payments that are returned ----------------------------- */

static unsigned random_rule(void) { return 20 + (unsigned)below(16); }

/* Ways to make Z wrong. Its figures may be those of the kept payments already. */
static void spoil_z(size_t way)
{
    uint8_t *z = record_of(payments + 1);
    uint64_t rule = way < 3 ? 40 : way < 6 ? 41 : 42;
    size_t kept = 0;
    for (size_t r = 1; r <= payments; r++)
        kept += first_rule(r) == 0;
    switch (way) {
    case 0: z[5 + below(15)] = 'X'; break;
    case 1: z[20 + below(15)] = ' '; break;
    case 2: z[35 + below(221)] = '0'; break;
    case 3: put_number(z + 20, 15, kept == payments ? 0 : kept); break;
    case 4: put_number(z + 20, 15, payments + 1); break;
    case 5: put_number(z + 5, 30, payments - 1); break;
    case 6: put_number(z + 5, 15, euros_of(draft, payments) + 1); break;
    default: z[6] = z[6] == '9' ? '0' : '9'; break;
    }
    behind = (verdict){rule, payments + 1, 0};
}
enum { WRONG_ZS = 8 };

/* In the same payment, in an earlier or in a later one than those that are returned; now and then in two, or with a wrong
   Z. */
static void each_non_digit(void)
{
    for (int at = 458; at <= 474; at++)
        for (size_t record = 1; record <= 3; record++)
            for (unsigned set = 0; set < SETS; set++) {
                submit(3);
                break_set(set, random_rule());
                put_non_digit(record, at);
                if (one_in(4))
                    put_non_digit(1 + below(3), 474);
                if (one_in(4))
                    spoil_z(below(WRONG_ZS));
                sort_submitted();
            }
}

static void each_wrong_z(void)
{
    for (size_t way = 0; way < WRONG_ZS; way++)
        for (unsigned set = 0; set < SETS; set++)
            for (int turn = 0; turn < 4; turn++) {
                submit(3);
                break_set(set, random_rule());
                spoil_z(way);
                sort_submitted();
            }
}

/* Ways to break Q or the structure. */
static void spoil_before(size_t way)
{
    static const struct { int at; const char *bytes; unsigned rule; } in_q[] = {
        {5, "50400000", 10}, {13, "1", 11}, {23, "                                   ", 12}, {163, "240230", 13},
        {176, " ", 14}, {177, "J", 15}, {255, "0", 16}
    };
    enum { IN_Q = sizeof in_q / sizeof in_q[0] };
    size_t record = 1 + below(payments);
    switch (way) {
    case IN_Q: before = (verdict){2, payments + 1, 0}, draft_n--; break;
    case IN_Q + 1: before = (verdict){3, record, 0}, record_of(record)[3] = '9'; break;
    case IN_Q + 2: before = (verdict){4, record, 0}, record_of(record)[4] = 'Q'; break;
    case IN_Q + 3: before = (verdict){5, payments + 1, 0}, draft_n++; break;
    default:
        put(draft + in_q[way].at, in_q[way].bytes);
        before = (verdict){in_q[way].rule, 0, 0};
    }
}
enum { WRONG_BEFORE = 11 };

static void each_fault_before(void)
{
    for (size_t way = 0; way < WRONG_BEFORE; way++)
        for (unsigned set = 0; set < SETS; set++)
            for (int turn = 0; turn < 4; turn++) {
                submit(3);
                break_set(set, random_rule());
                if (turn % 2)
                    put_non_digit(1 + below(3), 458);
                if (turn / 2)
                    spoil_z(below(WRONG_ZS));
                spoil_before(way);
                sort_submitted();
            }
}

/* ---- Random ones -------------------------------------------------------------------------------- */

/* Some rules of one payment, the highest first. */
static void break_some_rules(size_t record)
{
    size_t spread = 1 + below(8);
    for (unsigned rule = 35; rule >= 20; rule--)
        if (one_in(2 * spread))
            break_payment(record, rule);
}

void random_sorting(void)
{
    size_t count = one_in(10) ? 5 + below(20) : 1 + below(5), good = below(4);
    lend_taken(NULL, 0);
    submit(count);
    for (size_t r = 1; r <= count; r++)
        if (!one_in(1 + good))
            break_some_rules(r);
    if (one_in(10)) {
        size_t record = 1 + below(count);
        put_non_digit(record, 458 + (int)below(17));
    }
    if (one_in(10))
        spoil_z(below(WRONG_ZS));
    if (one_in(20))
        spoil_before(below(WRONG_BEFORE));
    sort_submitted();
}

/* ---- Many payments -------------------------------------------------------------------------------- */

/* Payment n is of n euros. */
static void submit_many(size_t count)
{
    long_draft(count);
    for (size_t r = 1; r <= count; r++)
        kinds[r] = kind_in_long_draft(r);
    begin_faults();
}

/* All of them but each seventh, or each seventh alone, by rules in turn. */
static void break_sevenths(bool sevenths)
{
    for (size_t r = 1; r <= payments; r++)
        if ((r % 7 == 0) == sevenths)
            break_payment(r, 20 + (unsigned)(r + 4) % 16);
}

/* Of 9,999 payments each seventh comes back: 1428 of them, and 7 + 14 + .. + 9996 = 7,142,142. Their cents are those of all
   hundred numbers, 4,950, fourteen times, and of 7, 14, .. 98, 5, 12, .. 96, which are 1,442. */
static void one_in_seven_returned(void)
{
    submit_many(MOST_PAYMENTS);
    for (size_t r = 7; r <= payments; r += 7) {
        put(record_of(r) + 455, "USD");
        lowest[r] = 32;
    }
    lend_submitted();
    due(0, 0, 4, 8571, 1428, 42852858, 7142142);
    prepare(file_bytes(8571), 4, 1428);
    lend_codes(ODD, TABLE_BYTES);
    due(0, 0, 1428, 7142142, 70742);
    m8(1428 * M8_BYTES);
    in_room(0);
    in_room(1);
    in_room(4);
    in_room(16);
    follow_what_goes_on();
}

/* The last payment, or Z, refuses them all; and all but one come back. */
static void faults_far_back(void)
{
    uint8_t *t14b = record_of(payments) + 472, kept = *t14b;
    put_non_digit(payments, 472);
    lend_submitted();
    in_room(0);
    *t14b = kept, lowest[payments] = 0;
    spoil_z(7);
    lend_submitted();
    in_room(0);
    submit_many(MOST_PAYMENTS);
    for (size_t r = 1; r <= payments; r++)
        if (r != 5000)
            record_of(r)[715] = 'X', lowest[r] = 35;
    lend_submitted();
    due(0, 0, 0, 1, 9998, 5000, 49990000);
    prepare(file_bytes(1), 0, 9998);
    lend_codes(NAMED, TABLE_BYTES);
    due(0, 0, 9998, 49990000, 495000);
    m8(9998 * M8_BYTES);
    in_room(0);
    in_room(1);
    record_of(5000)[715] = 'X', lowest[5000] = 35;
    lend_submitted();
    in_room(0);
}

/* ---- Suites ----------------------------------------------------------------------------------------- */

void each_sorting(void)
{
    lend_taken(NULL, 0);
    for (uint32_t page = 0; page < PAGES; page++) {
        use_page(page);
        each_sorted_example();
        with_each_rule_broken(sort_broken);
        for (payment_kind kind = BIC_ALONE; kind <= CHEQUE; kind++)
            each_rule_in_each_set(kind);
        each_non_digit();
        each_wrong_z();
        each_fault_before();
        for (int k = 0; k < 2000; k++)
            random_sorting();
    }
    use_page(0);
}

void long_sorting(void)
{
    for (size_t count = 300; count <= 700; count += 200)
        for (int sevenths = 0; sevenths < 2; sevenths++) {
            submit_many(count);
            break_sevenths(sevenths);
            sort_submitted();
        }
    one_in_seven_returned();
    faults_far_back();
}
