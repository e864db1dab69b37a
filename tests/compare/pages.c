/* The code page, request A2 of document 02: numbers that no page has; the German characters of both pages in each text
   field; text that is filled on one page and blank on the other; pairs of one page on the other. */
#include <string.h>

#include "plans.h"
#include "suites.h"

/* ---- A file of two payments ------------------------------------------------------------------ */

enum { WHOLE = 256 + 2 * 768 + 256, CHANGED = 3 };
static uint8_t forwarded[WHOLE];

static void two_payments(payment_kind first, payment_kind second)
{
    payments = 2;
    draft_n = WHOLE;
    sample_q(draft);
    sample_t(record_of(1), first, "US", 120, 50);
    sample_t(record_of(2), second, "US", 79, 75);
    sample_z(draft, 2);
}

/* Three characters are changed on both pages: a German one of each, and one that is neither. */
static void three_changes(void)
{
    two_payments(CODE_AND_BANK, CHEQUE);
    draft[162] = '&';
    record_of(1)[206] = 0x5B;
    record_of(2)[713] = 0xC4;
}

/* ---- Numbers of pages ------------------------------------------------------------------------ */

/* The two that there are; their neighbours; and what a narrower or a signed reading takes for one of them. */
static const uint32_t numbers[] = {
    0, 1, 2, 3, 254, 255, 256, 257, 65535, 65536, 65537, 1u << 24, 1u << 31, (1u << 31) + 1, UINT32_MAX - 1, UINT32_MAX
};
enum { NUMBERS = sizeof numbers / sizeof numbers[0] };

uint32_t no_such_page(void)
{
    if (one_in(2))
        return numbers[PAGES + below(NUMBERS - PAGES)];
    return (uint32_t)(PAGES + below((size_t)UINT32_MAX - PAGES + 1));
}

/* What is due on the page in use, if there is such a page. */
static verdict by_number(verdict told) { return code_page() < PAGES ? told : (verdict){7, 0, 0}; }

static void judge_by_number(verdict told, bool taken)
{
    uint64_t number = file_number();
    lend_taken(&number, taken);
    if (taken && told.rule == 0)
        told.rule = 50;
    told = by_number(told);
    if (told.rule == 0)
        due(0, 0, 0, 2, 199, 125);
    else
        due(told.rule, told.record, told.at, 0, 0, 0);
    judge_and_read();
    lend_taken(NULL, 0);
}

static void prepare_by_number(verdict told, size_t room, size_t places)
{
    if (told.rule == 0)
        told.rule = room < draft_n ? 60 : places < CHANGED ? 61 : 0;
    told = by_number(told);
    due(told.rule, told.record, told.rule ? 0 : CHANGED);
    prepare_both_ways(room, places);
}

/* What is lent is the file itself, and no pair. */
static void restore_by_number(size_t room)
{
    verdict told = by_number((verdict){room < draft_n ? 60 : 70, 0, 0});
    due(told.rule, 0);
    restore(room);
}

static void each_call_by_number(verdict told)
{
    size_t too_short = draft_n ? draft_n - 1 : 0;
    for (size_t i = 0; i < NUMBERS; i++) {
        use_page(numbers[i]);
        judge_by_number(told, false);
        judge_by_number(told, true);
        prepare_by_number(told, draft_n, CHANGED);
        prepare_by_number(told, draft_n, CHANGED - 1);
        prepare_by_number(told, too_short, CHANGED);
        prepare_by_number(told, 0, 0);
        restore_by_number(draft_n);
        restore_by_number(too_short);
    }
}

/* The file with another byte at one place, as long as told, and what is due of it on both pages. */
static void each_number_on_files(void)
{
    static const struct { size_t n, at; uint8_t byte; verdict told; } files[] = {
        {WHOLE, 0, '0', {0, 0, 0}},
        {0, 0, '0', {2, 0, 0}}, {4, 0, '0', {2, 0, 0}}, {WHOLE - 1, 0, '0', {2, 3, 0}}, {WHOLE, 4, 'T', {4, 0, 0}},
        {WHOLE, 5, 'X', {10, 0, 5}}, {WHOLE, 256 + 768 + 455, 'X', {32, 2, 455}}, {WHOLE, WHOLE - 1, 'X', {40, 3, 35}},
        {MOST_FILE + 1, 0, '0', {1, 0, 0}},
    };
    lend(NOTES_IN, NULL, 0);
    for (size_t i = 0; i < sizeof files / sizeof files[0]; i++) {
        three_changes();
        draft[files[i].at] = files[i].byte;
        draft_n = files[i].n;
        lend_draft();
        each_call_by_number(files[i].told);
    }
}

/* The pair that one page makes of the draft. It belongs to that page alone, and to none with nonsense behind its notes. */
static void restore_pair_by_number(uint32_t page, bool nonsense, bool no_room)
{
    uint32_t notes[CHANGED + 1];
    forwarded_of(page, draft, draft_n, forwarded, notes);
    notes[CHANGED] = UINT32_MAX;
    lend(FILE_IN, forwarded, draft_n);
    lend(NOTES_IN, notes, 4 * (size_t)(CHANGED + nonsense));
    for (size_t i = 0; i < NUMBERS; i++) {
        use_page(numbers[i]);
        verdict told = by_number((verdict){no_room ? 60 : nonsense || numbers[i] != page ? 70 : 0, 0, 0});
        due(told.rule, 0);
        if (told.rule == 0)
            due_output(draft, draft_n);
        restore(draft_n - no_room);
    }
}

static void each_number_on_pairs(void)
{
    three_changes();
    for (uint32_t page = 0; page < PAGES; page++)
        for (int way = 0; way < 4; way++)
            restore_pair_by_number(page, way % 2, way / 2);
}

/* The three calls on whatever is lent. */
void random_page_number(void)
{
    uint32_t page = code_page();
    size_t room = one_in(2) ? draft_n : below(draft_n + 50), places = below(1000);
    use_page(no_such_page());
    due(7, 0, 0, 0, 0, 0);
    judge_and_read();
    due(7, 0, 0);
    prepare_both_ways(room, places);
    due(7, 0);
    restore(room);
    use_page(page);
}

/* ---- What each page makes of a character ----------------------------------------------------- */

/* A byte of a text field, and what stands for it on page 0 and on page 1: said here once more, and not by paper.c. */
typedef struct { uint8_t byte; char becomes[PAGES + 1]; } character;

static const character characters[] = {
    {0x5B, "A "}, {0x5C, "O "}, {0x5D, "U "}, {0x7E, "S "},             /* DIN 66003 */
    {0xC4, " A"}, {0xD6, " O"}, {0xDC, " U"}, {0xDF, " S"},             /* ISO 8859-1 */
    {0x7B, "  "}, {0x7C, "  "}, {0x7D, "  "},                           /* small umlauts of the one */
    {0xE4, "  "}, {0xF6, "  "}, {0xFC, "  "},                           /* and of the other */
    {'&', "++"}, {'$', "SS"}, {'\'', "  "}, {0x80, "  "}, {0xFF, "  "},
};
enum { CHARACTERS = sizeof characters / sizeof characters[0] };

/* The lent pair, on a page on which it gives the draft back, or on one that it does not belong to. */
static void restore_on(uint32_t page, bool same)
{
    use_page(page);
    due(same ? 0 : 70, 0);
    if (same)
        due_output(draft, draft_n);
    restore(draft_n);
}

static void change_one(uint32_t page, size_t at, const character *c)
{
    uint32_t note = (uint32_t)(256 * at + c->byte);
    two_payments(CODE_AND_BANK, CHEQUE);
    draft[at] = c->byte;
    memcpy(forwarded, draft, draft_n);
    forwarded[at] = (uint8_t)c->becomes[page];
    use_page(page);
    lend_draft();
    due(0, 0, 0, 2, 199, 125);
    judge_and_read();
    due(0, 0, 1);
    due_output(forwarded, draft_n);
    due_notes(&note, 1);
    prepare_both_ways(draft_n, 1);
    lend(FILE_IN, forwarded, draft_n);
    lend(NOTES_IN, &note, 4);
    restore_on(page, true);
    restore_on(1 - page, c->becomes[0] == c->becomes[1]);
}

/* In each field of Q and of the first payment: at its third byte, for T12 begins with two of its own, in the middle, and at
   its end. */
static void each_character(void)
{
    for (size_t field = 1; field <= 9; field++) {
        size_t first = (size_t)text_field[field].first, last = (size_t)text_field[field].last;
        const size_t places[3] = {first + 2, (first + last) / 2, last};
        for (const character *c = characters; c < characters + CHARACTERS; c++)
            for (size_t k = 0; k < 3; k++)
                for (uint32_t page = 0; page < PAGES; page++)
                    change_one(page, (field == 1 ? 0 : 256) + places[k], c);
    }
}

/* ---- Text that is filled on one page and blank on the other ----------------------------------- */

/* Who: Q, or payments: b BIC alone, l BIC and country, c code and bank, s cheque. From first to last there are spaces but
   for the text, which begins at a place of its own; each # in it is a German character in its code on one page. The rule
   that this breaks on that page, and the one that it breaks on the other. */
typedef struct { char who; int first, last, at; const char *text; unsigned here, there; } reading;

static const reading readings[] = {
    {'Q', 23, 57, 23, "#", 0, 12}, {'Q', 23, 57, 57, "#", 0, 12}, {'Q', 23, 57, 40, "=#=#'", 0, 12},
    {'Q', 23, 57, 23, "###################################", 0, 12}, {'Q', 58, 162, 58, "#", 0, 0},
    {'b', 53, 63, 53, "#BCDDEFF", 0, 26}, {'b', 53, 63, 53, "A#CDDEFF", 0, 26}, {'b', 53, 63, 53, "AB#DDEFF", 0, 26},
    {'b', 53, 63, 53, "ABC#DEFF", 0, 26}, {'b', 53, 63, 53, "ABCD#EFF", 0, 26}, {'b', 53, 63, 53, "ABCDD#FF", 0, 26},
    {'b', 53, 63, 53, "ABCDDE#F", 0, 26}, {'b', 53, 63, 53, "ABCDDEF#", 0, 26}, {'b', 53, 63, 53, "########", 0, 26},
    {'b', 53, 63, 53, "ABCDDEFF#XX", 0, 26}, {'b', 53, 63, 53, "ABCDDEFFX#X", 0, 26},
    {'b', 53, 63, 53, "ABCDDEFFXX#", 0, 26}, {'b', 53, 63, 53, "###########", 0, 26},
    {'b', 53, 63, 53, "ABCDDEFF###", 0, 0}, {'b', 53, 63, 53, "ABCDDEFF#", 26, 0}, {'b', 53, 63, 53, "ABCDDEFF  #", 26, 0},
    {'l', 53, 63, 53, "#BCDDEFF", 0, 27}, {'l', 53, 63, 53, "ABCDD#FF", 0, 27}, {'l', 53, 63, 53, "ABCDDEF#", 0, 27},
    {'l', 53, 63, 53, "ABCDDEFFXX#", 0, 27}, {'l', 53, 63, 53, "ABCDDEFF###", 0, 0}, {'l', 53, 63, 53, "ABCDDEFF#", 27, 0},
    {'c', 53, 63, 53, "SC######", 0, 0}, {'c', 53, 63, 53, "#", 0, 0},
    {'c', 67, 206, 67, "#", 0, 27}, {'c', 67, 206, 150, "=#=#'", 0, 27}, {'c', 67, 206, 206, "#", 0, 27},
    {'b', 67, 206, 67, "#", 0, 0},
    {'b', 210, 244, 210, "#", 0, 29}, {'l', 210, 244, 220, "=#=#'", 0, 29}, {'c', 210, 244, 244, "#", 0, 29},
    {'s', 210, 244, 244, "#", 0, 29}, {'s', 280, 314, 280, "#", 0, 29}, {'s', 280, 314, 314, "#", 0, 29},
    {'s', 315, 349, 315, "#", 0, 29}, {'s', 315, 349, 349, "#", 0, 29}, {'s', 280, 349, 314, "##", 0, 29},
    {'s', 245, 279, 245, "#", 0, 0}, {'b', 245, 349, 245, "#", 0, 0},
    {'b', 420, 454, 420, "/#", 0, 31}, {'l', 420, 454, 420, "/#9", 0, 31}, {'c', 420, 454, 420, "/##", 0, 31},
    {'b', 420, 454, 420, "/9#", 0, 0}, {'b', 420, 454, 420, "#9", 31, 31}, {'b', 420, 454, 420, "/ #", 31, 31},
    {'s', 53, 63, 53, "#", 25, 0}, {'s', 53, 63, 63, "#", 25, 0}, {'s', 67, 206, 67, "#", 25, 0},
    {'s', 67, 206, 206, "#", 25, 0}, {'s', 420, 454, 420, "#", 31, 0}, {'s', 420, 454, 454, "#", 31, 0},
    {'s', 475, 614, 475, "#", 0, 0}, {'b', 623, 647, 647, "#", 0, 0}, {'l', 652, 713, 678, "##", 0, 0},
};
enum { READINGS = sizeof readings / sizeof readings[0] };

static void write_text(const reading *w, uint8_t *r, uint8_t character)
{
    memset(r + w->first, ' ', (size_t)(w->last - w->first + 1));
    for (size_t i = 0; w->text[i]; i++)
        r[w->at + (int)i] = w->text[i] == '#' ? character : (uint8_t)w->text[i];
}

/* The call for payroll hosts answers by page 0, whatever page the others name. */
static void judge_on_both(const verdict told[PAGES])
{
    for (uint32_t page = 0; page < PAGES; page++) {
        use_page(page);
        read_lent(told[page]);
        due(100 * told[0].record + told[0].rule);
        judge();
        for (size_t turn = 0; turn < 4; turn++)
            another_call(turn, told[page]);
    }
}

/* The German character of one page, in the first payment or in the second; Q has it at all events. */
static void read_on_both(const reading *w, uint32_t page, int which, size_t payment)
{
    static const char kinds[] = "blcs";
    size_t record = w->who == 'Q' ? 0 : payment;
    payment_kind kind = w->who == 'Q' ? BIC_ALONE : (payment_kind)(strchr(kinds, w->who) - kinds);
    verdict told[PAGES];
    two_payments(kind, kind);
    write_text(w, record_of(record), (uint8_t)german[page][which]);
    lend_draft();
    told[page] = broken_at(w->here, record, w->first);
    told[1 - page] = broken_at(w->there, record, w->first);
    judge_on_both(told);
}

static void each_reading(void)
{
    for (const reading *w = readings; w < readings + READINGS; w++)
        for (uint32_t page = 0; page < PAGES; page++)
            for (int which = 0; which < 4; which++)
                for (size_t payment = 1; payment <= 2; payment++)
                    read_on_both(w, page, which, payment);
}

void random_reading(void)
{
    const reading *w = &readings[below(READINGS)];
    uint32_t page = (uint32_t)below(PAGES), before = code_page();
    int which = (int)below(4);
    read_on_both(w, page, which, 1 + below(2));
    use_page(before);
}

void each_code_page(void)
{
    each_number_on_files();
    each_number_on_pairs();
    each_character();
    each_reading();
    use_page(0);
}
