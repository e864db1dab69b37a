/* Compares the desk's calls with an independent implementation, answer by answer and byte by byte, and holds both to what
   the papers ask for.

   compare [--seed N] [--calls N]
       The suites, some 4.8 million calls; then random files, until N calls more are made with them, and random books.
   compare --suite NAME
       One suite alone.
   compare --seconds N [--seed N]
       Random files and books alone, for that many seconds.
   compare --replay FILE
       Runs one kept case again, and checks again what was due of it. */

#include <inttypes.h>
#include <stdio.h>
#include <stdlib.h>
#include <string.h>
#include <time.h>

#include "drafts.h"
#include "suites.h"
#include "takes.h"

/* Those that read text are run on each page; the others begin on page 0. */
static const struct {
    const char *name;
    void (*run)(void);
    uint32_t pages;
} suites[] = {
    {"code_pages", each_code_page, 1},
    {"sorting", each_sorting, 1},
    {"m8", each_m8, 1},
    {"book", each_book, 1},
    {"arrivals", each_arrival, 1},
    {"lengths", each_length, 1},
    {"amounts", each_amount, 1},
    {"near_misses", near_misses, 1},
    {"countries", each_country_list, 1},
    {"named_cases", named_cases, PAGES},
    {"mistakes", each_mistake, PAGES},
    {"rooms_and_pairs", each_room_and_pair, PAGES},
    {"rules", each_rule_alone, PAGES},
    {"sets_of_fields", each_set_of_fields, PAGES},
    {"pairs_of_rules", each_pair_of_rules, PAGES},
    {"bytes", each_byte, PAGES},
    {"long_files", long_files, PAGES},
    {"long_arrivals", long_arrivals, 1},
    {"long_sorting", long_sorting, 1},
    {"sweep", sweep, 1},
};

/* The suite of that name, or all of them where it is null; whether there is one. Each makes the same calls by itself as
   among the others. */
static bool run_suites(const char *name, uint64_t seed)
{
    bool found = false;
    for (size_t i = 0; i < sizeof suites / sizeof suites[0]; i++) {
        if (name && strcmp(name, suites[i].name) != 0)
            continue;
        found = true;
        name_suite(suites[i].name);
        begin_chance(seed);
        for (uint32_t page = 0; page < suites[i].pages; page++) {
            use_annexes();
            use_page(page);
            lend(FILE_IN, NULL, 0);
            suites[i].run();
        }
    }
    name_suite(NULL);
    return found;
}

/* A draft whose first broken rule, if any, is not known. */
static void unknown_file(void)
{
    switch (below(3)) {
    case 0: break_rules_at_random(); break;
    case 1: spoil_structure(); break;
    default:
        for (size_t k = 1 + below(4); k > 0; k--)
            spoil_any_byte();
    }
}

static void every_call(bool sound)
{
    shift_file(one_in(4) ? below(16) : 0);
    lend_draft();
    if (one_in(8))
        random_page_number();
    random_taken_numbers(sound);
    random_arrival();
    random_parts();
    if (draft_n < 512) {
        size_t room = one_in(2) ? draft_n : below(draft_n + 50), places = below(100);
        prepare_both_ways(room, places);
        lend(NOTES_IN, NULL, 0);
        restore(room);
    } else {
        prepare_pair(sound);
        for (int k = 0; k < 5 && have_pair(); k++) {
            random_rooms();
            random_change();
        }
    }
    shift_file(0);
}

static void random_case(void)
{
    use_annexes();
    use_page((uint32_t)below(PAGES));
    want_wrong_countries(false);
    if (one_in(4)) {
        random_rule_alone();
        random_pair_of_rules();
        random_near_miss();
        random_country_list();
        random_reading();
        random_sorting();
        random_book();
        return;
    }
    if (one_in(3)) {
        use_random_lists();
        want_wrong_countries(one_in(2));
    }
    size_t count = one_in(20) ? 5 + below(20) : 1 + below(4);
    bool sound = random_file(count, NULL, (int)below(3));
    if (one_in(2)) {
        unknown_file();
        sound = false;
    }
    every_call(sound);
}

/* Each take of a number is a call. */
static uint64_t all_calls(void) { return calls_made() + takes_made(); }

static int replay_either(const char *name)
{
    int status = replay_takes(name);
    return status < 0 ? replay(name) : status;
}

static int usage(void)
{
    fprintf(stderr, "usage: compare [--seed N] [--calls N] | compare --suite NAME | compare --seconds N [--seed N]"
                    " | compare --replay FILE\n");
    return 2;
}

int main(int argc, char **argv)
{
    char cases[80];
    const char *kept = NULL, *suite = NULL;
    uint64_t seed = 1, calls = 50000, seconds = 0;
    for (int i = 1; i + 1 < argc; i += 2)
        if (strcmp(argv[i], "--seed") == 0) seed = strtoull(argv[i + 1], NULL, 0);
        else if (strcmp(argv[i], "--calls") == 0) calls = strtoull(argv[i + 1], NULL, 0);
        else if (strcmp(argv[i], "--seconds") == 0) seconds = strtoull(argv[i + 1], NULL, 0);
        else if (strcmp(argv[i], "--replay") == 0) kept = argv[i + 1];
        else if (strcmp(argv[i], "--suite") == 0) suite = argv[i + 1];
        else return usage();
    if (argc % 2 == 0 || (suite && seconds))
        return usage();
    snprintf(cases, sizeof cases, "target/tests/case-%" PRIu64 "-", seed);
    open_areas(kept ? NULL : cases);
    keep_takes(kept ? NULL : cases);
    if (kept)
        return replay_either(kept);
    if (seconds == 0 && !run_suites(suite, seed))
        return usage();
    begin_chance(seed);
    time_t end = time(NULL) + (time_t)seconds;
    calls = suite ? 0 : calls + calls_made();
    while (seconds ? time(NULL) < end : calls_made() < calls)
        random_case();
    printf("%" PRIu64 " calls compared, 0 differ\n", all_calls());
    return 0;
}
