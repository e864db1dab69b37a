/* What the example hosts have in common: the page and the paths that their words name, files as they are read and written,
   and how they tell what they find, and what they cannot do. Whatever cannot be done is said on standard
   error, in one line; a function that answers bool has said so where it answers false. */
#ifndef DESK_COMMON_H
#define DESK_COMMON_H

#include "desk.h"

#include <stdio.h>

/* The bytes of the records. */
enum { Q = 256, T = 768, Z = 256 };

/* Places for the notes and the returned list of any file. */
enum { MOST_NOTES = DESK_NOTE_PLACES(DESK_MOST_BYTES), MOST_RETURNED = DESK_RETURNED_PLACES(DESK_MOST_BYTES) };

/* The status to end with where something failed. */
enum { FAILED = 2 };

/* The names of the pages. */
extern const char *const page_names[2];

/* The words that are not yet understood. */
typedef struct {
    int count;
    char **words;
} words_left;

/* Takes the first word, where there is one and it is this one; else it answers false, and says nothing. */
bool take_word(words_left *left, const char *word);

/* Takes the page behind --page. */
bool take_page(words_left *left, uint32_t *page);

/* Whether a word can be a path: not where it begins as an option does. */
bool is_path(const char *word);

/* Says something of a path on standard error. */
void say(const char *path, const char *what);

/* Says what is wrong with a path; always false, for the caller to hand on. */
bool wrong(const char *path, const char *why);

/* A text's first bytes, with an end behind them, in memory of their own. Without memory the program ends. */
char *joined(const char *text, size_t length, const char *end);

/* The path of the new file that becomes the one at a path. */
char *new_name(const char *path);

/* Whether nothing stands at a path, not even a link that leads nowhere. */
bool is_free(const char *path);

/* Reads as many bytes of a file as there is room for. */
bool read_file(const char *path, uint8_t *bytes, size_t room, size_t *n);

/* Writes bytes to an open file, down to the disk, and closes it. Where that fails the file is removed. */
bool write_down(FILE *f, const char *path, const void *bytes, size_t size);

/* Gives a complete new file a name that nothing has, and takes its own away. Where that fails nothing has that name. */
bool put_in_place(const char *new_path, const char *path);

/* Whether all that was told could be printed. */
bool is_printed(void);

void tell_refused(uint32_t page, uint64_t number, uint64_t record, uint64_t at);

/* Tells why nothing goes on. Prepare tells no field; the judge does, where it stops at the same rule. Where it stops at an
   earlier one, that is told too. */
void tell_refusal(uint32_t page, const desk_prepared *sent, const desk_judgement *judged);

#endif
