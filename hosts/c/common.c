#define _POSIX_C_SOURCE 200809L
#include "common.h"

#include <errno.h>
#include <stdlib.h>
#include <string.h>
#include <sys/stat.h>
#include <unistd.h>

const char *const page_names[2] = {
    [DESK_DIN_66003] = "page 0 (DIN 66003)",
    [DESK_ISO_8859_1] = "page 1 (ISO 8859-1)",
};

bool take_word(words_left *left, const char *word)
{
    if (left->count < 1 || strcmp(left->words[0], word) != 0)
        return false;
    left->count--;
    left->words++;
    return true;
}

bool take_page(words_left *left, uint32_t *page)
{
    static const char *const words[] = {[DESK_DIN_66003] = "0", [DESK_ISO_8859_1] = "1"};
    for (uint32_t i = 0; i < sizeof words / sizeof words[0]; i++)
        if (take_word(left, words[i])) {
            *page = i;
            return true;
        }
    const char *word = left->count > 0 ? left->words[0] : NULL;
    fprintf(stderr, "%s%s: there is %s and %s\n", word ? "page " : "--page names no page", word ? word : "",
            page_names[DESK_DIN_66003], page_names[DESK_ISO_8859_1]);
    return false;
}

bool is_path(const char *word)
{
    if (word[0] != '-')
        return true;
    fprintf(stderr, "%s: no option in this place; a file of that name is ./%s\n", word, word);
    return false;
}

void say(const char *path, const char *what) { fprintf(stderr, "%s: %s\n", path, what); }

bool wrong(const char *path, const char *why)
{
    say(path, why);
    return false;
}

char *joined(const char *text, size_t length, const char *end)
{
    char *whole = malloc(length + strlen(end) + 1);
    if (!whole) {
        fprintf(stderr, "no memory left\n");
        exit(FAILED);
    }
    memcpy(whole, text, length);
    strcpy(whole + length, end);
    return whole;
}

char *new_name(const char *path) { return joined(path, strlen(path), ".new"); }

/* What is wrong with a path at which something stands. */
static bool taken(const char *path) { return wrong(path, "is there already, and is not written over"); }

bool is_free(const char *path)
{
    struct stat status;
    if (lstat(path, &status) == 0)
        return taken(path);
    return errno == ENOENT || wrong(path, strerror(errno));
}

bool read_file(const char *path, uint8_t *bytes, size_t room, size_t *n)
{
    FILE *f = fopen(path, "rb");
    if (!f)
        return wrong(path, strerror(errno));
    *n = fread(bytes, 1, room, f);
    bool complete = !ferror(f);
    int why = errno;
    fclose(f);
    return complete || wrong(path, strerror(why));
}

bool write_down(FILE *f, const char *path, const void *bytes, size_t size)
{
    bool complete = fwrite(bytes, 1, size, f) == size && fflush(f) == 0 && fsync(fileno(f)) == 0;
    int why = errno;
    bool closed = fclose(f) == 0;
    if (complete && closed)
        return true;
    if (complete)
        why = errno;
    unlink(path);
    return wrong(path, strerror(why));
}

bool put_in_place(const char *new_path, const char *path)
{
    if (link(new_path, path) != 0)
        return errno == EEXIST ? taken(path) : wrong(path, strerror(errno));
    if (unlink(new_path) == 0)
        return true;
    int why = errno;
    unlink(path);
    return wrong(new_path, strerror(why));
}

bool is_printed(void)
{
    if (fflush(stdout) == 0 && !ferror(stdout))
        return true;
    fprintf(stderr, "standard output cannot be written\n");
    return false;
}

void tell_refused(uint32_t page, uint64_t number, uint64_t record, uint64_t at)
{
    char line[DESK_LINE];
    desk_refusal_line(line, number, record, at);
    printf("refused on %s: %s\n", page_names[page], line);
}

void tell_refusal(uint32_t page, const desk_prepared *sent, const desk_judgement *judged)
{
    bool is_same = judged->number == sent->number && judged->record == sent->record;
    tell_refused(page, sent->number, sent->record, is_same ? judged->at : 0);
    if (judged->number && !is_same) {
        char line[DESK_LINE];
        desk_refusal_line(line, judged->number, judged->record, judged->at);
        printf("first broken: %s\n", line);
    }
}
