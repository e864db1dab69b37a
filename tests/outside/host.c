/* A small host that knows the installed header and library alone: host FILE prepares a file and tells what comes of it; host
   alone tells the versions of header and library. tests/release builds it; tests/outside/host.rs does the same. */
#include <desk.h>

#include <inttypes.h>
#include <stdio.h>
#include <stdlib.h>

/* As much of a file as shows whether it is too long. */
static size_t read_file(const char *path, uint8_t *bytes)
{
    FILE *f = fopen(path, "rb");
    if (!f)
        exit(2);
    size_t n = fread(bytes, 1, DESK_MOST_BYTES + 1, f);
    fclose(f);
    return n;
}

static void tell(uint64_t number, uint64_t record)
{
    char line[DESK_LINE];
    desk_refusal_line(line, number, record, 0);
    puts(line);
}

int main(int count, char **words)
{
    static uint8_t file[DESK_MOST_BYTES + 1];
    if (count < 2)
        return printf("%s %s\n", DESK_VERSION, desk_version()) < 0;
    size_t n = read_file(words[1], file);
    uint8_t *out = malloc(DESK_OUTPUT_BYTES(n));
    uint32_t *notes = malloc(DESK_NOTE_PLACES(n) * sizeof *notes);
    uint32_t *returned = malloc(DESK_RETURNED_PLACES(n) * sizeof *returned);
    desk_prepared sent = desk_prepare(DESK_ISO_8859_1, file, n, DESK_ANNEXES, out, DESK_OUTPUT_BYTES(n),
                                      notes, DESK_NOTE_PLACES(n), returned, DESK_RETURNED_PLACES(n));
    if (sent.number) {
        tell(sent.number, sent.record);
        return 1;
    }
    printf("%" PRIu64 " payments go on, %" PRIu64 " come back, %" PRIu64 " characters change\n", sent.kept, sent.returned,
           sent.notes);
    for (uint64_t i = 0; i < sent.returned; i++)
        tell(returned[i] % 100, returned[i] / 100);
    return 0;
}
