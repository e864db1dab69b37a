/* Linked into the example hosts by tests/hosts and into the command by tests/tool, with ld's --wrap: faults that are hard to
   cause from outside. The words in DESK_FAULT, with commas between them, say which: with "restore" another byte comes back
   than went in; with "list" the payment behind the first returned one is named in its place; with "large" more payments are
   kept than any file has; with "m8" one M8 record too few is told; with "after=PATH" nothing gets the name new-forwarded while
   nothing is at that path; with "full=PATH" the disk is full when what was written to that path, or to that directory, is to
   go there; with "kept=PATH" that path cannot be removed while another name of its file is there, with "stays=PATH" not at
   all, and with "unmoved=PATH" it cannot be renamed; with "killed" the host ends, and clears nothing up, where a file is to be
   renamed, with "killed=PATH" where one is to get that name, and with "killed-off=PATH" where that name is to be removed; with
   "no-links" the file system has no links, and with "no-free-names" it cannot ask, while it renames a file, that nothing has
   the new name; and any other word is a name that nothing gets. */
#define _DEFAULT_SOURCE
#include "../hosts/c/desk.h"

#include <errno.h>
#include <stdbool.h>
#include <stdio.h>
#include <stdlib.h>
#include <string.h>
#include <sys/stat.h>
#include <sys/syscall.h>
#include <unistd.h>

desk_prepared __real_desk_prepare(uint32_t page, const uint8_t *file, size_t n,
                                  const uint8_t *transfer, size_t nt, const uint8_t *cheque, size_t nc,
                                  uint8_t *out, size_t out_n, uint32_t *notes, size_t notes_n,
                                  uint32_t *returned, size_t returned_n);
desk_returns __real_desk_m8(uint32_t page, const uint8_t *file, size_t n,
                            const uint8_t *transfer, size_t nt, const uint8_t *cheque, size_t nc,
                            const uint8_t *codes, size_t codes_n, uint8_t *out, size_t out_n);
desk_restored __real_desk_restore(uint32_t page, const uint8_t *forwarded, size_t n, const uint32_t *notes, size_t notes_n,
                                  const uint8_t *transfer, size_t nt, const uint8_t *cheque, size_t nc,
                                  uint8_t *out, size_t out_n);
int __real_link(const char *from, const char *to);
int __real_linkat(int from_in, const char *from, int to_in, const char *to, int flags);
int __real_rename(const char *from, const char *to);
int __real_unlink(const char *path);
int __real_fsync(int descriptor);

enum { KILLED = 137 }; /* the status of a host that is killed */

/* The words of the fault, with a comma before and behind each. */
static const char *fault_words(void)
{
    static char words[512];
    const char *fault = getenv("DESK_FAULT");
    snprintf(words, sizeof words, ",%s,", fault ? fault : "");
    return words;
}

static bool fault_is(const char *word)
{
    char whole[256];
    snprintf(whole, sizeof whole, ",%s,", word);
    return strstr(fault_words(), whole) != NULL;
}

/* The path behind a word in the fault; null where no word begins so. */
static const char *fault_path(const char *word)
{
    static char path[256];
    char begin[256];
    snprintf(begin, sizeof begin, ",%s", word);
    const char *found = strstr(fault_words(), begin);
    if (!found)
        return NULL;
    found += strlen(begin);
    snprintf(path, sizeof path, "%.*s", (int)strcspn(found, ","), found);
    return path;
}

static bool fault_is_at(const char *word, const char *path)
{
    const char *asked = fault_path(word);
    return asked && strcmp(path, asked) == 0;
}

desk_prepared __wrap_desk_prepare(uint32_t page, const uint8_t *file, size_t n,
                                  const uint8_t *transfer, size_t nt, const uint8_t *cheque, size_t nc,
                                  uint8_t *out, size_t out_n, uint32_t *notes, size_t notes_n,
                                  uint32_t *returned, size_t returned_n)
{
    desk_prepared sent = __real_desk_prepare(page, file, n, transfer, nt, cheque, nc, out, out_n, notes, notes_n,
                                             returned, returned_n);
    if (fault_is("list"))
        returned[0] += 100;
    if (fault_is("large"))
        sent.kept = 10000;
    return sent;
}

desk_returns __wrap_desk_m8(uint32_t page, const uint8_t *file, size_t n,
                            const uint8_t *transfer, size_t nt, const uint8_t *cheque, size_t nc,
                            const uint8_t *codes, size_t codes_n, uint8_t *out, size_t out_n)
{
    desk_returns made = __real_desk_m8(page, file, n, transfer, nt, cheque, nc, codes, codes_n, out, out_n);
    if (fault_is("m8"))
        made.count--;
    return made;
}

desk_restored __wrap_desk_restore(uint32_t page, const uint8_t *forwarded, size_t n, const uint32_t *notes, size_t notes_n,
                                  const uint8_t *transfer, size_t nt, const uint8_t *cheque, size_t nc,
                                  uint8_t *out, size_t out_n)
{
    desk_restored back = __real_desk_restore(page, forwarded, n, notes, notes_n, transfer, nt, cheque, nc, out, out_n);
    if (fault_is("restore"))
        out[n - 1] ^= 1;
    return back;
}

/* What a call answers that fails for this reason. */
static int fails(int why)
{
    errno = why;
    return -1;
}

static bool cannot_be(const char *name)
{
    const char *earlier = fault_path("after=");
    return fault_is(name) || (earlier && strcmp(name, "new-forwarded") == 0 && access(earlier, F_OK) != 0);
}

/* The host ends where a file is to get this name, if that is the fault. */
static void may_end_at(const char *name)
{
    if (fault_is_at("killed=", name))
        _exit(KILLED);
}

/* The same where a file is to be renamed. Whether it cannot be. */
static bool cannot_become(const char *from, const char *to)
{
    may_end_at(to);
    if (fault_is("killed"))
        _exit(KILLED);
    return cannot_be(to) || fault_is_at("unmoved=", from);
}

int __wrap_link(const char *from, const char *to) { return cannot_be(to) ? fails(EBUSY) : __real_link(from, to); }

/* Rust's library gives names by this call. */
int __wrap_linkat(int from_in, const char *from, int to_in, const char *to, int flags)
{
    may_end_at(to);
    if (fault_is("no-links"))
        return fails(EPERM);
    return cannot_be(to) ? fails(EBUSY) : __real_linkat(from_in, from, to_in, to, flags);
}

int __wrap_rename(const char *from, const char *to)
{
    return cannot_become(from, to) ? fails(EBUSY) : __real_rename(from, to);
}

/* The command gives free names by this call. The hosts do not have it, so what it stands for is asked of the system. */
int __wrap_renameat2(int from_in, const char *from, int to_in, const char *to, unsigned flags)
{
    if (fault_is("no-free-names"))
        return fails(EINVAL);
    return cannot_become(from, to) ? fails(EBUSY) : (int)syscall(SYS_renameat2, from_in, from, to_in, to, flags);
}

int __wrap_unlink(const char *path)
{
    if (fault_is_at("killed-off=", path))
        _exit(KILLED);
    struct stat status;
    bool is_kept = fault_is_at("kept=", path) && stat(path, &status) == 0 && status.st_nlink > 1;
    return is_kept || fault_is_at("stays=", path) ? fails(EBUSY) : __real_unlink(path);
}

int __wrap_fsync(int descriptor)
{
    const char *path = fault_path("full=");
    struct stat written, asked;
    if (path && fstat(descriptor, &written) == 0 && stat(path, &asked) == 0 && written.st_ino == asked.st_ino)
        return fails(ENOSPC);
    return __real_fsync(descriptor);
}
