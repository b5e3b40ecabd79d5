/* Fails calls of the system in a program into which it is loaded: those by which it opens, reads, writes, empties and syncs files and
   asks for what they are. They are counted from 1. In the environment FAIL_AT is the number of the call that fails, none where it is
   0 or missing; with FAIL_REST all after it fail too; FAIL_EACH fails each so many-th call in its place; FAIL_WITH is the cause, a
   number of errno. With FAIL_WITH 0 a read or a write does a part of its work, and with 4 (EINTR) each call but one for what a file is
   is interrupted; both are no faults. FAIL_COUNT names a file for how many calls there were. */
#define _GNU_SOURCE
#include <dlfcn.h>
#include <errno.h>
#include <fcntl.h>
#include <stdarg.h>
#include <stdio.h>
#include <stdlib.h>
#include <sys/stat.h>
#include <sys/types.h>
#include <unistd.h>

static unsigned long calls, fails_at, fails_each;
static int cause, rest, ready;
static const char *count_file;

static unsigned long number(const char *name)
{
    const char *text = getenv(name);
    return text ? strtoul(text, NULL, 10) : 0;
}

__attribute__((constructor)) static void begin(void)
{
    fails_at = number("FAIL_AT");
    fails_each = number("FAIL_EACH");
    cause = (int)number("FAIL_WITH");
    rest = getenv("FAIL_REST") != NULL;
    count_file = getenv("FAIL_COUNT");
    ready = 1;
}

__attribute__((destructor)) static void end(void)
{
    ready = 0;
    FILE *out = count_file ? fopen(count_file, "w") : NULL;
    if (out) {
        fprintf(out, "%lu\n", calls);
        fclose(out);
    }
}

/* Counts a call, and says whether it is one that fails. */
static int is_failing(void)
{
    if (!ready) {
        return 0;
    }
    calls++;
    if (fails_each) {
        return calls % fails_each == 0;
    }
    return fails_at && (rest ? calls >= fails_at : calls == fails_at);
}

/* Sets the cause, where the call fails. One that does a part of its work does not. */
static int fails(int may_be_interrupted)
{
    if (!is_failing() || cause == 0 || (cause == EINTR && !may_be_interrupted)) {
        return 0;
    }
    errno = cause;
    return 1;
}

#define REAL(name) ((__typeof__(&name))dlsym(RTLD_NEXT, #name))

int open(const char *path, int flags, ...)
{
    va_list more;
    va_start(more, flags);
    mode_t mode = (flags & O_CREAT) ? va_arg(more, mode_t) : 0;
    va_end(more);
    return fails(1) ? -1 : REAL(open)(path, flags, mode);
}

ssize_t pread(int file, void *into, size_t size, off_t at)
{
    int failing = is_failing();
    if (failing && cause) {
        errno = cause;
        return -1;
    }
    return REAL(pread)(file, into, failing && size > 1 ? size / 2 : size, at);
}

ssize_t write(int file, const void *from, size_t size)
{
    int failing = is_failing();
    if (failing && cause) {
        errno = cause;
        return -1;
    }
    return REAL(write)(file, from, failing && size > 1 ? size / 2 : size);
}

int ftruncate(int file, off_t size)
{
    return fails(1) ? -1 : REAL(ftruncate)(file, size);
}

int fsync(int file)
{
    return fails(1) ? -1 : REAL(fsync)(file);
}

int statx(int folder, const char *restrict path, int flags, unsigned mask, struct statx *restrict into)
{
    return fails(0) ? -1 : REAL(statx)(folder, path, flags, mask, into);
}
