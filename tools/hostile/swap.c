/* Puts one file in the place of another between two calls of the system, in a program into which it is loaded: what a second process
   does that wins a race, at each moment in turn and without waiting. Calls are those by which a program opens, asks for, empties,
   writes and syncs files; they are counted from 1. Before call number SWAP_AT the names SWAP_A and SWAP_B change places; SWAP_BACK calls
   later they change back, unless that is 0 or missing. SWAP_COUNT names a file for how many calls there were. */
#define _GNU_SOURCE
#include <dlfcn.h>
#include <fcntl.h>
#include <stdarg.h>
#include <stdio.h>
#include <stdlib.h>
#include <sys/stat.h>
#include <sys/types.h>
#include <unistd.h>

static unsigned long calls, at, back;
static const char *a, *b, *count_file;
static int ready;

static unsigned long number(const char *name)
{
    const char *text = getenv(name);
    return text ? strtoul(text, NULL, 10) : 0;
}

__attribute__((constructor)) static void begin(void)
{
    at = number("SWAP_AT");
    back = number("SWAP_BACK");
    a = getenv("SWAP_A");
    b = getenv("SWAP_B");
    count_file = getenv("SWAP_COUNT");
    ready = 1;
}

__attribute__((destructor)) static void end(void)
{
    ready = 0;
    FILE *out = count_file ? fopen(count_file, "w") : NULL;
    if (out) {
        fprintf(out, "%lu\n", calls);
        fclose(out);
    }
}

/* A name that isn't there yet takes part too: then it is there afterwards, and the other one isn't. */
static void swap(void)
{
    rename(a, ".swapped");
    rename(b, a);
    rename(".swapped", b);
}

static void tick(void)
{
    if (!ready) {
        return;
    }
    calls++;
    if (a && b && at && (calls == at || (back && calls == at + back))) {
        swap();
    }
}

#define NEXT(name) ((__typeof__(&name))dlsym(RTLD_NEXT, #name))

int open(const char *path, int flags, ...)
{
    va_list more;
    va_start(more, flags);
    mode_t mode = flags & O_CREAT ? va_arg(more, mode_t) : 0;
    va_end(more);
    tick();
    return NEXT(open)(path, flags, mode);
}

int open64(const char *path, int flags, ...)
{
    va_list more;
    va_start(more, flags);
    mode_t mode = flags & O_CREAT ? va_arg(more, mode_t) : 0;
    va_end(more);
    tick();
    return NEXT(open64)(path, flags, mode);
}

int statx(int folder, const char *path, int flags, unsigned int mask, struct statx *into)
{
    tick();
    return NEXT(statx)(folder, path, flags, mask, into);
}

int ftruncate(int file, off_t size)
{
    tick();
    return NEXT(ftruncate)(file, size);
}

ssize_t write(int file, const void *bytes, size_t size)
{
    tick();
    return NEXT(write)(file, bytes, size);
}

ssize_t pread(int file, void *bytes, size_t size, off_t place)
{
    tick();
    return NEXT(pread)(file, bytes, size, place);
}

char *realpath(const char *path, char *into)
{
    tick();
    return NEXT(realpath)(path, into);
}

ssize_t readlink(const char *path, char *into, size_t size)
{
    tick();
    return NEXT(readlink)(path, into, size);
}

int fsync(int file)
{
    tick();
    return NEXT(fsync)(file);
}
