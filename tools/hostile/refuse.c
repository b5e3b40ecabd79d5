/* Refuses memory to a program into which it is loaded. Only what the program itself asks for counts, from 1, and nothing that
   the C library asks for. In the environment REFUSE_AT is the number that is refused, none where it is 0 or missing; with
   REFUSE_REST all after it are refused too; and REFUSE_COUNT names a file for how often the program asked. */
#define _GNU_SOURCE
#include <errno.h>
#include <link.h>
#include <stdint.h>
#include <stdio.h>
#include <stdlib.h>

extern void *__libc_malloc(size_t size);
extern void *__libc_calloc(size_t count, size_t size);
extern void *__libc_realloc(void *old, size_t size);

static uintptr_t first_byte = UINTPTR_MAX, last_byte;
static unsigned long asked, refused_at;
static int rest;
static const char *count_file;

/* The places of the program's own code. It is the first that is told, and the last that is looked at. */
static int find_program(struct dl_phdr_info *info, size_t size, void *data)
{
    for (int at = 0; at < info->dlpi_phnum; at++) {
        const ElfW(Phdr) *part = &info->dlpi_phdr[at];
        if (part->p_type == PT_LOAD && (part->p_flags & PF_X)) {
            uintptr_t from = info->dlpi_addr + part->p_vaddr;
            first_byte = from < first_byte ? from : first_byte;
            last_byte = from + part->p_memsz > last_byte ? from + part->p_memsz : last_byte;
        }
    }
    return 1;
}

__attribute__((constructor)) static void begin(void)
{
    const char *at = getenv("REFUSE_AT");
    refused_at = at ? strtoul(at, NULL, 10) : 0;
    rest = getenv("REFUSE_REST") != NULL;
    count_file = getenv("REFUSE_COUNT");
    dl_iterate_phdr(find_program, NULL);
}

__attribute__((destructor)) static void end(void)
{
    FILE *out = count_file ? fopen(count_file, "w") : NULL;
    if (out) {
        fprintf(out, "%lu\n", asked);
        fclose(out);
    }
}

/* Counts what is asked for from this place, and says whether it is refused. */
static int is_refused(const void *place)
{
    uintptr_t from = (uintptr_t)place;
    if (from < first_byte || from >= last_byte) {
        return 0;
    }
    asked++;
    if (refused_at == 0 || (rest ? asked < refused_at : asked != refused_at)) {
        return 0;
    }
    errno = ENOMEM;
    return 1;
}

void *malloc(size_t size)
{
    return is_refused(__builtin_return_address(0)) ? NULL : __libc_malloc(size);
}

void *calloc(size_t count, size_t size)
{
    return is_refused(__builtin_return_address(0)) ? NULL : __libc_calloc(count, size);
}

void *realloc(void *old, size_t size)
{
    return is_refused(__builtin_return_address(0)) ? NULL : __libc_realloc(old, size);
}
