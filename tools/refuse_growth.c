/* Loaded before a program (LD_PRELOAD), it counts the program's requests for memory and makes one of them fail, or all from
   one on. With REFUSE_GROWTH=N request N fails, counted from 1. With REFUSE_FROM=N that one fails and all after it. Without
   either none fails. COUNT_GROWTHS=FILE writes their number to the file when the program ends. A request is a call of
   malloc, calloc, realloc, aligned_alloc or posix_memalign for more than 0 bytes. One that fails reports that there is no
   memory. */
#define _GNU_SOURCE
#include <errno.h>
#include <stddef.h>
#include <stdio.h>
#include <stdlib.h>

extern void *__libc_malloc(size_t);
extern void *__libc_calloc(size_t, size_t);
extern void *__libc_realloc(void *, size_t);
extern void *__libc_memalign(size_t, size_t);

static unsigned long growths, refused, refused_from;
static int is_counting;

__attribute__((constructor)) static void begin(void)
{
    const char *one = getenv("REFUSE_GROWTH"), *from = getenv("REFUSE_FROM");
    refused = one ? strtoul(one, NULL, 10) : 0;
    refused_from = from ? strtoul(from, NULL, 10) : 0;
    is_counting = 1;
}

__attribute__((destructor)) static void end(void)
{
    const char *path = getenv("COUNT_GROWTHS");
    is_counting = 0;
    if (path) {
        FILE *file = fopen(path, "w");
        if (file) {
            fprintf(file, "%lu\n", growths);
            fclose(file);
        }
    }
}

/* Returns whether this request fails. */
static int is_refused(size_t size)
{
    if (!is_counting || size == 0)
        return 0;
    growths++;
    if (growths != refused && (refused_from == 0 || growths < refused_from))
        return 0;
    errno = ENOMEM;
    return 1;
}

void *malloc(size_t size)
{
    return is_refused(size) ? NULL : __libc_malloc(size);
}

void *calloc(size_t count, size_t size)
{
    return is_refused(count * size) ? NULL : __libc_calloc(count, size);
}

void *realloc(void *old, size_t size)
{
    return is_refused(size) ? NULL : __libc_realloc(old, size);
}

void *aligned_alloc(size_t alignment, size_t size)
{
    return is_refused(size) ? NULL : __libc_memalign(alignment, size);
}

int posix_memalign(void **place, size_t alignment, size_t size)
{
    void *got;
    if (is_refused(size))
        return ENOMEM;
    got = __libc_memalign(alignment, size);
    if (!got)
        return ENOMEM;
    *place = got;
    return 0;
}
