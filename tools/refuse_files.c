/* Loaded before a program (LD_PRELOAD), it records which paths the program opens, and makes opening one of them fail.
   A line for each path is written to ASKED_FILES=FILE, in the order in which they are opened. The path of a folder ends in `/`.
   Opening REFUSE_FILE=PATH fails with the error whose number is REFUSE_WITH. */
#define _GNU_SOURCE
#include <dlfcn.h>
#include <errno.h>
#include <fcntl.h>
#include <stdarg.h>
#include <stdio.h>
#include <stdlib.h>
#include <string.h>

static int asked = -1;
static const char *refused, *error;

__attribute__((constructor)) static void begin(void)
{
    int (*next)(const char *, int, ...) = dlsym(RTLD_NEXT, "open");
    const char *path = getenv("ASKED_FILES");
    refused = getenv("REFUSE_FILE");
    error = getenv("REFUSE_WITH");
    if (path)
        asked = next(path, O_WRONLY | O_CREAT | O_APPEND | O_CLOEXEC, 0600);
}

/* Records a path. Returns whether opening it fails. */
static int is_refused(const char *path)
{
    if (asked >= 0)
        dprintf(asked, "%s\n", path);
    if (!refused || !error || strcmp(path, refused) != 0)
        return 0;
    errno = atoi(error);
    return 1;
}

int openat(int folder, const char *path, int flags, ...)
{
    int (*next)(int, const char *, int, ...) = dlsym(RTLD_NEXT, "openat");
    va_list rest;
    mode_t mode;
    va_start(rest, flags);
    mode = flags & O_CREAT ? va_arg(rest, mode_t) : 0;
    va_end(rest);
    return is_refused(path) ? -1 : next(folder, path, flags, mode);
}

int open(const char *path, int flags, ...)
{
    int (*next)(const char *, int, ...) = dlsym(RTLD_NEXT, "open");
    va_list rest;
    mode_t mode;
    va_start(rest, flags);
    mode = flags & O_CREAT ? va_arg(rest, mode_t) : 0;
    va_end(rest);
    return is_refused(path) ? -1 : next(path, flags, mode);
}
