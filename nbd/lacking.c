/*
 * Preloaded into nbdkit by nbd/run: while the file that LACKING names is there, the plugin finds no memory and no room on a disk.
 */
#define _GNU_SOURCE
#include <dlfcn.h>
#include <errno.h>
#include <fcntl.h>
#include <stdbool.h>
#include <stdlib.h>
#include <string.h>
#include <unistd.h>

/* What a transport and a recorder take for themselves is large. */
#define LARGE 4096

static bool is_lacking(void)
{
    const char *path = getenv("LACKING");
    const int error = errno;
    const bool is_there = path && access(path, F_OK) == 0;
    errno = error;
    return is_there;
}

static bool is_plugin(void *caller)
{
    Dl_info place;
    return dladdr(caller, &place) && place.dli_fname && strstr(place.dli_fname, "nbdkit-camxpt-plugin");
}

void *malloc(size_t size)
{
    static void *(*next)(size_t);
    if (!next)
        *(void **)&next = dlsym(RTLD_NEXT, "malloc");
    return size >= LARGE && is_plugin(__builtin_return_address(0)) && is_lacking() ? NULL : next(size);
}

void *realloc(void *block, size_t size)
{
    static void *(*next)(void *, size_t);
    if (!next)
        *(void **)&next = dlsym(RTLD_NEXT, "realloc");
    return size >= LARGE && is_plugin(__builtin_return_address(0)) && is_lacking() ? NULL : next(block, size);
}

int posix_fallocate(int file, off_t offset, off_t size)
{
    static int (*next)(int, off_t, off_t);
    if (!next)
        *(void **)&next = dlsym(RTLD_NEXT, "posix_fallocate");
    return is_lacking() ? ENOSPC : next(file, offset, size);
}
