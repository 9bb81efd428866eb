// Preloaded, it refuses the request for memory whose number REFUSE gives. With COUNT set it says at the end how many there
// were, and with MARK set before each write of the program how many there were so far.
#define _GNU_SOURCE
#include <dlfcn.h>
#include <stdio.h>
#include <stdlib.h>
#include <unistd.h>

static _Atomic long requests;

static int is_refused(void) {
    const char *number = getenv("REFUSE");
    return ++requests == (number ? atol(number) : 0);
}

void *malloc(size_t size) {
    void *(*real)(size_t) = dlsym(RTLD_NEXT, "malloc");
    return is_refused() ? NULL : real(size);
}

void *realloc(void *block, size_t size) {
    void *(*real)(void *, size_t) = dlsym(RTLD_NEXT, "realloc");
    return is_refused() ? NULL : real(block, size);
}

static ssize_t put(int file, const void *bytes, size_t size) {
    ssize_t (*real)(int, const void *, size_t) = dlsym(RTLD_NEXT, "write");
    return real(file, bytes, size);
}

// It requests no memory itself, as dprintf does.
static ssize_t say(void) {
    char line[24];
    return put(2, line, (size_t)snprintf(line, sizeof line, "%ld\n", (long)requests));
}

ssize_t write(int file, const void *bytes, size_t size) {
    if (getenv("MARK")) say();
    return put(file, bytes, size);
}

__attribute__((destructor)) static void say_last(void) {
    if (getenv("COUNT")) say();
}

// A program that may start threads ends by this call.
__attribute__((noreturn)) void _exit(int status) {
    void (*real)(int) = dlsym(RTLD_NEXT, "_exit");
    say_last();
    real(status);
    __builtin_unreachable();
}
