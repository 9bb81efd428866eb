// Preloaded, it refuses the start of the thread whose number REFUSE gives.
#define _GNU_SOURCE
#include <dlfcn.h>
#include <errno.h>
#include <pthread.h>
#include <stdlib.h>

static _Atomic long starts;

int pthread_create(pthread_t *thread, const pthread_attr_t *how, void *(*run)(void *), void *given) {
    int (*real)(pthread_t *, const pthread_attr_t *, void *(*)(void *), void *) = dlsym(RTLD_NEXT, "pthread_create");
    const char *number = getenv("REFUSE");
    return ++starts == (number ? atol(number) : 0) ? EAGAIN : real(thread, how, run, given);
}
