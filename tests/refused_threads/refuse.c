/* Refuses to start one thread: the one whose number REFUSE_AT names, counted from 1 over all calls of pthread_create.
   It is loaded before the C library, by LD_PRELOAD. */
#define _GNU_SOURCE
#include <dlfcn.h>
#include <errno.h>
#include <pthread.h>
#include <stdatomic.h>
#include <stdlib.h>

static atomic_ulong threads;
static unsigned long refuse_at;
static int (*next_create)(pthread_t *, const pthread_attr_t *, void *(*)(void *), void *);

__attribute__((constructor)) static void begin(void) {
    const char *at = getenv("REFUSE_AT");
    refuse_at = at == NULL ? 0 : strtoul(at, NULL, 10);
    next_create =
        (int (*)(pthread_t *, const pthread_attr_t *, void *(*)(void *), void *))dlsym(RTLD_NEXT, "pthread_create");
}

int pthread_create(pthread_t *thread, const pthread_attr_t *attributes, void *(*run)(void *), void *argument) {
    if (atomic_fetch_add(&threads, 1) + 1 == refuse_at) {
        return EAGAIN;
    }
    return next_create(thread, attributes, run, argument);
}
