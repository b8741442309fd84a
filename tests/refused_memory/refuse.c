/* Refuses one growth of memory: the one whose number REFUSE_AT names, counted from 1 over all calls of malloc,
   calloc, realloc and their aligned kin. It is loaded before the C library, by LD_PRELOAD. At the end it writes to
   the file that TOLD names how many growths there were and how many of them were refused. */
#define _GNU_SOURCE
#include <dlfcn.h>
#include <errno.h>
#include <fcntl.h>
#include <stdatomic.h>
#include <stdio.h>
#include <stdlib.h>
#include <string.h>
#include <sys/syscall.h>
#include <unistd.h>

static atomic_ulong growths;
static atomic_ulong refused;
static unsigned long refuse_at;
static void *(*next_malloc)(size_t);
static void *(*next_calloc)(size_t, size_t);
static void *(*next_realloc)(void *, size_t);
static int (*next_posix_memalign)(void **, size_t, size_t);
static void *(*next_aligned_alloc)(size_t, size_t);
static void (*next_free)(void *);

/* What the loader takes before the C library's own functions are found. */
static char early[65536];
static size_t early_used;

static void *take_early(size_t size) {
    size_t place = (early_used + 15) & ~(size_t)15;
    if (size > sizeof early - place) {
        return NULL;
    }
    early_used = place + size;
    return early + place;
}

static int is_early(const void *block) {
    return (const char *)block >= early && (const char *)block < early + sizeof early;
}

__attribute__((constructor)) static void begin(void) {
    const char *at = getenv("REFUSE_AT");
    next_calloc = (void *(*)(size_t, size_t))dlsym(RTLD_NEXT, "calloc");
    next_realloc = (void *(*)(void *, size_t))dlsym(RTLD_NEXT, "realloc");
    next_posix_memalign = (int (*)(void **, size_t, size_t))dlsym(RTLD_NEXT, "posix_memalign");
    next_aligned_alloc = (void *(*)(size_t, size_t))dlsym(RTLD_NEXT, "aligned_alloc");
    next_free = (void (*)(void *))dlsym(RTLD_NEXT, "free");
    next_malloc = (void *(*)(size_t))dlsym(RTLD_NEXT, "malloc");
    refuse_at = at == NULL ? 0 : strtoul(at, NULL, 10);
}

__attribute__((destructor)) static void tell(void) {
    const char *file = getenv("TOLD");
    char text[64];
    if (file != NULL) {
        int out = open(file, O_WRONLY | O_CREAT | O_TRUNC, 0600);
        int length = snprintf(text, sizeof text, "%lu %lu\n", (unsigned long)growths, (unsigned long)refused);
        if (out >= 0) {
            if (write(out, text, (size_t)length) < 0) {
                syscall(SYS_exit_group, 99);
            }
            close(out);
        }
    }
}

/* Whether this growth is the one that is refused. */
static int refuses(void) {
    if (atomic_fetch_add(&growths, 1) + 1 != refuse_at) {
        return 0;
    }
    atomic_fetch_add(&refused, 1);
    errno = ENOMEM;
    return 1;
}

void *malloc(size_t size) {
    if (next_malloc == NULL) {
        return take_early(size);
    }
    return refuses() ? NULL : next_malloc(size);
}

void *calloc(size_t count, size_t size) {
    if (next_malloc == NULL) {
        return take_early(count * size);
    }
    return refuses() ? NULL : next_calloc(count, size);
}

void *realloc(void *block, size_t size) {
    void *grown;
    if (next_malloc != NULL && !is_early(block)) {
        return refuses() ? NULL : next_realloc(block, size);
    }
    grown = malloc(size);
    if (grown != NULL && block != NULL) {
        size_t most = (size_t)(early + sizeof early - (char *)block);
        memcpy(grown, block, size < most ? size : most);
    }
    return grown;
}

int posix_memalign(void **block, size_t alignment, size_t size) {
    return refuses() ? ENOMEM : next_posix_memalign(block, alignment, size);
}

void *aligned_alloc(size_t alignment, size_t size) {
    return refuses() ? NULL : next_aligned_alloc(alignment, size);
}

void free(void *block) {
    if (block != NULL && !is_early(block)) {
        next_free(block);
    }
}

/* The program ends without the C library's own end, which would run the destructor. */
void _exit(int status) {
    tell();
    syscall(SYS_exit_group, status);
    __builtin_unreachable();
}
