/* Refuses one allocation: the REFUSE-th call of the C allocator that can grow memory, counted from 1.
   At the end it writes the number of such calls to the file descriptor 2. Loaded by LD_PRELOAD. */
#define _GNU_SOURCE
#include <dlfcn.h>
#include <errno.h>
#include <stddef.h>
#include <stdio.h>
#include <stdlib.h>
#include <unistd.h>

static long calls, refused;
static char early[4096];
static size_t early_used;

static int refuses(void) {
    if (refused == 0) {
        const char *text = getenv("REFUSE");
        refused = text ? atol(text) : -1;
    }
    calls += 1;
    return calls == refused;
}

void *malloc(size_t size) {
    static void *(*real)(size_t);
    if (!real) real = dlsym(RTLD_NEXT, "malloc");
    if (refuses()) { errno = ENOMEM; return NULL; }
    return real(size);
}

void *calloc(size_t count, size_t size) {
    static void *(*real)(size_t, size_t);
    static int looking;
    if (!real && looking) { /* dlsym itself asks for memory while it looks */
        void *place = early + early_used;
        early_used += (count * size + 15) / 16 * 16;
        return early_used <= sizeof early ? place : NULL;
    }
    if (!real) { looking = 1; real = dlsym(RTLD_NEXT, "calloc"); looking = 0; }
    if (refuses()) { errno = ENOMEM; return NULL; }
    return real(count, size);
}

void *realloc(void *old, size_t size) {
    static void *(*real)(void *, size_t);
    if (!real) real = dlsym(RTLD_NEXT, "realloc");
    if (refuses()) { errno = ENOMEM; return NULL; }
    return real(old, size);
}

void *aligned_alloc(size_t alignment, size_t size) {
    static void *(*real)(size_t, size_t);
    if (!real) real = dlsym(RTLD_NEXT, "aligned_alloc");
    if (refuses()) { errno = ENOMEM; return NULL; }
    return real(alignment, size);
}

int posix_memalign(void **place, size_t alignment, size_t size) {
    static int (*real)(void **, size_t, size_t);
    if (!real) real = dlsym(RTLD_NEXT, "posix_memalign");
    if (refuses()) return ENOMEM;
    return real(place, alignment, size);
}

__attribute__((destructor)) static void report(void) {
    char line[32];
    int n = snprintf(line, sizeof line, "%ld\n", calls);
    if (write(2, line, (size_t)n) < 0) _exit(99);
}
