/* Counts the bytes that the C allocator holds for a program, as malloc_usable_size tells them, and
   writes the most that it held at a time to the file descriptor 2. Loaded by LD_PRELOAD. */
#define _GNU_SOURCE
#include <dlfcn.h>
#include <malloc.h>
#include <stddef.h>
#include <stdio.h>
#include <stdlib.h>
#include <unistd.h>

static size_t held, most;
static char early[4096];
static size_t early_used;

static int is_early(const void *place) {
    return (const char *)place >= early && (const char *)place < early + sizeof early;
}

static void *taken(void *place) {
    if (place) held += malloc_usable_size(place);
    if (held > most) most = held;
    return place;
}

void *malloc(size_t size) {
    static void *(*real)(size_t);
    if (!real) real = dlsym(RTLD_NEXT, "malloc");
    return taken(real(size));
}

void *calloc(size_t count, size_t size) {
    static void *(*real)(size_t, size_t);
    static int looking;
    if (!real && looking) { /* dlsym itself asks for memory while it looks */
        void *place = early + early_used;
        early_used += (count * size + 15) / 16 * 16;
        return early_used <= sizeof early ? place : NULL;
    }
    if (!real) { looking = 1; real = dlsym(RTLD_NEXT, "calloc"); looking = 0; }
    return taken(real(count, size));
}

void *realloc(void *old, size_t size) {
    static void *(*real)(void *, size_t);
    if (!real) real = dlsym(RTLD_NEXT, "realloc");
    if (old) held -= malloc_usable_size(old);
    return taken(real(old, size));
}

void *aligned_alloc(size_t alignment, size_t size) {
    static void *(*real)(size_t, size_t);
    if (!real) real = dlsym(RTLD_NEXT, "aligned_alloc");
    return taken(real(alignment, size));
}

int posix_memalign(void **place, size_t alignment, size_t size) {
    static int (*real)(void **, size_t, size_t);
    if (!real) real = dlsym(RTLD_NEXT, "posix_memalign");
    int failed = real(place, alignment, size);
    if (!failed) taken(*place);
    return failed;
}

void free(void *place) {
    static void (*real)(void *);
    if (!real) real = dlsym(RTLD_NEXT, "free");
    if (!place || is_early(place)) return;
    held -= malloc_usable_size(place);
    real(place);
}

__attribute__((destructor)) static void report(void) {
    char line[32];
    int n = snprintf(line, sizeof line, "%zu\n", most);
    if (write(2, line, (size_t)n) < 0) _exit(99);
}
