// Counts the requests for memory of a program that is run with this library loaded first, and tells how many there
// were on standard error.
#define _GNU_SOURCE
#include <dlfcn.h>
#include <stddef.h>
#include <stdio.h>

static unsigned long requests;

static void *next_of(const char *name) {
    return dlsym(RTLD_NEXT, name);
}

void *malloc(size_t size) {
    static void *(*next)(size_t);
    if (!next) next = next_of("malloc");
    requests++;
    return next(size);
}

void *realloc(void *old, size_t size) {
    static void *(*next)(void *, size_t);
    if (!next) next = next_of("realloc");
    requests++;
    return next(old, size);
}

int posix_memalign(void **out, size_t align, size_t size) {
    static int (*next)(void **, size_t, size_t);
    if (!next) next = next_of("posix_memalign");
    requests++;
    return next(out, align, size);
}

void *aligned_alloc(size_t align, size_t size) {
    static void *(*next)(size_t, size_t);
    if (!next) next = next_of("aligned_alloc");
    requests++;
    return next(align, size);
}

__attribute__((destructor)) static void tell(void) {
    fprintf(stderr, "%lu\n", requests);
}
