// Counts what a program asks of its machine, when it is run with this library loaded first: requests for memory, reads
// of standard input and writes to standard output. The request whose number (from 0) an environment variable has is
// refused: REFUSE_MEMORY, REFUSE_READ, REFUSE_WRITE. If COUNTS names a file, the three counts are written to it.
#define _GNU_SOURCE
#include <dlfcn.h>
#include <errno.h>
#include <stddef.h>
#include <stdio.h>
#include <stdlib.h>
#include <unistd.h>

struct kind {
    const char *variable;
    long asked;
    long refused;
    int known;
};

static struct kind memory = {"REFUSE_MEMORY", 0, -1, 0};
static struct kind reads = {"REFUSE_READ", 0, -1, 0};
static struct kind writes = {"REFUSE_WRITE", 0, -1, 0};

// Whether this request is the one to refuse.
static int refuses(struct kind *kind) {
    if (!kind->known) {
        const char *number = getenv(kind->variable);
        kind->known = 1;
        if (number) kind->refused = atol(number);
    }
    return kind->asked++ == kind->refused;
}

void *malloc(size_t size) {
    static void *(*next)(size_t);
    if (!next) next = dlsym(RTLD_NEXT, "malloc");
    return refuses(&memory) ? NULL : next(size);
}

void *realloc(void *old, size_t size) {
    static void *(*next)(void *, size_t);
    if (!next) next = dlsym(RTLD_NEXT, "realloc");
    return refuses(&memory) ? NULL : next(old, size);
}

int posix_memalign(void **out, size_t align, size_t size) {
    static int (*next)(void **, size_t, size_t);
    if (!next) next = dlsym(RTLD_NEXT, "posix_memalign");
    return refuses(&memory) ? ENOMEM : next(out, align, size);
}

void *aligned_alloc(size_t align, size_t size) {
    static void *(*next)(size_t, size_t);
    if (!next) next = dlsym(RTLD_NEXT, "aligned_alloc");
    return refuses(&memory) ? NULL : next(align, size);
}

ssize_t read(int file, void *bytes, size_t size) {
    static ssize_t (*next)(int, void *, size_t);
    if (!next) next = dlsym(RTLD_NEXT, "read");
    if (file == 0 && refuses(&reads)) {
        errno = EIO;
        return -1;
    }
    return next(file, bytes, size);
}

ssize_t write(int file, const void *bytes, size_t size) {
    static ssize_t (*next)(int, const void *, size_t);
    if (!next) next = dlsym(RTLD_NEXT, "write");
    if (file == 1 && refuses(&writes)) {
        errno = EIO;
        return -1;
    }
    return next(file, bytes, size);
}

__attribute__((destructor)) static void tell(void) {
    const char *name = getenv("COUNTS");
    long asked = memory.asked;
    FILE *file = name ? fopen(name, "w") : NULL;
    if (!file) return;
    fprintf(file, "%ld %ld %ld\n", asked, reads.asked, writes.asked);
    fclose(file);
}
