/* Refuses one allocation of a program: the one whose number, counted from 1, the environment's REFUSE says. */
#define _GNU_SOURCE
#include <dlfcn.h>
#include <errno.h>
#include <stdlib.h>

static long count;
static long refused = -1;

static int is_refused(void) {
    if (refused < 0) {
        const char *text = getenv("REFUSE");
        refused = text ? atol(text) : 0;
    }
    count++;
    return count == refused;
}

void *malloc(size_t size) {
    static void *(*next)(size_t);
    if (!next) next = dlsym(RTLD_NEXT, "malloc");
    if (is_refused()) { errno = ENOMEM; return 0; }
    return next(size);
}

void *realloc(void *old, size_t size) {
    static void *(*next)(void *, size_t);
    if (!next) next = dlsym(RTLD_NEXT, "realloc");
    if (is_refused()) { errno = ENOMEM; return 0; }
    return next(old, size);
}

void *aligned_alloc(size_t alignment, size_t size) {
    static void *(*next)(size_t, size_t);
    if (!next) next = dlsym(RTLD_NEXT, "aligned_alloc");
    if (is_refused()) { errno = ENOMEM; return 0; }
    return next(alignment, size);
}

int posix_memalign(void **out, size_t alignment, size_t size) {
    static int (*next)(void **, size_t, size_t);
    if (!next) next = dlsym(RTLD_NEXT, "posix_memalign");
    if (is_refused()) return ENOMEM;
    return next(out, alignment, size);
}
