/* Stands before the C library's allocator: the request whose number is in FAIL_AT is refused. */
#define _GNU_SOURCE
#include <dlfcn.h>
#include <errno.h>
#include <stddef.h>
#include <stdlib.h>

static long seen = 0;

static int is_refused(void) {
    const char *number = getenv("FAIL_AT");
    seen++;
    return number && seen == atol(number);
}

void *malloc(size_t size) {
    static void *(*next)(size_t);
    if (!next) next = (void *(*)(size_t))dlsym(RTLD_NEXT, "malloc");
    if (is_refused()) { errno = ENOMEM; return NULL; }
    return next(size);
}

void *realloc(void *old, size_t size) {
    static void *(*next)(void *, size_t);
    if (!next) next = (void *(*)(void *, size_t))dlsym(RTLD_NEXT, "realloc");
    if (is_refused()) { errno = ENOMEM; return NULL; }
    return next(old, size);
}
