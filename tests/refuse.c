// An allocator to preload that refuses the growth whose number FAIL_ALLOC gives, counted from 1. With
// FAIL_ALLOC=0 it refuses none, and writes how many there were to standard error as the program ends.
#define _GNU_SOURCE
#include <dlfcn.h>
#include <stdio.h>
#include <stdlib.h>

static long refused_at = -1;
static long asked = 0;

static int refuses(void) {
    if (refused_at < 0) {
        const char *number = getenv("FAIL_ALLOC");
        refused_at = number ? atol(number) : 0;
    }
    asked++;
    return asked == refused_at;
}

void *malloc(size_t size) {
    static void *(*next)(size_t);
    if (!next) next = dlsym(RTLD_NEXT, "malloc");
    return refuses() ? NULL : next(size);
}

void *realloc(void *old, size_t size) {
    static void *(*next)(void *, size_t);
    if (!next) next = dlsym(RTLD_NEXT, "realloc");
    return refuses() ? NULL : next(old, size);
}

__attribute__((destructor)) static void report(void) {
    if (refused_at == 0) {
        char line[32];
        int length = snprintf(line, sizeof line, "growths %ld\n", asked);
        if (length > 0) fwrite(line, 1, (size_t)length, stderr);
    }
}
