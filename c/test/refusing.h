/* A malloc and a realloc of a program's own, one of whose calls is refused. They change errno also where they succeed, as they may. */
#ifndef REFUSING_H
#define REFUSING_H

#include <errno.h>
#include <stdbool.h>
#include <stddef.h>

void *__libc_malloc(size_t size);
void *__libc_realloc(void *at, size_t size);

/* the call that is refused, counted from now on; 0: none */
static long refused;
static bool was_refused;

/* Refuses the n-th call from now on. */
static inline void refuse(long n) {
    refused = n;
    was_refused = false;
}

static inline bool is_refused(void) {
    errno = ENOTTY;
    if (!refused || --refused) return false;
    was_refused = true;
    errno = ENOMEM;
    return true;
}

void *malloc(size_t size) {
    return is_refused() ? NULL : __libc_malloc(size);
}

void *realloc(void *at, size_t size) {
    return is_refused() ? NULL : __libc_realloc(at, size);
}

#endif
