// Calls of the system to preload. Standard input gives its bytes one at a time, and fails with EIO once READ_FAILS of them were read; standard
// output takes one at a time, and fails once WRITE_FAILS of them were written. Where one isn't set, that stream doesn't fail.
#define _GNU_SOURCE
#include <dlfcn.h>
#include <errno.h>
#include <limits.h>
#include <stdlib.h>
#include <sys/types.h>

// Whether another byte may go, of as many as the variable says.
static int goes(const char *name, long *left) {
    const char *number = getenv(name);
    if (*left < 0) *left = number ? atol(number) : LONG_MAX;
    if (*left > 0) return (*left)--, 1;
    errno = EIO;
    return 0;
}

ssize_t read(int file, void *bytes, size_t size) {
    static ssize_t (*next)(int, void *, size_t);
    static long left = -1;
    if (!next) next = dlsym(RTLD_NEXT, "read");
    if (file != 0 || size == 0) return next(file, bytes, size);
    return goes("READ_FAILS", &left) ? next(file, bytes, 1) : -1;
}

ssize_t write(int file, const void *bytes, size_t size) {
    static ssize_t (*next)(int, const void *, size_t);
    static long left = -1;
    if (!next) next = dlsym(RTLD_NEXT, "write");
    if (file != 1 || size == 0) return next(file, bytes, size);
    return goes("WRITE_FAILS", &left) ? next(file, bytes, 1) : -1;
}

ssize_t __write(int file, const void *bytes, size_t size) { return write(file, bytes, size); }
