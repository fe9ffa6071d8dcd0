// Calls of the system to preload. Each read or write of the file at a place of its own takes so many milliseconds longer as SLOW_CALLS says.
#define _GNU_SOURCE
#include <dlfcn.h>
#include <stdlib.h>
#include <sys/types.h>
#include <unistd.h>

static void wait_first(void) {
    static long millis = -1;
    if (millis < 0) {
        const char *number = getenv("SLOW_CALLS");
        millis = number ? atol(number) : 0;
    }
    if (millis > 0) usleep(1000 * millis);
}

ssize_t pread(int file, void *bytes, size_t size, off_t at) {
    static ssize_t (*next)(int, void *, size_t, off_t);
    if (!next) next = dlsym(RTLD_NEXT, "pread");
    wait_first();
    return next(file, bytes, size, at);
}

ssize_t pread64(int file, void *bytes, size_t size, off_t at) {
    static ssize_t (*next)(int, void *, size_t, off_t);
    if (!next) next = dlsym(RTLD_NEXT, "pread64");
    wait_first();
    return next(file, bytes, size, at);
}

ssize_t pwrite(int file, const void *bytes, size_t size, off_t at) {
    static ssize_t (*next)(int, const void *, size_t, off_t);
    if (!next) next = dlsym(RTLD_NEXT, "pwrite");
    wait_first();
    return next(file, bytes, size, at);
}

ssize_t pwrite64(int file, const void *bytes, size_t size, off_t at) {
    static ssize_t (*next)(int, const void *, size_t, off_t);
    if (!next) next = dlsym(RTLD_NEXT, "pwrite64");
    wait_first();
    return next(file, bytes, size, at);
}
