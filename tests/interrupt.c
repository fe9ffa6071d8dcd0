// Calls of the system to preload, which a signal interrupts: of the function that INTERRUPTED names (open, flock, pread, pwrite, fsync, fdatasync,
// read or write), those that are number INTERRUPT_FROM to INTERRUPT_TO, counted from 1. With INTERRUPT_HOW=early they fail with EINTR, and have done
// nothing; with short they move half of their bytes, where these are more than one. Of read and write those of the standard streams alone are
// counted, and a read there moves 16 bytes at most. How many calls were made, and how many were interrupted, is written to the file that
// INTERRUPT_LOG names.
#define _GNU_SOURCE
#include <dlfcn.h>
#include <errno.h>
#include <fcntl.h>
#include <stdarg.h>
#include <stdio.h>
#include <stdlib.h>
#include <string.h>
#include <sys/types.h>

static long made = 0, interrupted = 0;

static int is_met(const char *name) {
    const char *which = getenv("INTERRUPTED"), *from = getenv("INTERRUPT_FROM"), *to = getenv("INTERRUPT_TO");
    if (!which || strcmp(which, name)) return 0;
    made++;
    if (!from || !to || made < atol(from) || made > atol(to)) return 0;
    interrupted++;
    return 1;
}

static int is_short(void) {
    const char *how = getenv("INTERRUPT_HOW");
    return how && !strcmp(how, "short");
}

static int is_interrupted(const char *name) {
    if (!is_met(name)) return 0;
    errno = EINTR;
    return 1;
}

// How many bytes a call may move, or none where it fails.
static size_t goes(const char *name, size_t size) {
    if (!is_met(name)) return size;
    if (is_short()) return size > 1 ? size / 2 : size;
    errno = EINTR;
    return 0;
}

#define NEXT(type, name) \
    static type; \
    if (!next) next = dlsym(RTLD_NEXT, name)

int open(const char *path, int flags, ...) {
    va_list rest;
    va_start(rest, flags);
    mode_t mode = flags & O_CREAT ? va_arg(rest, mode_t) : 0;
    va_end(rest);
    NEXT(int (*next)(const char *, int, ...), "open");
    return is_interrupted("open") ? -1 : next(path, flags, mode);
}

int flock(int file, int how) {
    NEXT(int (*next)(int, int), "flock");
    return is_interrupted("flock") ? -1 : next(file, how);
}

ssize_t pread(int file, void *bytes, size_t size, off_t at) {
    NEXT(ssize_t (*next)(int, void *, size_t, off_t), "pread");
    size_t most = goes("pread", size);
    return most == 0 && size > 0 ? -1 : next(file, bytes, most, at);
}

ssize_t pwrite(int file, const void *bytes, size_t size, off_t at) {
    NEXT(ssize_t (*next)(int, const void *, size_t, off_t), "pwrite");
    size_t most = goes("pwrite", size);
    return most == 0 && size > 0 ? -1 : next(file, bytes, most, at);
}

int fsync(int file) {
    NEXT(int (*next)(int), "fsync");
    return is_interrupted("fsync") ? -1 : next(file);
}

int fdatasync(int file) {
    NEXT(int (*next)(int), "fdatasync");
    return is_interrupted("fdatasync") ? -1 : next(file);
}

ssize_t read(int file, void *bytes, size_t size) {
    NEXT(ssize_t (*next)(int, void *, size_t), "read");
    if (file > 2 || size == 0) return next(file, bytes, size);
    size_t most = goes("read", size < 16 ? size : 16);
    return most == 0 ? -1 : next(file, bytes, most);
}

ssize_t write(int file, const void *bytes, size_t size) {
    NEXT(ssize_t (*next)(int, const void *, size_t), "write");
    if (file > 2 || size == 0) return next(file, bytes, size);
    size_t most = goes("write", size);
    return most == 0 ? -1 : next(file, bytes, most);
}

ssize_t __write(int file, const void *bytes, size_t size) { return write(file, bytes, size); }

__attribute__((destructor)) static void report(void) {
    const char *name = getenv("INTERRUPT_LOG");
    FILE *log = name ? fopen(name, "w") : NULL;
    if (!log) return;
    fprintf(log, "%ld %ld\n", made, interrupted);
    fclose(log);
}
