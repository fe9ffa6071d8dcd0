// Calls of the system to preload, which keep a log of one file, on a disk whose syncs may fail and then lose what was written. As on Linux
// this is still read after a sync that failed, and the next sync answers Ok though the disk never got it. What reads give is the file
// itself, which outlasts a program as the system's memory does. What the disk has for sure, and what a power cut may add to it,
// tests/lossy.py finds from the log, which outlasts a program too.
// LOSSY_FILE names the file, and LOSSY_LOG the log. With LOSSY_FAIL=n the program's n-th sync of the file fails with EIO. With LOSSY_STOP=n
// the program ends at once behind its n-th write or sync of the file, with LOSSY_STOP=failed behind the sync that fails, and has status
// 99. No sync is made.
// A record of the log is three numbers of four bytes, the least byte first, and then bytes: the kind, the first sector, and how many bytes
// there are. The kinds are P, a program begins; W, a write; S, a sync; F, a sync that failed; A, a line that the program read from its
// standard input, which gives it one line at a time; T, what it told on its standard output.
#define _GNU_SOURCE
#include <dlfcn.h>
#include <errno.h>
#include <fcntl.h>
#include <stdint.h>
#include <stdio.h>
#include <stdlib.h>
#include <string.h>
#include <sys/stat.h>
#include <sys/types.h>
#include <unistd.h>

// TURN: of a sector that has a turn so many bytes are written
enum { SECTOR = 512, TURN = 8, STOPPED = 99 };

#define NEXT(type, name) \
    static type; \
    if (!next) next = dlsym(RTLD_NEXT, name)

static ssize_t write_on(int file, const void *bytes, size_t size) {
    NEXT(ssize_t (*next)(int, const void *, size_t), "write");
    return next(file, bytes, size);
}

static void record(char kind, off_t first, const void *bytes, size_t size) {
    static int log = -1;
    const char *name = getenv("LOSSY_LOG");
    if (!name) return;
    if (log < 0) log = open(name, O_WRONLY | O_CREAT | O_APPEND | O_CLOEXEC, 0644);
    uint32_t head[3] = {(uint32_t)(unsigned char)kind, (uint32_t)first, (uint32_t)size};
    if (write_on(log, head, sizeof head) != sizeof head || write_on(log, bytes, size) != (ssize_t)size) abort();
}

static int is_logged(int file) {
    struct stat open, named;
    const char *name = getenv("LOSSY_FILE");
    return name && !fstat(file, &open) && !stat(name, &named) && open.st_dev == named.st_dev && open.st_ino == named.st_ino;
}

static long number(const char *name) {
    const char *value = getenv(name);
    return value ? atol(value) : 0;
}

// Behind a write or a sync: the program ends where it is to.
static void count_event(int failed) {
    static long events = 0;
    const char *stop = getenv("LOSSY_STOP");
    if (++events == number("LOSSY_STOP") || (failed && stop && !strcmp(stop, "failed"))) _exit(STOPPED);
}

__attribute__((constructor)) static void begin(void) { record('P', 0, "", 0); }

// The whole of a sector of which a part was written.
static void record_sector(int file, off_t at) {
    NEXT(ssize_t (*next)(int, void *, size_t, off_t), "pread64");
    char bytes[SECTOR] = {0};
    if (next(file, bytes, sizeof bytes, at) < 0) abort();
    record('W', at / SECTOR, bytes, sizeof bytes);
}

static ssize_t write_at(int file, const void *bytes, size_t size, off_t at) {
    NEXT(ssize_t (*next)(int, const void *, size_t, off_t), "pwrite64");
    ssize_t done = next(file, bytes, size, at);
    if (!is_logged(file)) return done;
    if (done != (ssize_t)size || at % SECTOR) abort();
    if (size == TURN) record_sector(file, at);
    else if (size % SECTOR) abort();
    else record('W', at / SECTOR, bytes, size);
    count_event(0);
    return done;
}

ssize_t pwrite64(int file, const void *bytes, size_t size, off_t at) { return write_at(file, bytes, size, at); }

ssize_t pwrite(int file, const void *bytes, size_t size, off_t at) { return write_at(file, bytes, size, at); }

static int sync_file(const char *call, int file) {
    static long syncs = 0;
    if (!is_logged(file)) {
        int (*next)(int) = dlsym(RTLD_NEXT, call);
        return next(file);
    }
    int failed = ++syncs == number("LOSSY_FAIL");
    record(failed ? 'F' : 'S', 0, "", 0);
    count_event(failed);
    errno = failed ? EIO : errno;
    return failed ? -1 : 0;
}

int fsync(int file) { return sync_file("fsync", file); }

int fdatasync(int file) { return sync_file("fdatasync", file); }

// Changes that the log has no record for.
static int is_refused(int file) {
    if (is_logged(file)) abort();
    return 0;
}

int ftruncate64(int file, off_t size) {
    NEXT(int (*next)(int, off_t), "ftruncate64");
    return is_refused(file) ? -1 : next(file, size);
}

int ftruncate(int file, off_t size) { return ftruncate64(file, size); }

static ssize_t write_told(int file, const void *bytes, size_t size) {
    ssize_t done = is_refused(file) ? -1 : write_on(file, bytes, size);
    if (file == STDOUT_FILENO && done > 0) record('T', 0, bytes, (size_t)done);
    return done;
}

ssize_t write(int file, const void *bytes, size_t size) { return write_told(file, bytes, size); }

ssize_t __write(int file, const void *bytes, size_t size) { return write_told(file, bytes, size); }

// A line of what stands there at most. Standard input has to be a file.
ssize_t read(int file, void *bytes, size_t size) {
    NEXT(ssize_t (*next)(int, void *, size_t), "read");
    ssize_t some = next(file, bytes, size);
    if (file != STDIN_FILENO || some <= 0) return some;
    char *end = memchr(bytes, '\n', (size_t)some);
    ssize_t line = end ? end + 1 - (char *)bytes : some;
    if (lseek(file, line - some, SEEK_CUR) < 0) abort();
    record('A', 0, bytes, (size_t)line);
    return line;
}
