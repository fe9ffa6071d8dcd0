// Calls of the system to preload. The one whose number FAIL_CALL gives, counted from 1 among reads, writes and syncs of the file at a
// place of their own, fails with EIO; with FAIL_CALL=0 none does, and how many there were is written to standard error at the end.
// With FAIL_HOW=from each call after it fails too. With FAIL_HOW=late a read or a write is made before it fails. What no sync came behind
// is taken back at the end, as a power cut may: with FAIL_LOSE=lost each sector, with odd the first, the third and so on, with even the others;
// with first the first half of them, with last the other one, and with a number those that are drawn by it.
// With FAIL_SYNCS=no a sync is answered without being made, which is faster.
// Each call is appended to the file that FAIL_TRACE names: `read` or `write`, its place and its size in bytes, or `sync`.
#define _GNU_SOURCE
#include <dlfcn.h>
#include <errno.h>
#include <stdio.h>
#include <stdlib.h>
#include <string.h>
#include <sys/stat.h>
#include <sys/types.h>
#include <unistd.h>

static long failing = -1;
static long made = 0;
static int from, late, loses, lose_odd, lose_even, lose_first, lose_last;
static unsigned long drawn_by;

#define SECTOR 512

// A sector that was written and no sync came behind: its number since then, from 1, what it took the place of, and how long the file was.
struct written {
    struct written *before;
    long number;
    // the program's descriptor, and one of our own, which is that of the sector before where they are of one file
    int of, file;
    off_t at, length;
    char bytes[SECTOR];
};

static struct written *unsynced;

static int is_set(const char *name, const char *word) {
    const char *value = getenv(name);
    return value && !strcmp(value, word);
}

static void trace(const char *call, off_t at, size_t size) {
    const char *name = getenv("FAIL_TRACE");
    FILE *file = name ? fopen(name, "a") : NULL;
    if (!file) return;
    if (size) fprintf(file, "%s %lld %zu\n", call, (long long)at, size);
    else fprintf(file, "%s\n", call);
    fclose(file);
}

static int fails(void) {
    if (failing < 0) {
        const char *number = getenv("FAIL_CALL");
        failing = number ? atol(number) : 0;
        from = is_set("FAIL_HOW", "from");
        late = is_set("FAIL_HOW", "late");
        lose_odd = is_set("FAIL_LOSE", "lost") || is_set("FAIL_LOSE", "odd");
        lose_even = is_set("FAIL_LOSE", "lost") || is_set("FAIL_LOSE", "even");
        lose_first = is_set("FAIL_LOSE", "first");
        lose_last = is_set("FAIL_LOSE", "last");
        drawn_by = getenv("FAIL_LOSE") ? strtoul(getenv("FAIL_LOSE"), NULL, 10) : 0;
        loses = lose_odd || lose_even || lose_first || lose_last || drawn_by;
    }
    made++;
    if (failing == 0 || (from ? made < failing : made != failing)) return 0;
    errno = EIO;
    return 1;
}

static ssize_t read_at(int file, void *bytes, size_t size, off_t at) {
    static ssize_t (*next)(int, void *, size_t, off_t);
    if (!next) next = dlsym(RTLD_NEXT, "pread64");
    return next(file, bytes, size, at);
}

static ssize_t write_at(int file, const void *bytes, size_t size, off_t at) {
    static ssize_t (*next)(int, const void *, size_t, off_t);
    if (!next) next = dlsym(RTLD_NEXT, "pwrite64");
    return next(file, bytes, size, at);
}

static void note(int file, off_t at) {
    struct stat now;
    struct written *one = calloc(1, sizeof *one);
    if (!one || fstat(file, &now) < 0 || read_at(file, one->bytes, SECTOR, at) < 0) abort();
    one->before = unsynced;
    one->number = unsynced ? unsynced->number + 1 : 1;
    // the program may have closed its own descriptor before the end
    one->of = file;
    one->file = unsynced && unsynced->of == file ? unsynced->file : dup(file);
    one->at = at;
    one->length = now.st_size;
    unsynced = one;
}

static void take_back(const struct written *one) {
    if (write_at(one->file, one->bytes, SECTOR, one->at) != SECTOR) abort();
    if (lose_odd && lose_even && ftruncate(one->file, one->length) < 0) abort();
}

// Whether the sector of this number is lost, of so many.
static int is_lost(unsigned long number, unsigned long count) {
    if (drawn_by) return (number * 2654435761ul + drawn_by * 40503ul) * 2246822519ul >> 17 & 1;
    if (lose_first || lose_last) return number > count / 2 ? lose_last : lose_first;
    return number % 2 ? lose_odd : lose_even;
}

static void forget(int back) {
    unsigned long count = unsynced ? (unsigned long)unsynced->number : 0;
    while (unsynced) {
        struct written *one = unsynced;
        if (back && is_lost((unsigned long)one->number, count)) take_back(one);
        unsynced = one->before;
        if (!unsynced || unsynced->file != one->file) close(one->file);
        free(one);
    }
}

ssize_t pread64(int file, void *bytes, size_t size, off_t at) {
    trace("read", at, size);
    if (fails()) {
        if (late) read_at(file, bytes, size, at);
        errno = EIO;
        return -1;
    }
    return read_at(file, bytes, size, at);
}

ssize_t pread(int file, void *bytes, size_t size, off_t at) { return pread64(file, bytes, size, at); }

ssize_t pwrite64(int file, const void *bytes, size_t size, off_t at) {
    trace("write", at, size);
    int failed = fails();
    if (failed && !late) return -1;
    for (size_t sector = 0; loses && sector < size; sector += SECTOR) note(file, at + (off_t)sector);
    ssize_t done = write_at(file, bytes, size, at);
    if (failed) errno = EIO;
    return failed ? -1 : done;
}

ssize_t pwrite(int file, const void *bytes, size_t size, off_t at) { return pwrite64(file, bytes, size, at); }

static int synced(const char *call, int file) {
    int (*next)(int) = dlsym(RTLD_NEXT, call);
    trace("sync", 0, 0);
    if (fails()) return -1;
    int answer = is_set("FAIL_SYNCS", "no") ? 0 : next(file);
    if (answer == 0) forget(0);
    return answer;
}

int fsync(int file) { return synced("fsync", file); }

int fdatasync(int file) { return synced("fdatasync", file); }

__attribute__((destructor)) static void report(void) {
    forget(1);
    if (failing == 0) fprintf(stderr, "calls %ld\n", made);
}
