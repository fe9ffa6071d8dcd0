// Calls of the system to preload. The one whose number END_CALL gives, counted from 1 among those that open, lock, write, sync, name, own and
// remove files, is not made: the program is killed in its place. With END_HOW=behind it is killed once the call was made, and with END_HOW=failed it
// isn't killed, and the call fails with EIO. With END_CALL=0 none does, and how many there were is written to standard error at the end.
// Each call is appended to the file that END_TRACE names, with the last parts of the paths of its files; so is each closing, which is never ended.
#define _GNU_SOURCE
#include <dlfcn.h>
#include <errno.h>
#include <fcntl.h>
#include <signal.h>
#include <stdarg.h>
#include <stdio.h>
#include <stdlib.h>
#include <string.h>
#include <sys/file.h>
#include <sys/types.h>
#include <unistd.h>

static long ending = -1, made = 0;
static int behind, failed, tracing;

static int is_how(const char *word) {
    const char *how = getenv("END_HOW");
    return how && !strcmp(how, word);
}

static const char *last_part(const char *path) {
    const char *slash = strrchr(path, '/');
    return slash ? slash + 1 : path;
}

// what a descriptor leads to
static const char *path_of(int file) {
    static char path[4096];
    char name[64];
    ssize_t size;
    snprintf(name, sizeof name, "/proc/self/fd/%d", file);
    size = readlink(name, path, sizeof path - 1);
    path[size > 0 ? size : 0] = 0;
    return path;
}

static void trace(const char *call, const char *path, const char *other) {
    const char *name = getenv("END_TRACE");
    FILE *file;
    if (!name || tracing) return;
    tracing = 1;
    file = fopen(name, "a");
    if (file) {
        fprintf(file, other ? "%s %s %s\n" : "%s %s\n", call, last_part(path), other ? last_part(other) : "");
        fclose(file);
    }
    tracing = 0;
}

// whether the call fails; it may not come back
static int before(const char *call, const char *path, const char *other) {
    if (tracing) return 0;
    if (ending < 0) {
        const char *number = getenv("END_CALL");
        ending = number ? atol(number) : 0;
        behind = is_how("behind");
        failed = is_how("failed");
    }
    trace(call, path, other);
    if (++made != ending || behind) return 0;
    if (!failed) kill(getpid(), SIGKILL);
    errno = EIO;
    return 1;
}

static long after(long answer) {
    int error = errno;
    if (!tracing && made == ending && behind) kill(getpid(), SIGKILL);
    errno = error;
    return answer;
}

#define NEXT(type, name, ...) \
    static type (*next)(__VA_ARGS__); \
    if (!next) next = (type (*)(__VA_ARGS__))dlsym(RTLD_NEXT, name)

#define OPENS(name) \
    int name(const char *path, int flags, ...) { \
        va_list rest; \
        mode_t mode; \
        NEXT(int, #name, const char *, int, ...); \
        va_start(rest, flags); \
        mode = flags & O_CREAT ? va_arg(rest, mode_t) : 0; \
        va_end(rest); \
        if (before("open", path, NULL)) return -1; \
        return (int)after(next(path, flags, mode)); \
    }
OPENS(open)
OPENS(open64)

#define READS(name) \
    ssize_t name(int file, void *bytes, size_t size, off_t at) { \
        NEXT(ssize_t, #name, int, void *, size_t, off_t); \
        return before("read", path_of(file), NULL) ? -1 : after(next(file, bytes, size, at)); \
    }
READS(pread)
READS(pread64)

#define WRITES(name) \
    ssize_t name(int file, const void *bytes, size_t size, off_t at) { \
        NEXT(ssize_t, #name, int, const void *, size_t, off_t); \
        return before("write", path_of(file), NULL) ? -1 : after(next(file, bytes, size, at)); \
    }
WRITES(pwrite)
WRITES(pwrite64)

#define OF_FILE(name) \
    int name(int file) { \
        NEXT(int, #name, int); \
        return before(#name, path_of(file), NULL) ? -1 : (int)after(next(file)); \
    }
OF_FILE(fsync)
OF_FILE(fdatasync)

#define OF_TWO(name) \
    int name(const char *from, const char *to) { \
        NEXT(int, #name, const char *, const char *); \
        return before(#name, from, to) ? -1 : (int)after(next(from, to)); \
    }
OF_TWO(rename)
OF_TWO(link)

int unlink(const char *path) {
    NEXT(int, "unlink", const char *);
    return before("unlink", path, NULL) ? -1 : (int)after(next(path));
}

int flock(int file, int how) {
    NEXT(int, "flock", int, int);
    const char *call = how & LOCK_UN ? "unlock" : how & LOCK_SH ? "lock_shared" : "lock_alone";
    return before(call, path_of(file), NULL) ? -1 : (int)after(next(file, how));
}

int fchmod(int file, mode_t mode) {
    NEXT(int, "fchmod", int, mode_t);
    return before("fchmod", path_of(file), NULL) ? -1 : (int)after(next(file, mode));
}

int fchown(int file, uid_t user, gid_t group) {
    NEXT(int, "fchown", int, uid_t, gid_t);
    return before("fchown", path_of(file), NULL) ? -1 : (int)after(next(file, user, group));
}

int close(int file) {
    NEXT(int, "close", int);
    trace("close", path_of(file), NULL);
    return next(file);
}

__attribute__((destructor)) static void report(void) {
    if (ending == 0) fprintf(stderr, "calls %ld\n", made);
}
