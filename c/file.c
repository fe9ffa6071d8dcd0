/* Opens, makes and locks the file of a database. */
#define _GNU_SOURCE
#include <errno.h>
#include <fcntl.h>
#include <stdlib.h>
#include <string.h>
#include <sys/mman.h>
#include <sys/stat.h>
#include <unistd.h>

#include "parts.h"

/* in nanoseconds: between the beginnings of two tries to lock a file, and how long one of them waits for the lock */
enum { BETWEEN = 100000000, MOMENT = 20000000 };

/* A flag of memfd_create that the system has since Linux 6.3, and some systems then ask for: the file isn't run. */
#ifndef MFD_NOEXEC_SEAL
#define MFD_NOEXEC_SEAL 8u
#endif

/* Opens a file that is there. No mode is looked at; without one a compiler that checks calls has another function of libc open it. */
static int open_there(const char *path, int flags) {
    return open(path, flags, 0);
}

bool ndbm_file_is_written(int flags) {
    return (flags & O_ACCMODE) != O_RDONLY;
}

int ndbm_fault_of(int error, int flags) {
    if (error == ENOMEM) return MEMORY;
    if (error == EEXIST) return EXISTS;
    return error == ENOENT && !(ndbm_file_is_written(flags) && (flags & O_CREAT)) ? MISSING : DEVICE;
}

/* the folder of a path, or null where there is no memory */
static char *folder_of(const char *path) {
    const char *slash = strrchr(path, '/');
    return slash ? strndup(path, slash == path ? 1 : (size_t)(slash - path)) : strdup(".");
}

/* The folder in which a file stands, also where its path names a symbolic link to it; null with errno where it isn't found. */
static char *folder_of_file(const char *path) {
    struct stat it;
    if (lstat(path, &it) || !S_ISLNK(it.st_mode)) return folder_of(path);
    char *whole = realpath(path, NULL), *folder = whole ? folder_of(whole) : NULL;
    free(whole);
    return folder;
}

/* Syncs the folder of a file, so that a stop leaves the file's name. */
static int sync_folder(const char *path) {
    char *folder = folder_of_file(path);
    if (!folder) return -1;
    int fd = open(folder, O_RDONLY | O_DIRECTORY | O_CLOEXEC);
    free(folder);
    if (fd < 0) return -1;
    int status = fsync(fd);
    ndbm_give_up(fd);
    return status;
}

static bool is_blank(const struct stat *it) {
    return S_ISREG(it->st_mode) && !it->st_size;
}

/* Makes a file that isn't there. One of no bytes is taken too, since a stop behind its making leaves it so, where it is a plain
 * file of this user and no link. */
static int make_alone(const char *path, int flags, mode_t mode) {
    int fd = open(path, flags | O_CREAT | O_EXCL, mode);
    if (fd >= 0 || errno != EEXIST) return fd;
    struct stat it;
    fd = open_there(path, flags | O_NOFOLLOW);
    if (fd >= 0 && fstat(fd, &it)) return ndbm_give_up(fd);
    if (fd >= 0 && is_blank(&it) && it.st_uid == geteuid()) return fd;
    if (fd >= 0) close(fd);
    errno = EEXIST;
    return -1;
}

static int find_or_make(const char *path, int flags, mode_t mode) {
    int fd = open_there(path, flags);
    return fd < 0 && errno == ENOENT ? open(path, flags | O_CREAT, mode) : fd;
}

/* The descriptor of a file that may have to be made. Where it has no bytes its folder is synced, whoever made the file: its
 * maker may have been stopped before that. */
static int make_file(const char *path, int flags, mode_t mode, bool alone) {
    int fd = alone ? make_alone(path, flags, mode) : find_or_make(path, flags, mode);
    struct stat it;
    if (fd < 0) return fd;
    return fstat(fd, &it) || (is_blank(&it) && sync_folder(path)) ? ndbm_give_up(fd) : fd;
}

/* The flags that the system gets, for a file that is there. A pipe is opened at once too, and then refused. */
static int passed_on(int flags) {
    int passed = flags & (O_NOFOLLOW | O_SYNC | O_DSYNC | O_NONBLOCK | O_NOCTTY | O_NOATIME);
    return passed | O_CLOEXEC | O_NONBLOCK | (ndbm_file_is_written(flags) ? O_RDWR : O_RDONLY);
}

static int find_file(const char *path, int flags, mode_t mode) {
    bool creates = flags & O_CREAT, alone = creates && (flags & O_EXCL);
    if (creates && ndbm_file_is_written(flags)) return make_file(path, passed_on(flags), mode, alone);
    int fd = open_there(path, passed_on(flags));
    if (fd < 0 || !alone) return fd;
    errno = EEXIST;
    return ndbm_give_up(fd);
}

/* A database is a plain file, which is looked at here. Nothing else is read or written: a pipe would have its readers wait. */
static int plain_file(int fd, struct stat *it) {
    if (fd < 0) return fd;
    if (fstat(fd, it)) return ndbm_give_up(fd);
    if (S_ISREG(it->st_mode)) return fd;
    errno = S_ISDIR(it->st_mode) ? EISDIR : EINVAL;
    return ndbm_give_up(fd);
}

/* What is meant for a standard stream that was closed must not land in the file. */
static int above_standard(int fd) {
    if (fd < 0 || fd > STDERR_FILENO) return fd;
    int above = fcntl(fd, F_DUPFD_CLOEXEC, STDERR_FILENO + 1);
    ndbm_give_up(fd);
    return above;
}

/* Waits to that time, also where signals come. */
static void wait_until(uint64_t time) {
    for (uint64_t now; (now = ndbm_now()) < time;) ndbm_pause(time - now);
}

/* Whether the file still stands under its path. One that another file has taken the place of, between its opening and its
 * lock, would be written where nobody finds it again. */
static bool stands_under(int fd, const char *path) {
    struct stat open, found;
    return !fstat(fd, &open) && !stat(path, &found) && open.st_dev == found.st_dev && open.st_ino == found.st_ino;
}

/* Where the lock is waited for, that is for a moment in the turnstile, since calls of shared handles end soon. */
int ndbm_file_lock(int fd, bool alone, bool waits) {
    if (!waits || ndbm_place_of(fd) == FAR) return ndbm_lock_at_once(fd, alone);
    return ndbm_lock_take(fd, alone, true, ndbm_now() + MOMENT);
}

/* Locks the file, and tells EWOULDBLOCK where it can't be locked now. */
static int lock_file(int fd, const char *path, bool writes, bool waits) {
    if (ndbm_file_lock(fd, writes, waits)) return -1;
    if (!writes || stands_under(fd, path)) return 0;
    errno = EWOULDBLOCK;
    return -1;
}

bool ndbm_file_is_tried_again(uint64_t began, uint64_t until) {
    if (errno != EWOULDBLOCK || ndbm_now() >= until) return false;
    wait_until(began + BETWEEN < until ? began + BETWEEN : until);
    return true;
}

/* The file is opened anew at each try, since another one may have got its name. */
int ndbm_file_open(const char *path, int flags, mode_t mode, const dbmx_how *how, struct stat *it) {
    uint64_t until = ndbm_until(how->wait);
    for (;;) {
        uint64_t began = ndbm_now();
        int fd = above_standard(plain_file(find_file(path, flags, mode), it));
        if (fd < 0 || (how->options & (DBMX_UNLOCKED | DBMX_SHARED))) return fd;
        if (!lock_file(fd, path, ndbm_file_is_written(flags), how->wait)) return fd;
        ndbm_give_up(fd);
        if (!ndbm_file_is_tried_again(began, until)) return -1;
    }
}

int ndbm_file_open_named(int folder, const char *name, int flags, struct stat *it) {
    return above_standard(plain_file(openat(folder, name, passed_on(flags), 0), it));
}

int ndbm_file_make_named(int folder, const char *name, int flags) {
    return above_standard(openat(folder, name, passed_on(flags) | O_CREAT | O_EXCL, 0600));
}

/* Its folder is synced where it is made here. */
int ndbm_file_open_empty(const char *path, int flags, mode_t mode) {
    struct stat it;
    int fd = open_there(path, passed_on(flags));
    if (fd < 0 && errno == ENOENT && (flags & O_CREAT) && ndbm_file_is_written(flags)) {
        fd = open(path, passed_on(flags) | O_CREAT, mode);
        if (fd >= 0 && sync_folder(path)) return ndbm_give_up(fd);
    }
    return above_standard(plain_file(fd, &it));
}

int ndbm_file_open_folder(const char *path, int way) {
    char *folder = folder_of(path);
    if (!folder) return -1;
    int fd = above_standard(open_there(folder, way | O_DIRECTORY | O_CLOEXEC)), error = errno;
    free(folder);
    errno = error;
    return fd;
}

static int made_nowhere(void) {
    int fd = memfd_create("ndbm", MFD_CLOEXEC | MFD_NOEXEC_SEAL);
    return fd < 0 && errno == EINVAL ? memfd_create("ndbm", MFD_CLOEXEC) : fd;
}

int ndbm_file_stand_in(const struct stat *it) {
    const struct timespec times[] = {it->st_atim, it->st_mtim};
    int fd = above_standard(made_nowhere());
    if (fd < 0) return fd;
    return fchmod(fd, it->st_mode & 0666) || futimens(fd, times) ? ndbm_give_up(fd) : fd;
}
