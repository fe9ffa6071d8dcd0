/* The descriptors that a program may ask for, and locks that it takes and gives up on that of dbm_dirfno around its calls: the lock
 * of the library stands. */
#include <signal.h>
#include <sys/file.h>
#include <sys/resource.h>
#include <time.h>

#include "check.h"

enum { FETCHES = 2000 };

static const dbmx_how at_once = {.wait = 0}, without_lock = {.options = DBMX_UNLOCKED};

static DBM *open_how(int flags, const dbmx_how *how) {
    DBM *db = dbmx_open("t", flags, 0644, how, NULL);
    if (!db) exit(1);
    return db;
}

static bool is_open_file(int fd, const char *path) {
    struct stat file, found;
    return !stat(path, &file) && !fstat(fd, &found) && file.st_ino == found.st_ino && file.st_dev == found.st_dev;
}

/* both are above 2 and closed by execve and by dbm_close, and the second one is made where it is asked for */
static void both(int flags) {
    int before = open_descriptors();
    DBM *db = open_how(flags, &at_once);
    int file, stand_in = -1;
    WORKS((file = dbm_pagfno(db)) > 2);
    CHECK(open_descriptors() == before + 1);
    WORKS((stand_in = dbm_dirfno(db)) > 2);
    WORKS(dbm_dirfno(db) == stand_in && dbm_pagfno(db) == file);
    CHECK(open_descriptors() == before + 2);
    CHECK(stand_in != file && fcntl(stand_in, F_GETFD) == FD_CLOEXEC && fcntl(file, F_GETFD) == FD_CLOEXEC);
    CHECK(is_open_file(file, "t.db") && !is_open_file(stand_in, "t.db"));
    WORKS((dbm_close(db), true));
    FAILS(EBADF, fcntl(file, F_GETFD) == -1);
    FAILS(EBADF, fcntl(stand_in, F_GETFD) == -1);
}

/* The second one is of an empty file that has no name, and the mode and the times that the file had when it was opened. */
static void looks(int flags) {
    static const struct timespec times[] = {{1000000000, 1000}, {1100000000, 2000}};
    struct stat it;
    CHECK(!chmod("t.db", 0640) && !utimensat(AT_FDCWD, "t.db", times, 0));
    DBM *db = open_how(flags, &at_once);
    CHECK(flags == O_RDONLY || dbm_store(db, of("b"), of("2"), DBM_REPLACE) == 0);
    CHECK(!fstat(dbm_dirfno(db), &it) && S_ISREG(it.st_mode) && it.st_size == 0 && it.st_nlink == 0);
    CHECK((it.st_mode & 07777) == 0640 && it.st_mtim.tv_sec == 1100000000 && it.st_mtim.tv_nsec == 2000);
    CHECK(it.st_atim.tv_sec == 1000000000 && it.st_atim.tv_nsec == 1000);
    dbm_close(db);
}

/* what is written to it lands nowhere, and no other database has it */
static void is_apart(void) {
    DBM *db = open_how(O_RDONLY, &at_once), *another = open_how(O_RDONLY, &at_once);
    off_t size = size_of("t.db");
    struct stat its, others;
    CHECK(write(dbm_dirfno(db), "x", 1) == 1 && size_of("t.db") == size && is(dbm_fetch(db, of("a")), "1"));
    CHECK(!fstat(dbm_dirfno(db), &its) && !fstat(dbm_dirfno(another), &others) && its.st_ino != others.st_ino);
    CHECK(!flock(dbm_dirfno(db), LOCK_EX | LOCK_NB) && !flock(dbm_dirfno(another), LOCK_EX | LOCK_NB));
    dbm_close(db);
    dbm_close(another);
}

/* A file that the library doesn't lock is locked by its own descriptor. */
static void unlocked(void) {
    DBM *db = open_how(O_RDWR, &without_lock);
    int fd = open("t.db", O_RDWR);
    WORKS(dbm_dirfno(db) == dbm_pagfno(db));
    CHECK(!flock(dbm_dirfno(db), LOCK_EX | LOCK_NB));
    FAILS(EWOULDBLOCK, flock(fd, LOCK_SH | LOCK_NB) == -1);
    dbm_close(db);
    CHECK(!flock(fd, LOCK_EX | LOCK_NB) && !close(fd));
}

/* where no descriptor is left, this is told, and asked for again it is there */
static void none_left(void) {
    DBM *db = open_how(O_RDWR, &at_once);
    struct rlimit was, low;
    CHECK(!getrlimit(RLIMIT_NOFILE, &was));
    low = was;
    low.rlim_cur = (rlim_t)dbm_pagfno(db) + 1;
    CHECK(!setrlimit(RLIMIT_NOFILE, &low));
    FAILS(EMFILE, dbm_dirfno(db) == -1);
    FAILS(EMFILE, dbm_dirfno(db) == -1);
    CHECK(!setrlimit(RLIMIT_NOFILE, &was));
    WORKS(dbm_dirfno(db) > 2);
    WORKS(dbm_error(db) == 0);
    dbm_close(db);
}

/* with the standard streams closed it is none of them */
static void streams(void) {
    int kept = dup(1);
    DBM *db = open_how(O_RDWR, &at_once);
    close(0), close(1), close(2);
    int fd = dbm_dirfno(db), flags = fcntl(fd, F_GETFD);
    bool are_free = fcntl(0, F_GETFD) == -1 && fcntl(1, F_GETFD) == -1 && fcntl(2, F_GETFD) == -1;
    dup2(kept, 1);
    CHECK(fd > 2 && flags == FD_CLOEXEC && are_free);
    dbm_close(db);
}

/* Whether another opening is refused. */
static bool is_kept_out(int flags) {
    DBM *db = dbmx_open("t", flags, 0, &at_once, NULL);
    if (!db) return errno == EAGAIN;
    dbm_close(db);
    return false;
}

/* Locks of each kind are had at once, and given up, on a database that is opened so. */
static void each_lock(int flags) {
    static const int kinds[] = {LOCK_SH, LOCK_EX, LOCK_UN, LOCK_EX, LOCK_SH, LOCK_UN, LOCK_UN};
    DBM *db = open_how(flags, &at_once);
    for (size_t i = 0; i < sizeof kinds / sizeof *kinds; i++) {
        WORKS(flock(dbm_dirfno(db), kinds[i] | LOCK_NB) == 0);
        WORKS(flock(dbm_dirfno(db), kinds[i]) == 0);
        CHECK(is_kept_out(O_RDWR) && is_kept_out(O_RDONLY) == (flags == O_RDWR));
        CHECK(flags == O_RDONLY || dbm_store(db, of("b"), of("2"), DBM_REPLACE) == 0);
    }
    dbm_close(db);
    CHECK(!is_kept_out(O_RDWR));
}

/* Another process tries to write, again and again, up to the end of the input, and tells how often it got in. It has no use of the
 * database of this one. */
static pid_t try_to_write(DBM *others, int from, int to) {
    pid_t child = fork();
    if (child) return child;
    unsigned tries = 0, got_in = 0;
    dbm_close(others);
    fcntl(from, F_SETFL, O_NONBLOCK);
    for (char byte; read(from, &byte, 1) < 0; tries++) {
        DBM *db = dbmx_open("t", O_RDWR, 0, &at_once, NULL);
        if (!db) continue;
        got_in += dbm_store(db, of("c"), of("3"), DBM_REPLACE) == 0;
        dbm_close(db);
    }
    unsigned counts[] = {tries, got_in};
    _exit(write(to, counts, sizeof counts) != (ssize_t)sizeof counts);
}

/* A reader that locks around each fetch, as mail systems do, beside a writer: this gets in before and behind, and never between. */
static void locked_fetches(void) {
    int ends[2], said[2];
    unsigned counts[2] = {0};
    if (pipe(ends) || pipe(said)) exit(2);
    DBM *db = open_how(O_RDONLY, &at_once);
    pid_t child = try_to_write(db, ends[0], said[1]);
    for (int i = 0; i < FETCHES; i++) {
        CHECK(!flock(dbm_dirfno(db), LOCK_SH));
        CHECK(is(dbm_fetch(db, of("a")), "1"));
        CHECK(!flock(dbm_dirfno(db), LOCK_UN));
        if (i % 20 == 0) nanosleep(&(struct timespec){0, 2000000}, NULL);
    }
    if (write(ends[1], "", 1) != 1 || read(said[0], counts, sizeof counts) != (ssize_t)sizeof counts) exit(2);
    int status = 1;
    CHECK(waitpid(child, &status, 0) == child && status == 0);
    CHECK(counts[0] > 10 && counts[1] == 0);
    CHECK(!dbm_fetch(db, of("c")).dptr && dbm_error(db) == 0);
    dbm_close(db);
    close(ends[0]), close(ends[1]), close(said[0]), close(said[1]);
    CHECK(!is_kept_out(O_RDWR));
}

int main(void) {
    static const int ways[] = {O_RDWR, O_RDONLY};
    int before = open_descriptors();
    make("t", "a", "1");
    /* A lock that isn't had ends the program. */
    alarm(100);
    for (size_t i = 0; i < 2; i++) {
        both(ways[i]);
        looks(ways[i]);
        each_lock(ways[i]);
    }
    is_apart();
    unlocked();
    none_left();
    apart(streams);
    locked_fetches();
    CHECK(open_descriptors() == before);
    return bad;
}
