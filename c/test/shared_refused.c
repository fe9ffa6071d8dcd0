/* Memory that is refused to a shared handle, and calls of the system that are refused where it opens, locks and looks: the call fails, and
 * the next one goes on. The system's functions that the library calls change errno here also where they succeed, as they may. */
#include "refusing.h"

#include <sys/file.h>
#include <sys/resource.h>
#include <sys/syscall.h>

#include "shared.h"

/* the name of a call of the system that is refused, and how many come before that */
static const char *refused_call = "";
static long left = -1;

/* The answer of a call, which is refused with ENOLCK where it is that one. */
static long answered(const char *name, long (*call)(const long *), const long *words) {
    if (left >= 0 && !strcmp(name, refused_call) && !left--) {
        errno = ENOLCK;
        return -1;
    }
    long answer = call(words);
    if (answer >= 0) errno = ENOTTY;
    return answer;
}

static long make_read(const long *words) {
    return syscall(SYS_pread64, words[0], words[1], words[2], words[3]);
}

static long make_write(const long *words) {
    return syscall(SYS_pwrite64, words[0], words[1], words[2], words[3]);
}

static long make_sync(const long *words) {
    return syscall(SYS_fdatasync, words[0]);
}

static long make_lock(const long *words) {
    return syscall(SYS_flock, words[0], words[1]);
}

static long make_look(const long *words) {
    return syscall(SYS_newfstatat, words[0], words[1], words[2], words[3]);
}

static long make_double(const long *words) {
    return syscall(SYS_dup3, words[0], words[1], words[2]);
}

ssize_t pread(int fd, void *to, size_t size, off_t at) {
    return answered("read", make_read, (long[]){fd, (long)to, (long)size, at});
}

ssize_t pread64(int fd, void *to, size_t size, off_t at) {
    return pread(fd, to, size, at);
}

ssize_t pwrite(int fd, const void *from, size_t size, off_t at) {
    return answered("write", make_write, (long[]){fd, (long)from, (long)size, at});
}

ssize_t pwrite64(int fd, const void *from, size_t size, off_t at) {
    return pwrite(fd, from, size, at);
}

int fdatasync(int fd) {
    return (int)answered("sync", make_sync, (long[]){fd});
}

int flock(int fd, int operation) {
    return (int)answered(operation == LOCK_UN ? "unlock" : "lock", make_lock, (long[]){fd, operation});
}

int fstatat(int folder, const char *name, struct stat *it, int flags) {
    return (int)answered("look", make_look, (long[]){folder, (long)name, (long)it, flags});
}

int dup3(int fd, int as, int flags) {
    return (int)answered("double", make_double, (long[]){fd, as, flags});
}

/* An opening opens, or tells of memory and leaves nothing open. */
static void openings(int flags) {
    const dbmx_how how = {.options = DBMX_SHARED};
    int before = open_descriptors();
    long n = 0;
    do {
        int fault = 99;
        refuse(++n);
        errno = 77;
        DBM *db = dbmx_open("memory", flags, 0644, &how, &fault);
        int error = errno;
        refused = 0;
        if (!db) CHECK(was_refused && error == ENOMEM && fault == 1);
        if (db) CHECK(error == 77 && fault == 0);
        if (db) dbm_close(db);
        CHECK(open_descriptors() == before);
        /* what was refused holds no lock */
        dbm_close(open_or_end("memory", O_RDWR | O_CREAT));
        if (flags & O_EXCL) unlink("memory.db");
    } while (was_refused);
    CHECK(n > 2);
}

/* A call behind another one's change is answered, or tells of memory; the next one is answered. */
static void calls(void) {
    DBM *db = shared("memory", O_RDWR), *another = shared("memory", O_RDWR);
    long n = 0;
    do {
        char text[32];
        sprintf(text, "%ld", n);
        CHECK(put(another, "a", text) == 0);
        refuse(++n);
        errno = 77;
        datum content = dbm_fetch(db, of("a"));
        int error = errno;
        refused = 0;
        CHECK(content.dptr ? is(content, text) && error == 77 : was_refused && error == ENOMEM && dbm_error(db) > 0);
        CHECK(dbm_clearerr(db) == 0);
        WORKS(has(db, "a", text));
    } while (was_refused);
    CHECK(n > 2);
    n = 0;
    do {
        CHECK(put(another, "b", "old") == 0);
        refuse(++n);
        errno = 77;
        int status = put(db, "b", "new"), error = errno;
        refused = 0;
        CHECK(status ? status == -1 && was_refused && error == ENOMEM && dbm_error(db) > 0 : error == 77);
        CHECK(dbm_clearerr(db) == 0);
        WORKS(has(another, "b", status ? "old" : "new") && has(db, "b", status ? "old" : "new"));
        CHECK(turn_of("memory.db") % 2 == 0 || status);
    } while (was_refused);
    CHECK(n > 2);
    WORKS(dbmx_verify(db) == 0);
    dbm_close(db);
    dbm_close(another);
}

/* Each call of the system of this name that a fetch or a store makes behind another one's change is refused: the call fails, unless it
 * does without, and the next one goes on. */
static void refusals(const char *name, bool stores, long least) {
    DBM *db = shared("memory", O_RDWR), *another = shared("memory", O_RDWR);
    long n = 0;
    for (bool was_last = false; !was_last; n++) {
        CHECK(put(another, "a", "old") == 0);
        refused_call = name;
        left = n;
        errno = 77;
        bool is_done = stores ? put(db, "a", "new") == 0 : dbm_fetch(db, of("a")).dptr != NULL;
        int error = errno;
        was_last = left >= 0;
        left = -1;
        CHECK(is_done ? error == 77 : error == ENOLCK && dbm_error(db) == 2);
        CHECK(dbm_clearerr(db) == 0 && (is_done || !was_last));
        bool is_new = has(another, "a", "new");
        CHECK(is_new ? stores : has(another, "a", "old") && !(stores && is_done));
        WORKS(has(db, "a", is_new ? "new" : "old"));
        WORKS(put(db, "a", "next") == 0 && has(another, "a", "next"));
        CHECK(dbm_error(db) == 0 && dbm_error(another) == 0);
    }
    CHECK(n > least);
    WORKS(dbmx_verify(db) == 0);
    dbm_close(db);
    dbm_close(another);
}

/* The table is replaced, and the new one can't be opened at once: the call fails, and the next one finds it. */
static void replacements(void) {
    DBM *db = shared("memory", O_RDWR);
    int file = dbm_pagfno(db);
    make("next", "a", "replaced");
    CHECK(!rename("next.db", "memory.db"));
    refused_call = "double";
    left = 0;
    FAILS(ENOLCK, put(db, "b", "1") == -1);
    CHECK(left == -1 && dbm_error(db) == 2 && dbm_clearerr(db) == 0);
    struct rlimit was, low;
    CHECK(!getrlimit(RLIMIT_NOFILE, &was));
    low = was;
    low.rlim_cur = (rlim_t)file;
    CHECK(!setrlimit(RLIMIT_NOFILE, &low));
    FAILS(EMFILE, put(db, "b", "1") == -1);
    CHECK(!setrlimit(RLIMIT_NOFILE, &was) && dbm_clearerr(db) == 0);
    WORKS(put(db, "b", "1") == 0 && has(db, "a", "replaced") && dbm_pagfno(db) == file);
    dbm_close(db);
}

int main(void) {
    int before = open_descriptors();
    alarm(110);
    openings(O_RDWR | O_CREAT | O_EXCL);
    openings(O_RDWR | O_CREAT);
    openings(O_RDONLY);
    openings(O_RDWR | O_TRUNC);
    calls();
    refusals("read", false, 1);
    refusals("read", true, 1);
    refusals("write", true, 3);
    refusals("sync", true, 2);
    refusals("lock", false, 0);
    refusals("lock", true, 0);
    refusals("look", false, 0);
    refusals("look", true, 0);
    replacements();
    CHECK(open_descriptors() == before);
    return bad;
}
