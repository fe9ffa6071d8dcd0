/* A child that fork made of a program with an open database: all that it calls with that is refused, but dbm_close, which writes
 * nothing. What the parent stored and stores stays, and so does its lock. */
#include <signal.h>

#include "check.h"

/* the database that was open when the child was made */
static DBM *db;

/* every call but dbm_close is refused, and leaves what it is given */
static void calls(void) {
    dbmx_pair pair = {of("child"), of("1")};
    dbmx_numbers numbers = {.pairs = 77};
    size_t stored = 77;
    FAILS(EINVAL, dbm_store(db, of("child"), of("1"), DBM_INSERT) == -1);
    FAILS(EINVAL, dbm_store(db, of("a"), of("1"), DBM_REPLACE) == -1);
    FAILS(EINVAL, dbm_delete(db, of("a")) == -1);
    FAILS(EINVAL, !dbm_fetch(db, of("a")).dptr);
    FAILS(EINVAL, !dbm_firstkey(db).dptr);
    FAILS(EINVAL, !dbm_nextkey(db).dptr);
    FAILS(EINVAL, dbm_error(db) == -1);
    FAILS(EINVAL, dbm_clearerr(db) == -1);
    FAILS(EINVAL, dbm_pagfno(db) == -1);
    FAILS(EINVAL, dbm_dirfno(db) == -1);
    FAILS(EINVAL, dbm_rdonly(db) == -1);
    FAILS(EINVAL, dbmx_sync(db) == -1);
    FAILS(EINVAL, dbmx_store_many(db, &pair, 1, &stored) == -1);
    FAILS(EINVAL, dbmx_stat(db, &numbers) == -1);
    FAILS(EINVAL, dbmx_verify(db) == -1);
    FAILS(EINVAL, dbmx_version(db) == -1);
    FAILS(EINVAL, dbmx_upgrade(db) == -1);
    CHECK(stored == 0 && numbers.pairs == 77);
}

static void calls_and_closes(void) {
    int before = open_descriptors();
    calls();
    WORKS((dbm_close(db), true));
    CHECK(open_descriptors() == before - 2);
    /* one of its own */
    make("child", "a", "1");
    db = open_or_end("child", O_RDWR);
    CHECK(dbm_store(db, of("a"), of("2"), DBM_REPLACE) == 0 && is(dbm_fetch(db, of("a")), "2"));
    dbm_close(db);
    unlink("child.db");
}

/* what is wrong in the child is told by its status */
static void child_of(void (*part)(void)) {
    fflush(stdout);
    int status = 1;
    pid_t child = fork();
    if (!child) {
        part();
        exit(bad);
    }
    CHECK(child > 0 && waitpid(child, &status, 0) == child && status == 0);
}

/* the bytes of the file, whose number is in `size` */
static char *bytes_of(const char *path, size_t *size) {
    int fd = open(path, O_RDONLY);
    *size = (size_t)size_of(path);
    char *bytes = malloc(*size + 1);
    if (fd < 0 || !bytes || read(fd, bytes, *size) != (ssize_t)*size) exit(2);
    close(fd);
    return bytes;
}

/* Whether the file is locked, which another opening sees. */
static bool is_locked(int flags) {
    dbmx_how how = {.wait = 0};
    DBM *another = dbmx_open("t", flags, 0, &how, NULL);
    if (!another) return errno == EAGAIN;
    dbm_close(another);
    return false;
}

/* A child does its part: the file keeps its bytes and its lock, and the parent goes on. */
static void beside(void (*part)(void), bool writes) {
    size_t before = 0, behind = 0;
    char *bytes = bytes_of("t.db", &before);
    child_of(part);
    char *now = bytes_of("t.db", &behind);
    CHECK(before == behind && !memcmp(bytes, now, before));
    free(bytes);
    free(now);
    CHECK(is_locked(O_RDWR) && is_locked(O_RDONLY) == writes);
    WORKS(is(dbm_fetch(db, of("a")), "1") && is(dbm_fetch(db, of("b")), "2"));
    WORKS(dbmx_verify(db) == 0);
    WORKS(dbm_error(db) == 0);
}

static void writer(void) {
    db = open_or_end("t", O_RDWR | O_CREAT | O_TRUNC);
    CHECK(dbm_store(db, of("a"), of("1"), DBM_INSERT) == 0 && dbm_store(db, of("b"), of("2"), DBM_INSERT) == 0);
    CHECK(dbm_dirfno(db) > 2);
    beside(calls_and_closes, true);
    CHECK(dbm_store(db, of("c"), of("3"), DBM_INSERT) == 0);
    beside(calls, true);
    CHECK(dbm_store(db, of("d"), of("4"), DBM_INSERT) == 0);
    WORKS((dbm_close(db), true));
    CHECK(!is_locked(O_RDWR));
    db = open_or_end("t", O_RDONLY);
    CHECK(is(dbm_fetch(db, of("c")), "3") && is(dbm_fetch(db, of("d")), "4") && !dbm_fetch(db, of("child")).dptr);
    dbm_close(db);
}

static void reader(void) {
    db = open_or_end("t", O_RDONLY);
    CHECK(dbm_dirfno(db) > 2);
    beside(calls_and_closes, false);
    beside(calls, false);
    dbm_close(db);
    CHECK(!is_locked(O_RDWR));
}

/* Two processes that go on in turn. Each end of a pipe is of one of them. */
static int to_child[2], to_parent[2];

static void tell(int fd) {
    if (write(fd, "", 1) != 1) exit(2);
}

static void hear(int fd) {
    char byte;
    if (read(fd, &byte, 1) != 1) exit(2);
}

static void close_when_told(void) {
    hear(to_child[0]);
    WORKS((dbm_close(db), true));
    tell(to_parent[1]);
}

/* A program stores, makes a child, stores on, and ends without closing. Its child closes in between, with what it knew when it was
 * made. */
static void store_beside_a_child(void) {
    db = open_or_end("t", O_RDWR | O_CREAT | O_TRUNC);
    CHECK(dbm_store(db, of("a"), of("1"), DBM_INSERT) == 0);
    fflush(stdout);
    pid_t child = fork();
    if (!child) {
        close_when_told();
        exit(bad);
    }
    CHECK(dbm_store(db, of("b"), of("2"), DBM_INSERT) == 0 && dbm_store(db, of("a"), of("3"), DBM_REPLACE) == 0);
    tell(to_child[1]);
    hear(to_parent[0]);
    int status = 1;
    CHECK(waitpid(child, &status, 0) == child && status == 0);
}

/* It is killed, or stores on before that, or ends by exit. */
static void is_killed(void) {
    store_beside_a_child();
    if (!bad) raise(SIGKILL);
}

static void stores_on_and_is_killed(void) {
    store_beside_a_child();
    CHECK(dbm_store(db, of("c"), of("4"), DBM_INSERT) == 0 && dbm_delete(db, of("b")) == 0);
    if (!bad) raise(SIGKILL);
}

static void exits(void) {
    store_beside_a_child();
    exit(bad);
}

/* What such a program had answered is there. */
static void killed(void (*part)(void), int signal, const char *b, const char *c) {
    int status = 1;
    fflush(stdout);
    pid_t child = fork();
    if (!child) {
        part();
        exit(bad);
    }
    CHECK(waitpid(child, &status, 0) == child && (signal ? WIFSIGNALED(status) && WTERMSIG(status) == signal : status == 0));
    db = open_or_end("t", O_RDWR);
    WORKS(dbmx_verify(db) == 0);
    CHECK(is(dbm_fetch(db, of("a")), "3"));
    CHECK(b ? is(dbm_fetch(db, of("b")), b) : !dbm_fetch(db, of("b")).dptr);
    CHECK(c ? is(dbm_fetch(db, of("c")), c) : !dbm_fetch(db, of("c")).dptr);
    dbm_close(db);
}

static void held_until_told(void) {
    hear(to_child[0]);
}

/* The lock of a parent that closes is held by a child that doesn't, up to its end. One that is killed gives nothing away. */
static void lock_of_two(void) {
    db = open_or_end("t", O_RDWR);
    fflush(stdout);
    pid_t child = fork(), another = child ? fork() : 0;
    if (!child || !another) {
        held_until_told();
        exit(0);
    }
    kill(another, SIGKILL);
    CHECK(waitpid(another, NULL, 0) == another && is_locked(O_RDONLY));
    CHECK(dbm_store(db, of("a"), of("5"), DBM_REPLACE) == 0);
    dbm_close(db);
    CHECK(is_locked(O_RDONLY));
    tell(to_child[1]);
    CHECK(waitpid(child, NULL, 0) == child && !is_locked(O_RDWR));
    db = open_or_end("t", O_RDONLY);
    CHECK(is(dbm_fetch(db, of("a")), "5"));
    dbm_close(db);
}

int main(void) {
    int before = open_descriptors();
    if (pipe(to_child) || pipe(to_parent)) return 2;
    writer();
    reader();
    killed(is_killed, SIGKILL, "2", NULL);
    killed(stores_on_and_is_killed, SIGKILL, NULL, "4");
    killed(exits, 0, "2", NULL);
    lock_of_two();
    close(to_child[0]), close(to_child[1]), close(to_parent[0]), close(to_parent[1]);
    CHECK(open_descriptors() == before);
    return bad;
}
