/* Openings beside one another: locks, which aren't waited for here, and openings without; threads with a small stack; programs that
 * are begun. */
#include <pthread.h>
#include <signal.h>
#include <sys/file.h>
#include <time.h>

#include "check.h"

enum { STACK = 768 * 1024, STORES = 2000 };

static void locks(void) {
    int fault = 0;
    DBM *writer = open_or_end("t", O_RDWR | O_CREAT), *reader, *another;
    FAILS(EAGAIN, !dbm_open("t", O_RDONLY, 0));
    FAILS(EAGAIN, !dbmx_open("t", O_RDWR, 0, NULL, &fault));
    CHECK(fault == 2);
    FAILS(EAGAIN, !dbmx_open("t", O_RDWR | O_TRUNC, 0, NULL, &fault));
    CHECK(dbm_store(writer, of("a"), of("1"), DBM_INSERT) == 0);
    dbm_close(writer);
    reader = open_or_end("t", O_RDONLY);
    another = open_or_end("t", O_RDONLY);
    CHECK(is(dbm_fetch(reader, of("a")), "1") && is(dbm_fetch(another, of("a")), "1"));
    FAILS(EAGAIN, !dbm_open("t", O_RDWR, 0));
    dbm_close(reader);
    FAILS(EAGAIN, !dbm_open("t", O_RDWR, 0));
    dbm_close(another);
    dbm_close(open_or_end("t", O_RDWR));
}

/* the system's lock, by whoever has it */
static void foreign(void) {
    int fd = open("t.db", O_RDONLY);
    CHECK(!flock(fd, LOCK_SH | LOCK_NB));
    FAILS(EAGAIN, !dbm_open("t", O_RDWR, 0));
    dbm_close(open_or_end("t", O_RDONLY));
    CHECK(!flock(fd, LOCK_EX | LOCK_NB));
    FAILS(EAGAIN, !dbm_open("t", O_RDONLY, 0));
    CHECK(!flock(fd, LOCK_UN));
    DBM *db = open_or_end("t", O_RDONLY);
    CHECK(flock(fd, LOCK_EX | LOCK_NB) == -1 && !flock(fd, LOCK_SH | LOCK_NB) && !flock(fd, LOCK_UN));
    dbm_close(db);
    db = open_or_end("t", O_RDWR);
    CHECK(flock(fd, LOCK_SH | LOCK_NB) == -1);
    dbm_close(db);
    CHECK(!flock(fd, LOCK_EX | LOCK_NB));
    close(fd);
}

static void unlocked(void) {
    dbmx_how how = {.options = DBMX_UNLOCKED};
    DBM *db = open_or_end("t", O_RDWR), *beside = NULL;
    CHECK(dbm_store(db, of("b"), of("2"), DBM_REPLACE) == 0 && dbmx_sync(db) == 0);
    WORKS((beside = dbmx_open("t", O_RDONLY, 0, &how, NULL)) != NULL);
    if (beside) {
        CHECK(is(dbm_fetch(beside, of("b")), "2"));
        dbm_close(beside);
    }
    dbm_close(db);
    beside = dbmx_open("t", O_RDWR, 0, &how, NULL);
    CHECK(beside != NULL);
    dbm_close(open_or_end("t", O_RDWR));
    if (beside) dbm_close(beside);
}

/* calls that take a long content, and the upgrade that lets it in */
static bool has_long(DBM *db) {
    static char bytes[DBMX_CONTENT_MAX];
    datum content = {bytes, sizeof bytes};
    dbmx_pair pair = {of("another"), content};
    bool good = dbm_store(db, of("long"), content, DBM_INSERT) == -1 && !dbm_clearerr(db) && !dbmx_upgrade(db);
    good = good && !dbm_store(db, of("long"), content, DBM_INSERT) && !dbm_store(db, of("long"), content, DBM_REPLACE);
    good = good && !dbmx_store_many(db, &pair, 1, NULL) && dbm_fetch(db, of("long")).dsize == sizeof bytes;
    return good && !dbm_delete(db, of("long")) && !dbm_delete(db, of("another")) && dbmx_version(db) == 2;
}

static void *work(void *name) {
    dbmx_how how = {.options = DBMX_VERSION_1};
    DBM *db = dbmx_open(name, O_RDWR | O_CREAT, 0644, &how, NULL);
    long keys = 0;
    if (!db) return NULL;
    for (int i = 0; i < STORES; i++) {
        if (dbm_store(db, (datum){&i, sizeof i}, (datum){&i, sizeof i}, DBM_INSERT)) return NULL;
    }
    for (datum key = dbm_firstkey(db); key.dptr; key = dbm_nextkey(db)) {
        int i = 0, content = -1;
        datum found = dbm_fetch(db, key);
        if (key.dsize != sizeof i || found.dsize != sizeof content) return NULL;
        memcpy(&i, key.dptr, sizeof i);
        memcpy(&content, found.dptr, sizeof content);
        keys += i == content;
    }
    dbmx_pair pair = {of("a"), of("1")};
    bool good = keys == STORES && !dbmx_store_many(db, &pair, 1, NULL) && !dbm_delete(db, of("a")) && has_long(db);
    good = good && !dbmx_verify(db);
    dbm_close(db);
    db = dbm_open(name, O_RDWR | O_TRUNC, 0);
    good = good && db && !dbm_firstkey(db).dptr;
    if (db) dbm_close(db);
    return good ? name : NULL;
}

/* threads with a database each, at once */
static void threads(void) {
    static char names[3][2] = {"x", "y", "z"};
    pthread_t them[3];
    pthread_attr_t how;
    if (pthread_attr_init(&how) || pthread_attr_setstacksize(&how, STACK)) exit(2);
    for (int i = 0; i < 3; i++) {
        if (pthread_create(&them[i], &how, work, names[i])) exit(2);
    }
    for (int i = 0; i < 3; i++) {
        void *answer = NULL;
        CHECK(!pthread_join(them[i], &answer) && answer == names[i]);
    }
    pthread_attr_destroy(&how);
}

/* a program that is begun doesn't get the file, nor its lock */
static void programs(void) {
    DBM *db = open_or_end("t", O_RDWR);
    pid_t child = fork();
    if (!child) {
        execl("/bin/sleep", "sleep", "30", (char *)NULL);
        _exit(2);
    }
    char path[64], name[64];
    snprintf(path, sizeof path, "/proc/%d/fd/%d", (int)child, dbm_pagfno(db));
    for (int i = 0; i < 200 && readlink(path, name, sizeof name) > 0; i++) nanosleep(&(struct timespec){0, 50000000}, NULL);
    dbm_close(db);
    dbm_close(open_or_end("t", O_RDWR));
    kill(child, 9);
    waitpid(child, NULL, 0);
}

int main(void) {
    int before = open_descriptors();
    setenv("KUMQUATFEN_WAIT", "0", 1);
    locks();
    foreign();
    unlocked();
    threads();
    programs();
    CHECK(open_descriptors() == before);
    return bad;
}
