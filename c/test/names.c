/* Databases of two files, FILE.pag and FILE.dir: programs that look at both, and lock the second one, find both. */
#include <sys/file.h>

#include "check.h"

static const dbmx_how at_once = {.wait = 0};

static bool is_file(int fd, const char *path) {
    struct stat file, found;
    return !lstat(path, &found) && !fstat(fd, &file) && file.st_ino == found.st_ino && file.st_dev == found.st_dev;
}

static bool is_there(const char *path) {
    return access(path, F_OK) == 0;
}

static mode_t mode_of(const char *path) {
    struct stat it;
    return stat(path, &it) ? 0 : it.st_mode & 07777;
}

/* which files there are, by the environment */
static void names(void) {
    setenv("KUMQUATFEN_NAMES", "pag", 1);
    make("two", "a", "1");
    setenv("KUMQUATFEN_NAMES", "db", 1);
    make("one", "a", "2");
    setenv("KUMQUATFEN_NAMES", "other", 1);
    CHECK((is_there("two.pag") && is_there("two.dir")) && !is_there("two.db") && size_of("two.dir") == 0);
    CHECK(is_there("one.db") && !is_there("one.pag") && !is_there("one.dir"));
    FAILS(ENOENT, !dbm_open("two", O_RDWR, 0) && access("two.db", F_OK));
    setenv("KUMQUATFEN_NAMES", "pag", 1);
    FAILS(ENOENT, !dbm_open("one", O_RDWR, 0));
    CHECK(!is_there("one.dir"));
    DBM *db = dbmx_open("two", O_RDONLY, 0, &at_once, NULL);
    CHECK(db && is(dbm_fetch(db, of("a")), "1"));
    dbm_close(db);
}

/* Both files have the mode that is asked for, and a descriptor each, which is that of the file. */
static void files(int flags) {
    int before = open_descriptors();
    umask(027);
    unlink("m.pag"), unlink("m.dir");
    dbm_close(dbm_open("m", O_RDWR | O_CREAT | O_EXCL, 0666));
    umask(022);
    CHECK(mode_of("m.pag") == 0640 && mode_of("m.dir") == 0640);
    DBM *db = NULL;
    WORKS((db = dbm_open("m", flags, 0644)) != NULL);
    WORKS(is_file(dbm_pagfno(db), "m.pag") && is_file(dbm_dirfno(db), "m.dir"));
    CHECK(fcntl(dbm_dirfno(db), F_GETFD) == FD_CLOEXEC && dbm_dirfno(db) > 2 && open_descriptors() == before + 2);
    WORKS((dbm_close(db), true));
    CHECK(open_descriptors() == before && size_of("m.dir") == 0);
}

/* Locks of FILE.dir are the program's: they keep no opening out, and no opening keeps them out. */
static void locks(void) {
    int dir = open("two.dir", O_RDWR);
    CHECK(!flock(dir, LOCK_EX | LOCK_NB));
    DBM *db = dbmx_open("two", O_RDWR, 0, &at_once, NULL);
    CHECK(db && dbm_store(db, of("a"), of("3"), DBM_REPLACE) == 0);
    FAILS(EWOULDBLOCK, flock(dbm_dirfno(db), LOCK_SH | LOCK_NB) == -1);
    CHECK(!flock(dir, LOCK_UN) && !flock(dbm_dirfno(db), LOCK_EX | LOCK_NB));
    FAILS(EWOULDBLOCK, flock(dir, LOCK_SH | LOCK_NB) == -1);
    CHECK(!flock(dbm_dirfno(db), LOCK_UN));
    FAILS(EAGAIN, !dbmx_open("two", O_RDWR, 0, &at_once, NULL));
    dbm_close(db);
    CHECK((db = dbmx_open("two", O_RDWR, 0, &at_once, NULL)) != NULL);
    dbm_close(db);
    CHECK(!close(dir));
}

/* Where FILE.dir is gone, an opening with O_CREAT makes it, and another one has the file that stands in for it. */
static void without_dir(void) {
    static const dbmx_how unlocked = {.options = DBMX_UNLOCKED};
    struct stat it;
    CHECK(!unlink("two.dir"));
    DBM *db = dbm_open("two", O_RDWR, 0644);
    CHECK(db && !fstat(dbm_dirfno(db), &it) && it.st_nlink == 0 && !is_there("two.dir"));
    dbm_close(db);
    db = dbmx_open("two", O_RDWR, 0644, &unlocked, NULL);
    CHECK(db && dbm_dirfno(db) == dbm_pagfno(db));
    dbm_close(db);
    dbm_close(open_or_end("two", O_RDONLY | O_CREAT));
    CHECK(!is_there("two.dir"));
    dbm_close(open_or_end("two", O_RDWR | O_CREAT));
    CHECK(is_there("two.dir"));
    db = dbmx_open("two", O_RDWR, 0644, &unlocked, NULL);
    CHECK(db && is_file(dbm_dirfno(db), "two.dir"));
    dbm_close(db);
    CHECK(!unlink("two.dir") && !mkdir("two.dir", 0755));
    FAILS(EISDIR, !dbm_open("two", O_RDWR, 0644));
    CHECK(!rmdir("two.dir"));
    dbm_close(open_or_end("two", O_RDWR | O_CREAT));
    FAILS(ENOENT, !dbm_open("nowhere/two", O_RDWR | O_CREAT, 0644));
}

/* What makemap of sendmail does with a new map: it makes and locks both files itself, has the database opened as one to be emptied, and
 * goes on where the descriptors are those of its files. */
static void as_makemap(const char *pag, const char *dir) {
    int lock = open(dir, O_RDWR | O_CREAT | O_EXCL, 0640), made = open(pag, O_RDWR | O_CREAT | O_EXCL, 0640);
    CHECK(lock >= 0 && made >= 0 && !flock(lock, LOCK_EX | LOCK_NB) && !close(made));
    DBM *db = dbm_open("map", O_RDWR | O_TRUNC, 0644);
    if (!CHECK(db != NULL)) return;
    CHECK(dbm_dirfno(db) != dbm_pagfno(db) && is_file(dbm_dirfno(db), dir) && is_file(dbm_pagfno(db), pag));
    CHECK(dbm_store(db, of("key"), of("1"), DBM_INSERT) == 0 && dbm_store(db, of("key"), of("2"), DBM_INSERT) == 1);
    dbm_close(db);
    CHECK(!close(lock));
    CHECK((db = dbm_open("map", O_RDONLY, 0)) != NULL && !flock(dbm_dirfno(db), LOCK_SH | LOCK_NB) && is(dbm_fetch(db, of("key")), "1"));
    dbm_close(db);
}

/* A build beside FILE.pag leaves FILE.dir, and a lock of it, as they are, and the descriptors are those of both files, by which makemap goes
 * on. */
static void built(void) {
    static const dbmx_how building = {.options = DBMX_BUILD};
    struct stat before, behind;
    CHECK(!stat("map.dir", &before));
    DBM *db = dbmx_open("map", O_RDWR | O_CREAT | O_TRUNC, 0644, &building, NULL);
    CHECK(db && !flock(dbm_dirfno(db), LOCK_EX | LOCK_NB) && is_file(dbm_pagfno(db), "map.pag") && is_file(dbm_dirfno(db), "map.dir"));
    CHECK(is_there("map.pag.new") && dbm_store(db, of("new"), of("3"), DBM_INSERT) == 0);
    dbm_close(db);
    CHECK(!stat("map.dir", &behind) && before.st_ino == behind.st_ino && !is_there("map.pag.new"));
    CHECK((db = dbm_open("map", O_RDONLY, 0)) != NULL && is(dbm_fetch(db, of("new")), "3") && !dbm_fetch(db, of("key")).dptr);
    dbm_close(db);
}

/* A shared database finds the file that gets its name. */
static void shared(void) {
    static const dbmx_how sharing = {.wait = 2, .options = DBMX_SHARED};
    DBM *db = dbmx_open("map", O_RDWR, 0644, &sharing, NULL);
    CHECK(db && is_file(dbm_dirfno(db), "map.dir") && dbm_store(db, of("b"), of("4"), DBM_REPLACE) == 0);
    make("next", "c", "5");
    CHECK(!rename("next.pag", "map.pag") && dbm_store(db, of("d"), of("6"), DBM_REPLACE) == 0);
    CHECK(is(dbm_fetch(db, of("c")), "5") && !dbm_fetch(db, of("b")).dptr);
    dbm_close(db);
}

int main(void) {
    int before = open_descriptors();
    names();
    files(O_RDWR);
    files(O_RDONLY);
    locks();
    without_dir();
    as_makemap("map.pag", "map.dir");
    built();
    shared();
    CHECK(open_descriptors() == before);
    return bad;
}
