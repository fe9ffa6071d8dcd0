/* Openings: each flag, the file that is made, and each refusal with errno and the number of its fault. */
#include <fcntl.h>
#include <sys/file.h>

#include "check.h"

/* somebody who isn't root */
enum { NOBODY = 65534 };

/* The opening is refused with this errno and fault. */
#define REFUSED(number, its_fault, file, flags, how) \
    (told_fault = 99, FAILS(number, !dbmx_open(file, flags, 0644, how, &told_fault)), CHECK(told_fault == (its_fault)))
static int told_fault;

static void missing(void) {
    CHECK(!dbm_open("none", O_RDWR, 0644) && errno == ENOENT);
    REFUSED(ENOENT, 14, "none", O_RDONLY, NULL);
    REFUSED(ENOENT, 14, "none", O_RDWR, NULL);
    REFUSED(ENOENT, 14, "none", O_RDWR | O_TRUNC, NULL);
    REFUSED(ENOENT, 14, "none", O_RDWR | O_EXCL, NULL);
    REFUSED(ENOENT, 14, "none", O_RDONLY | O_CREAT, NULL);
    REFUSED(ENOENT, 14, "none", O_RDONLY | O_CREAT | O_EXCL, NULL);
    REFUSED(ENOENT, 14, "nowhere/none", O_RDWR, NULL);
    REFUSED(ENOENT, 2, "nowhere/none", O_RDWR | O_CREAT, NULL);
    REFUSED(ENOENT, 2, "nowhere/none", O_RDWR | O_CREAT | O_EXCL, NULL);
    CHECK(access("none.db", F_OK) != 0 && access("none", F_OK) != 0);
}

static void misuse(void) {
    dbmx_how how = {.options = DBMX_BUILD << 1};
    FAILS(EINVAL, !dbm_open(NULL, O_RDWR | O_CREAT, 0644));
    REFUSED(EINVAL, 0, NULL, O_RDWR | O_CREAT, NULL);
    REFUSED(EINVAL, 0, "none", O_RDWR | O_CREAT, &how);
    how.options = ~0u;
    REFUSED(EINVAL, 0, "none", O_RDWR | O_CREAT, &how);
    how = (dbmx_how){.options = DBMX_PAGES};
    REFUSED(EINVAL, 0, "none", O_RDWR | O_CREAT, &how);
    how.pages = 65537;
    REFUSED(EINVAL, 0, "none", O_RDWR | O_CREAT, &how);
    REFUSED(EINVAL, 0, "none", O_WRONLY | O_RDWR | O_CREAT, NULL);
    static const int others[] = {O_DIRECTORY, O_DIRECT, O_PATH, O_TMPFILE, O_ASYNC, 1 << 30};
    for (size_t i = 0; i < sizeof others / sizeof *others; i++) REFUSED(EINVAL, 0, "none", O_RDWR | O_CREAT | others[i], NULL);
    CHECK(access("none.db", F_OK) != 0);
}

/* a file that is made has its name and its mode, in its folder */
static void makings(void) {
    char here[4000], path[4100];
    struct stat it;
    umask(027);
    WORKS((dbm_close(dbm_open("made", O_RDWR | O_CREAT, 0666)), true));
    CHECK(!stat("made.db", &it) && (it.st_mode & 07777) == 0640);
    umask(0);
    WORKS((dbm_close(dbm_open("bare", O_WRONLY | O_CREAT | O_EXCL, 0400)), true));
    CHECK(!stat("bare.db", &it) && (it.st_mode & 07777) == 0400);
    umask(022);
    CHECK(!mkdir("folder", 0755) && getcwd(here, sizeof here));
    make("folder/one", "a", "1");
    make("./folder/../two", "a", "2");
    snprintf(path, sizeof path, "%s/folder/three", here);
    make(path, "a", "3");
    CHECK(size_of("folder/one.db") > 0 && size_of("two.db") > 0 && size_of("folder/three.db") > 0);
    /* a name may end as the file does */
    make("t.db", "a", "4");
    CHECK(size_of("t.db.db") > 0 && access("t.db", F_OK) != 0);
}

/* what may be done with one that is open */
static void accesses(void) {
    static const int writing[] = {O_RDWR, O_WRONLY, O_RDWR | O_APPEND, O_WRONLY | O_APPEND | O_CREAT, O_RDWR | O_EXCL};
    make("t", "a", "1");
    for (size_t i = 0; i < sizeof writing / sizeof *writing; i++) {
        char content[2] = {(char)('a' + i), 0};
        DBM *db = NULL;
        WORKS((db = dbm_open("t", writing[i], 0)) != NULL);
        if (!db) continue;
        CHECK(!dbm_rdonly(db) && dbm_store(db, of("a"), of(content), DBM_REPLACE) == 0);
        WORKS((dbm_close(db), true));
        db = open_or_end("t", O_RDONLY);
        CHECK(dbm_rdonly(db) && is(dbm_fetch(db, of("a")), content));
        FAILS(EPERM, dbm_store(db, of("a"), of("x"), DBM_REPLACE) == -1);
        WORKS((dbm_close(db), true));
    }
}

/* flags that the system gets, and the descriptor */
static void descriptors(void) {
    static const int passed[] = {O_SYNC, O_DSYNC, O_NONBLOCK, O_NOATIME, O_NOCTTY, O_CLOEXEC, O_APPEND, O_NOFOLLOW};
    static const int shown = O_SYNC | O_DSYNC | O_NONBLOCK | O_NOATIME;
    for (size_t i = 0; i < sizeof passed / sizeof *passed; i++) {
        DBM *db = open_or_end("t", O_RDWR | passed[i]);
        int flags = fcntl(dbm_pagfno(db), F_GETFL);
        CHECK((flags & shown) == ((passed[i] | O_NONBLOCK) & shown) && !(flags & O_APPEND));
        CHECK(fcntl(dbm_pagfno(db), F_GETFD) == FD_CLOEXEC);
        CHECK(dbm_store(db, of("a"), of("1"), DBM_REPLACE) == 0);
        dbm_close(db);
    }
    CHECK(!symlink("t.db", "link.db") && !symlink("nothing", "dangling.db"));
    dbm_close(open_or_end("link", O_RDWR));
    REFUSED(ELOOP, 2, "link", O_RDWR | O_NOFOLLOW, NULL);
    REFUSED(ELOOP, 2, "link", O_RDONLY | O_NOFOLLOW, NULL);
    REFUSED(ENOENT, 14, "dangling", O_RDWR, NULL);
}

/* with the standard streams closed, none of them becomes the file */
static void streams(void) {
    int kept = dup(1);
    close(0), close(1), close(2);
    DBM *db = open_or_end("t", O_RDWR);
    int fd = dbm_pagfno(db), flags = fcntl(fd, F_GETFD);
    bool are_free = fcntl(0, F_GETFD) == -1 && fcntl(1, F_GETFD) == -1 && fcntl(2, F_GETFD) == -1;
    dup2(kept, 1);
    CHECK(fd > 2 && flags == FD_CLOEXEC && are_free);
    CHECK(is(dbm_fetch(db, of("a")), "1"));
    setenv("KUMQUATFEN_WAIT", "0", 1);
    FAILS(EAGAIN, !dbm_open("t", O_RDONLY, 0));
    dbm_close(db);
    dbm_close(open_or_end("t", O_RDWR));
}

static void truncation(void) {
    static const char garbage[] = "no database at all";
    make("full", "a", "1");
    off_t size = size_of("full.db");
    REFUSED(EPERM, 4, "full", O_RDONLY | O_TRUNC, NULL);
    CHECK(size_of("full.db") == size);
    DBM *db = open_or_end("full", O_RDWR);
    CHECK(is(dbm_fetch(db, of("a")), "1"));
    dbm_close(db);
    dbmx_how how = {.limit = 7};
    dbmx_numbers numbers;
    WORKS((db = dbmx_open("full", O_RDWR | O_TRUNC, 0, &how, NULL)) != NULL);
    if (db) {
        CHECK(!dbm_firstkey(db).dptr && !dbm_fetch(db, of("a")).dptr);
        CHECK(dbmx_stat(db, &numbers) == 0 && numbers.pairs == 0 && numbers.limit == 7);
        dbm_close(db);
    }
    db = open_or_end("anew", O_WRONLY | O_CREAT | O_TRUNC);
    CHECK(dbm_store(db, of("a"), of("1"), DBM_INSERT) == 0);
    dbm_close(db);
    write_file("garbage.db", garbage, sizeof garbage, 0644);
    REFUSED(EINVAL, 10, "garbage", O_RDWR | O_TRUNC, NULL);
    REFUSED(EINVAL, 10, "garbage", O_RDWR | O_CREAT | O_TRUNC, NULL);
    REFUSED(EINVAL, 10, "garbage", O_RDWR | O_CREAT, NULL);
    REFUSED(EINVAL, 10, "garbage", O_RDONLY, NULL);
    CHECK(size_of("garbage.db") == sizeof garbage);
}

static void exclusion(void) {
    const int flags = O_RDWR | O_CREAT | O_EXCL;
    make("here", "a", "1");
    REFUSED(EEXIST, 15, "here", flags, NULL);
    REFUSED(EEXIST, 15, "here", flags | O_TRUNC, NULL);
    REFUSED(EEXIST, 15, "here", O_RDONLY | O_CREAT | O_EXCL, NULL);
    REFUSED(EEXIST, 15, "garbage", flags, NULL);
    REFUSED(EEXIST, 15, "link", flags, NULL);
    REFUSED(EEXIST, 15, "dangling", flags, NULL);
    CHECK(access("nothing", F_OK) != 0 && !mkdir("below.db", 0755));
    REFUSED(EEXIST, 15, "below", flags, NULL);
    DBM *db = open_or_end("here", O_RDWR);
    CHECK(is(dbm_fetch(db, of("a")), "1"));
    REFUSED(EEXIST, 15, "here", flags, NULL);
    dbm_close(db);

    /* one of no bytes is taken, and isn't where it is a link, or another user's */
    write_file("blank.db", "", 0, 0600);
    CHECK(!symlink("blank.db", "toblank.db"));
    REFUSED(EEXIST, 15, "toblank", flags, NULL);
    REFUSED(EINVAL, 10, "blank", O_RDWR, NULL);
    REFUSED(EINVAL, 10, "blank", O_RDONLY, NULL);
    REFUSED(EPERM, 4, "blank", O_RDONLY | O_CREAT, NULL);
    REFUSED(EEXIST, 15, "blank", O_RDONLY | O_CREAT | O_EXCL, NULL);
    CHECK(size_of("blank.db") == 0);
    WORKS((db = dbm_open("blank", flags, 0644)) != NULL);
    if (db) dbm_close(db);
    REFUSED(EEXIST, 15, "blank", flags, NULL);
    write_file("theirs.db", "", 0, 0666);
    if (geteuid() == 0 && !chown("theirs.db", NOBODY, NOBODY)) REFUSED(EEXIST, 15, "theirs", flags, NULL);
}

/* a file that was made stays where the opening is then refused */
static void limits(void) {
    dbmx_how how = {.limit = 1000001};
    dbmx_numbers numbers;
    REFUSED(EINVAL, 13, "limit", O_RDWR | O_CREAT | O_EXCL, &how);
    CHECK(size_of("limit.db") == 0);
    how.limit = 2;
    told_fault = 99;
    DBM *db = NULL;
    WORKS((db = dbmx_open("limit", O_RDWR | O_CREAT | O_EXCL, 0644, &how, &told_fault)) && told_fault == 0);
    if (!db) return;
    CHECK(dbm_store(db, of("a"), of("1"), DBM_INSERT) == 0 && dbm_store(db, of("b"), of("2"), DBM_INSERT) == 0);
    FAILS(ENOSPC, dbm_store(db, of("c"), of("3"), DBM_INSERT) == -1);
    CHECK(dbm_error(db) == 6);
    WORKS(dbm_store(db, of("b"), of("3"), DBM_REPLACE) == 0);
    dbm_close(db);
    how.limit = 1000001;
    WORKS((db = dbmx_open("limit", O_RDWR, 0, &how, NULL)) != NULL);
    if (!db) return;
    CHECK(dbmx_stat(db, &numbers) == 0 && numbers.limit == 2 && numbers.pairs == 2);
    dbm_close(db);
    REFUSED(EINVAL, 13, "limit", O_RDWR | O_TRUNC, &how);
    how.limit = 0;
    db = dbmx_open("most", O_RDWR | O_CREAT, 0644, &how, NULL);
    CHECK(db && dbmx_stat(db, &numbers) == 0 && numbers.limit == 1000000);
    dbm_close(db);
    dbm_close(open_or_end("plain", O_RDWR | O_CREAT));
    db = open_or_end("plain", O_RDONLY);
    CHECK(dbmx_stat(db, &numbers) == 0 && numbers.limit == 1000000);
    dbm_close(db);
}

/* what the system refuses */
static void refusals(void) {
    char name[300];
    memset(name, 'n', sizeof name);
    name[sizeof name - 1] = 0;
    REFUSED(ENAMETOOLONG, 2, name, O_RDWR | O_CREAT, NULL);
    REFUSED(ENOTDIR, 2, "garbage.db/below", O_RDWR | O_CREAT, NULL);
    REFUSED(EISDIR, 2, "below", O_RDWR, NULL);
    REFUSED(EISDIR, 2, "below", O_RDWR | O_CREAT, NULL);
    REFUSED(EISDIR, 2, "below", O_RDONLY, NULL);

    /* a pipe, which nobody has open at its other end */
    CHECK(!mkfifo("pipe.db", 0600));
    REFUSED(EINVAL, 2, "pipe", O_RDONLY, NULL);
    REFUSED(EINVAL, 2, "pipe", O_RDWR, NULL);
    REFUSED(EINVAL, 2, "pipe", O_RDWR | O_CREAT, NULL);
    REFUSED(EINVAL, 2, "pipe", O_RDWR | O_CREAT | O_TRUNC, NULL);
}

static void rights(void) {
    CHECK(!chmod("here.db", 0444) && !mkdir("closed", 0555));
    if (geteuid() == 0 && seteuid(NOBODY)) return;
    REFUSED(EACCES, 2, "here", O_RDWR, NULL);
    REFUSED(EACCES, 2, "here", O_RDWR | O_CREAT, NULL);
    REFUSED(EEXIST, 15, "here", O_RDWR | O_CREAT | O_EXCL, NULL);
    REFUSED(EACCES, 2, "closed/new", O_RDWR | O_CREAT, NULL);
    REFUSED(EACCES, 2, "closed/new", O_RDWR | O_CREAT | O_EXCL, NULL);
    DBM *db = open_or_end("here", O_RDONLY);
    CHECK(is(dbm_fetch(db, of("a")), "1"));
    dbm_close(db);
}

int main(void) {
    int before = open_descriptors();
    missing();
    misuse();
    makings();
    accesses();
    descriptors();
    apart(streams);
    truncation();
    exclusion();
    limits();
    refusals();
    CHECK(!chmod(".", 0755));
    apart(rights);
    CHECK(open_descriptors() == before);
    return bad;
}
