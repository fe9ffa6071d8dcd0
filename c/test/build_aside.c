/* A database that is emptied by a build: it is built in a file beside the old one, which others read meanwhile and nobody writes, and takes its
 * place at dbm_close. */
#include <signal.h>
#include <sys/file.h>
#include <sys/resource.h>
#include <time.h>

#include "builds.h"

/* somebody who isn't root */
enum { NOBODY = 65534 };
enum { OLD = 500, NEW = 700, BUILDS = 16 };

static const dbmx_how at_once = {.wait = 0};

static bool is_there(const char *path) {
    struct stat it;
    return !lstat(path, &it);
}

static bool is_open_file(int fd, const char *path) {
    struct stat file, found;
    return !stat(path, &found) && !fstat(fd, &file) && file.st_ino == found.st_ino && file.st_dev == found.st_dev;
}

static void fill(DBM *db, uint32_t count, int fill) {
    for (uint32_t i = 0; i < count; i++) CHECK(put_filled(db, i, 20, fill, i % 2 ? DBM_INSERT : DBM_REPLACE) == 0);
}

/* a file with the old pairs */
static void make_old(const char *file) {
    char path[100];
    snprintf(path, sizeof path, "%s.db", file);
    unlink(path);
    DBM *db = build_or_end(file, O_RDWR | O_CREAT | O_EXCL);
    fill(db, OLD, 'o');
    dbm_close(db);
}

/* whether this opening has the old pairs, or the new ones, and no others */
static bool has_old(DBM *db) {
    return pairs_of(db) == OLD && is_filled(db, 0, 20, 'o') && is_filled(db, OLD - 1, 20, 'o');
}

static bool has_new(DBM *db) {
    return pairs_of(db) == NEW && is_filled(db, 0, 20, 'n') && is_filled(db, NEW - 1, 20, 'n');
}

static bool file_has(const char *file, bool (*has)(DBM *)) {
    DBM *db = dbmx_open(file, O_RDONLY, 0, &at_once, NULL);
    bool it = db && has(db) && dbmx_verify(db) == 0;
    if (db) dbm_close(db);
    return it;
}

/* readers go on with the old pairs, of a file that has a new time then, and find the new ones where they open the file again */
static void readers(void) {
    static const struct timespec past[2] = {{1000000000, 0}, {1000000000, 0}};
    struct stat it;
    make_old("t");
    DBM *reader = dbmx_open("t", O_RDONLY, 0, &at_once, NULL);
    DBM *db = NULL;
    WORKS((db = build_or_end("t", O_RDWR | O_TRUNC)) != NULL);
    CHECK(is_open_file(dbm_pagfno(db), "t.db") && is_there("t.db.new"));
    CHECK(!dbm_firstkey(db).dptr && pairs_of(db) == 0 && file_has("t", has_old));
    fill(db, NEW, 'n');
    CHECK(has_new(db) && has_old(reader) && file_has("t", has_old));
    CHECK(!futimens(dbm_pagfno(reader), past) && !fstat(dbm_pagfno(reader), &it) && it.st_nlink == 1 && it.st_mtime == past[1].tv_sec);
    WORKS((dbm_close(db), true));
    CHECK(!fstat(dbm_pagfno(reader), &it) && it.st_nlink == 0 && it.st_mtime > past[1].tv_sec);
    CHECK(has_old(reader) && file_has("t", has_new) && !is_there("t.db.new"));
    dbm_close(reader);
}

/* What an opening is refused by while a build is under way. */
static int refusal(int flags, unsigned of_options) {
    const dbmx_how how = {.wait = 0, .options = of_options};
    DBM *db = dbmx_open("t", flags, 0644, &how, NULL);
    int error = errno;
    if (!db) return error;
    dbm_close(db);
    return 0;
}

/* nobody writes the old pairs, or builds a third file, meanwhile */
static void writers(void) {
    const dbmx_how shared = {.wait = 1, .options = DBMX_SHARED};
    make_old("t");
    DBM *others = dbmx_open("t", O_RDWR, 0, &shared, NULL);
    CHECK(others && put_filled(others, 1, 20, 'o', DBM_REPLACE) == 0);
    DBM *db = build_or_end("t", O_RDWR | O_CREAT | O_TRUNC);
    CHECK(refusal(O_RDWR, 0) == EAGAIN && refusal(O_RDWR | O_TRUNC, 0) == EAGAIN && refusal(O_RDONLY, 0) == 0);
    CHECK(refusal(O_RDWR | O_TRUNC, DBMX_BUILD) == EAGAIN && refusal(O_RDWR | O_CREAT, DBMX_BUILD) == EAGAIN);
    FAILS(EAGAIN, put_filled(others, 1, 20, 'x', DBM_REPLACE) == -1);
    CHECK(is_filled(others, 1, 20, 'o') && is_there("t.db.new"));
    fill(db, NEW, 'n');
    dbm_close(db);
    sleep(2);
    CHECK(has_new(others) && put_filled(others, 1, 20, 'x', DBM_REPLACE) == 0);
    dbm_close(others);
    /* and no build begins while somebody writes */
    db = open_or_end("t", O_RDWR);
    CHECK(refusal(O_RDWR | O_TRUNC, DBMX_BUILD) == EAGAIN && !is_there("t.db.new"));
    dbm_close(db);
    CHECK(refusal(O_RDWR | O_TRUNC, DBMX_BUILD) == 0 && pairs_in("t") == 0);
}

static bool has_head(const char *path, const char *wanted) {
    char head[9] = {0};
    int fd = open(path, O_RDONLY);
    CHECK(fd >= 0 && read(fd, head, 8) == 8 && !close(fd));
    return !strcmp(head, wanted);
}

/* Owner, group and mode stay, and so does the kind; the version and the limit are those that are asked for. */
static void likeness(void) {
    const dbmx_how first = {.limit = 77, .options = DBMX_VERSION_1}, build_first = {.limit = 99, .options = DBMX_VERSION_1 | DBMX_BUILD};
    struct stat it;
    dbmx_numbers numbers;
    make_old("t");
    bool is_given = geteuid() == 0 && !chown("t.db", NOBODY, NOBODY);
    CHECK(!chmod("t.db", 0640));
    DBM *db = build_or_end("t", O_RDWR | O_TRUNC);
    CHECK(!fstat(dbm_pagfno(db), &it) && (it.st_mode & 07777) == 0640 && (!is_given || it.st_uid == NOBODY));
    dbm_close(db);
    CHECK(!stat("t.db", &it) && (it.st_mode & 07777) == 0640 && (!is_given || (it.st_uid == NOBODY && it.st_gid == NOBODY)));
    CHECK(has_head("t.db", "DBMREDO2"));
    db = dbmx_open("t", O_RDWR | O_TRUNC, 0, &build_first, NULL);
    CHECK(db && dbmx_version(db) == 1 && dbmx_stat(db, &numbers) == 0 && numbers.limit == 99 && put_filled(db, 1, 1, 'n', DBM_INSERT) == 0);
    dbm_close(db);
    CHECK(has_head("t.db", "DBMREDO2") && pairs_in("t") == 1);

    dbm_close(dbmx_open("kind", O_RDWR | O_CREAT, 0644, &first, NULL));
    db = build_or_end("kind", O_RDWR | O_TRUNC);
    CHECK(dbmx_version(db) == 2 && dbmx_stat(db, &numbers) == 0 && numbers.limit == 1000000);
    fill(db, NEW, 'n');
    dbm_close(db);
    CHECK(has_head("kind.db", "DBMREDO1") && file_has("kind", has_new));
    db = dbmx_open("kind", O_RDWR | O_TRUNC, 0, &build_first, NULL);
    CHECK(db && dbmx_version(db) == 1);
    dbm_close(db);
    CHECK(has_head("kind.db", "DBMREDO1") && pairs_in("kind") == 0);
}

/* What a program gives the file of dbm_pagfno, or somebody gives the old file by its name, the new file has. */
static void given(void) {
    struct stat it;
    make_old("t");
    DBM *db = build_or_end("t", O_RDWR | O_TRUNC);
    bool is_given = geteuid() == 0 && !fchown(dbm_pagfno(db), NOBODY, NOBODY);
    CHECK(!fchmod(dbm_pagfno(db), 0600) && fcntl(dbm_pagfno(db), F_GETFD) == FD_CLOEXEC && dbm_pagfno(db) > 2);
    fill(db, NEW, 'n');
    dbm_close(db);
    CHECK(!stat("t.db", &it) && (it.st_mode & 07777) == 0600 && (!is_given || (it.st_uid == NOBODY && it.st_gid == NOBODY)));
    CHECK(file_has("t", has_new));
    db = build_or_end("t", O_RDWR | O_TRUNC);
    CHECK(!chmod("t.db", 0644));
    dbm_close(db);
    CHECK(!stat("t.db", &it) && (it.st_mode & 07777) == 0644 && pairs_in("t") == 0);
}

/* The build is refused so, and leaves the old pairs, and what stands beside them. */
static void is_refused(int number, int its_fault, const dbmx_how *how, bool is_left) {
    int fault = 99;
    FAILS(number, !dbmx_open("t", O_RDWR | O_TRUNC, 0644, how, &fault));
    CHECK(fault == its_fault && file_has("t", has_old) && is_there("t.db.new") == is_left);
}

/* What stands under the name of the file beside is taken away where a stopped build may have left it, and else stays. */
static void what_is_left(void) {
    const dbmx_how limit = {.limit = 1000001, .options = DBMX_BUILD};
    make_old("t");
    write_file("t.db.new", "left", 4, 0600);
    int left = open("t.db.new", O_RDWR);
    CHECK(!flock(left, LOCK_SH));
    is_refused(EAGAIN, 2, &building, true);
    CHECK(size_of("t.db.new") == 4 && !close(left));
    is_refused(EINVAL, 13, &limit, false);
    CHECK(!symlink("t.db", "t.db.new"));
    is_refused(ELOOP, 2, &building, true);
    CHECK(!unlink("t.db.new") && !mkdir("t.db.new", 0755));
    is_refused(EISDIR, 2, &building, true);
    CHECK(!rmdir("t.db.new") && !mkfifo("t.db.new", 0600));
    is_refused(EINVAL, 2, &building, true);
    CHECK(!unlink("t.db.new"));
    write_file("t.db.new", "left", 4, 0600);
    DBM *db = build_or_end("t", O_RDWR | O_TRUNC);
    fill(db, NEW, 'n');
    dbm_close(db);
    CHECK(file_has("t", has_new));
}

/* a file that is no database isn't replaced, and one that isn't there, or is blank, is built in its place */
static void others(void) {
    static const char garbage[5000] = "garbage";
    int fault = 99;
    write_file("garbage.db", garbage, sizeof garbage, 0644);
    FAILS(EINVAL, !dbmx_open("garbage", O_RDWR | O_CREAT | O_TRUNC, 0644, &building, &fault));
    CHECK(fault == 10 && size_of("garbage.db") == sizeof garbage && !is_there("garbage.db.new"));
    CHECK(!mkdir("below.db", 0755));
    FAILS(EISDIR, !dbmx_open("below", O_RDWR | O_TRUNC, 0644, &building, &fault));
    write_file("blank.db", "", 0, 0644);
    DBM *db = build_or_end("blank", O_RDWR | O_CREAT | O_TRUNC);
    CHECK(is_open_file(dbm_pagfno(db), "blank.db") && !is_there("blank.db.new"));
    dbm_close(db);
    db = build_or_end("anew", O_RDWR | O_CREAT | O_TRUNC);
    CHECK(is_open_file(dbm_pagfno(db), "anew.db") && !is_there("anew.db.new"));
    dbm_close(db);
    CHECK(pairs_in("blank") == 0 && pairs_in("anew") == 0);
}

/* The file behind a symbolic link is the one that is replaced, and a program may go to another folder meanwhile. */
static void places(void) {
    char here[4000];
    CHECK(!mkdir("folder", 0755) && getcwd(here, sizeof here));
    make_old("folder/t");
    CHECK(!symlink("folder/t.db", "link.db"));
    DBM *db = build_or_end("link", O_RDWR | O_TRUNC);
    CHECK(is_there("folder/t.db.new"));
    fill(db, NEW, 'n');
    dbm_close(db);
    CHECK(file_has("folder/t", has_new) && file_has("link", has_new) && !is_there("folder/t.db.new"));
    FAILS(ELOOP, !dbmx_open("link", O_RDWR | O_TRUNC | O_NOFOLLOW, 0644, &building, NULL));
    make_old("folder/t");
    db = build_or_end("folder/t", O_RDWR | O_TRUNC);
    CHECK(!chdir("/"));
    fill(db, NEW, 'n');
    dbm_close(db);
    CHECK(!chdir(here) && file_has("folder/t", has_new));
}

static void build_and_end(void) {
    left_open = build_or_end("t", O_RDWR | O_TRUNC);
    fill(left_open, NEW, 'n');
    CHECK(dbmx_sync(left_open) == 0 && has_new(left_open));
}

/* A program that doesn't close it leaves the old pairs, and the next build takes away what it left. */
static void unclosed(void) {
    make_old("t");
    in_child(build_and_end);
    CHECK(file_has("t", has_old) && is_there("t.db.new"));
    DBM *db = build_or_end("t", O_RDWR | O_TRUNC);
    fill(db, NEW, 'n');
    int status = 1;
    pid_t child = fork();
    if (!child) {
        WORKS((dbm_close(db), true));
        _exit(bad);
    }
    CHECK(waitpid(child, &status, 0) == child && status == 0 && file_has("t", has_old) && has_new(db));
    WORKS((dbm_close(db), true));
    CHECK(file_has("t", has_new) && !is_there("t.db.new"));
}

/* A commit that the system refuses, at a store or at the closing, leaves the old pairs. */
static void failures(void) {
    const struct rlimit most = {300000, 300000};
    uint32_t count = 0;
    signal(SIGXFSZ, SIG_IGN);
    make_old("t");
    DBM *db = build_or_end("t", O_RDWR | O_TRUNC), *another;
    CHECK(!setrlimit(RLIMIT_FSIZE, &most));
    errno = 0;
    while (count < 20000 && put_filled(db, count, 500, 'n', DBM_REPLACE) == 0) count++;
    CHECK(errno == EFBIG && dbm_error(db) == 2);
    FAILS(EIO, (dbm_close(db), true));
    CHECK(file_has("t", has_old) && !is_there("t.db.new"));
    another = build_or_end("t", O_RDWR | O_TRUNC);
    for (uint32_t i = 0; i < 900; i++) CHECK(put_filled(another, i, 500, 'n', DBM_REPLACE) == 0);
    FAILS(EFBIG, (dbm_close(another), true));
    CHECK(file_has("t", has_old) && !is_there("t.db.new"));
    another = build_or_end("t", O_RDWR | O_TRUNC);
    CHECK(put_filled(another, 0, 1, 'n', DBM_REPLACE) == 0 && !rename("t.db", "moved.db") && !mkdir("t.db", 0755));
    FAILS(EISDIR, (dbm_close(another), true));
    CHECK(!rmdir("t.db") && !rename("moved.db", "t.db") && file_has("t", has_old) && !is_there("t.db.new"));
}

/* Somebody who opens the file again and again, to read it, with no wait, up to the end of the input. */
static void read_on(int from) {
    fcntl(from, F_SETFL, O_NONBLOCK);
    unsigned old = 0, new = 0;
    for (char byte; read(from, &byte, 1) < 0;) {
        DBM *db = dbmx_open("t", O_RDONLY, 0, &at_once, NULL);
        if (!CHECK(db != NULL)) continue;
        bool is_new = has_new(db);
        CHECK(is_new || has_old(db));
        new += is_new;
        old += !is_new;
        dbm_close(db);
    }
    CHECK(old + new > 2);
    _exit(bad);
}

/* Builds, one after another, refuse no reader. */
static void beside_readers(void) {
    int ends[2], status = 1;
    make_old("t");
    if (pipe(ends)) exit(2);
    pid_t child = fork();
    if (!child) read_on(ends[0]);
    for (int i = 0; i < BUILDS; i++) {
        DBM *db = build_or_end("t", O_RDWR | O_TRUNC);
        fill(db, i % 2 ? OLD : NEW, i % 2 ? 'o' : 'n');
        WORKS((dbm_close(db), true));
    }
    CHECK(write(ends[1], "", 1) == 1 && waitpid(child, &status, 0) == child && status == 0);
    close(ends[0]), close(ends[1]);
}

/* where the environment asks for it */
static void by_environment(void) {
    make_old("t");
    setenv("KUMQUATFEN_BUILD", "1", 1);
    DBM *db = open_or_end("t", O_RDWR | O_CREAT | O_TRUNC);
    CHECK(is_open_file(dbm_pagfno(db), "t.db") && is_there("t.db.new") && file_has("t", has_old));
    dbm_close(db);
    unsetenv("KUMQUATFEN_BUILD");
    CHECK(pairs_in("t") == 0);
    make_old("t");
    db = open_or_end("t", O_RDWR | O_CREAT | O_TRUNC);
    CHECK(is_open_file(dbm_pagfno(db), "t.db") && !is_there("t.db.new"));
    dbm_close(db);
}

int main(void) {
    int before = open_descriptors();
    /* a wait that doesn't end ends the program */
    alarm(300);
    readers();
    writers();
    likeness();
    given();
    what_is_left();
    others();
    places();
    unclosed();
    apart(failures);
    beside_readers();
    by_environment();
    CHECK(open_descriptors() == before);
    return bad;
}
