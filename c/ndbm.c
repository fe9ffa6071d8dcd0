/* The functions of ndbm.h, over those that the crate ndbm_c exports. No proof covers what is here: it looks at the arguments,
 * and keeps the bytes that a caller is given. */
#define _GNU_SOURCE
#include "ndbm.h"

#include <errno.h>
#include <fcntl.h>
#include <stdalign.h>
#include <stdlib.h>
#include <string.h>
#include <unistd.h>

#include "parts.h"

enum { LIMIT = 1000000, MOST_PAGES = 65536 };

/* for how many seconds an opening waits where nobody says it, and a call of a shared handle */
enum { WAIT = 5, WAIT_OF_A_CALL = 10 };

/* The room for a content is the last part. It is written no further than the longest content that was given, so that the system
 * need not have memory for the rest of it. */
struct ndbm_database {
    struct served served;
    struct building building;
    struct aside aside;
    bool writable, is_locked;
    /* The descriptor that dbm_dirfno gives: that of FILE.dir, or of a file that stands in for it, which is made at its first call; -1
     * where there is neither. A stand-in tells what was so of the file before an opening for writing wrote to it. */
    int dir;
    struct stat file;
    /* what was given last by dbm_firstkey or dbm_nextkey, and by dbm_fetch */
    alignas(max_align_t) unsigned char key[KEY_ROOM];
    alignas(max_align_t) unsigned char content[CONTENT_ROOM];
};

static int misuse(void) {
    errno = EINVAL;
    return -1;
}

/* Whether there is a database, and this process opened it. In a child that fork made it isn't the child's, unless it is shared. */
static bool is_own(const DBM *db) {
    return db && (db->served.shared || ndbm_owner_is_here(&db->served.owner));
}

/* A program makes FILE.pag and FILE.dir itself, where it has two files, and then has the first one emptied: one of no bytes is taken. */
static bool creates(int flags) {
    return (flags & O_CREAT) || ((flags & O_TRUNC) && ndbm_environment_has_two_names());
}

static struct how how_of(int flags, const dbmx_how *how) {
    return (struct how){.writable = ndbm_file_is_written(flags),
                        .create = creates(flags),
                        .exclusive = (flags & O_CREAT) && (flags & O_EXCL),
                        .truncate = flags & O_TRUNC,
                        .first_version = how->options & DBMX_VERSION_1,
                        .limit = how->limit ? how->limit : LIMIT,
                        .kept_pages = how->options & DBMX_PAGES ? how->pages : 0};
}

/* what open_in_place answers where the file has bytes meanwhile, and is to be built beside it */
enum { OVERTAKEN = -1 };

/* Opens the file that has the path: the number of the fault, or 0; errno says the same. */
static int open_in_place(DBM *db, const struct asked *asked, mode_t mode, const dbmx_how *how) {
    bool builds = how->options & DBMX_BUILD;
    int fd = ndbm_file_open(asked->path, asked->flags, mode, how, &db->file);
    if (fd < 0) return ndbm_fault_of(errno, asked->flags);
    if (builds && ndbm_aside_is_wanted(asked->path, asked->flags)) {
        close(fd);
        return OVERTAKEN;
    }
    builds = builds && ndbm_turn_is_made(fd, &asked->how);
    if (how->options & DBMX_SHARED) return ndbm_shared_open(&db->served, fd, &db->file, asked);
    int fault = ndbm_served_open(&db->served, fd, &asked->how);
    if (!fault && builds) ndbm_building_begins(&db->building, &asked->how);
    return fault;
}

/* the same of a database that is built beside the file */
static int open_aside(DBM *db, const struct asked *asked) {
    int fault = ndbm_aside_open(&db->aside, &db->served, asked, &db->file);
    if (!fault) ndbm_building_begins(&db->building, &asked->how);
    return fault;
}

static int open_path(DBM *db, const char *path, int flags, mode_t mode, const dbmx_how *how) {
    const struct asked asked = {path, flags, how->wait, how_of(flags, how)};
    int fault;
    db->writable = asked.how.writable;
    db->is_locked = !(how->options & DBMX_UNLOCKED);
    do {
        bool is_aside = (how->options & DBMX_BUILD) && ndbm_aside_is_wanted(path, flags);
        fault = is_aside ? open_aside(db, &asked) : open_in_place(db, &asked, mode, how);
    } while (fault == OVERTAKEN);
    return fault;
}

static int open_database(DBM *db, const char *file, int flags, mode_t mode, const dbmx_how *how) {
    char *path = ndbm_naming_path(file);
    if (!path) return MEMORY;
    int fault = ndbm_naming_open_dir(file, flags, mode, &db->dir) ? ndbm_fault_of(errno, flags) : open_path(db, path, flags, mode, how);
    if (fault && db->dir >= 0) ndbm_give_up(db->dir);
    int error = errno;
    free(path);
    errno = error;
    return fault;
}

/* whether the options are known and go together, and so many pages may be kept */
static bool is_how(const dbmx_how *how) {
    if (how->options & ~(DBMX_UNLOCKED | DBMX_VERSION_1 | DBMX_PAGES | DBMX_SHARED | DBMX_BUILD)) return false;
    if ((how->options & DBMX_SHARED) && (how->options & (DBMX_UNLOCKED | DBMX_VERSION_1))) return false;
    if ((how->options & DBMX_BUILD) && (how->options & (DBMX_UNLOCKED | DBMX_SHARED))) return false;
    return !(how->options & DBMX_PAGES) || (how->pages && how->pages <= MOST_PAGES);
}

/* how a database is opened where the program doesn't say it */
static dbmx_how plain(void) {
    if (ndbm_environment_shares()) return (dbmx_how){.wait = ndbm_environment_wait(WAIT_OF_A_CALL), .options = DBMX_SHARED};
    return (dbmx_how){.wait = ndbm_environment_wait(WAIT), .options = ndbm_environment_builds() ? DBMX_BUILD : 0};
}

/* What the program says. The member pages is one that it may lack. */
static dbmx_how said(const dbmx_how *how) {
    dbmx_how it = {.limit = how->limit, .wait = how->wait, .options = how->options};
    if (it.options & DBMX_PAGES) it.pages = how->pages;
    if ((it.options & DBMX_SHARED) && !it.wait) it.wait = WAIT_OF_A_CALL;
    return it;
}

static DBM *opened(const char *file, int flags, mode_t mode, const dbmx_how *asked, int *fault) {
    const dbmx_how how = asked ? said(asked) : plain();
    static const int known = O_ACCMODE | O_CREAT | O_EXCL | O_TRUNC | O_APPEND | O_CLOEXEC | O_LARGEFILE | O_NOFOLLOW | O_SYNC |
                             O_DSYNC | O_NONBLOCK | O_NOCTTY | O_NOATIME;
    *fault = 0;
    if (!file || (flags & ~known) || (flags & O_ACCMODE) == O_ACCMODE || !is_how(&how)) {
        misuse();
        return NULL;
    }
    int before = errno;
    DBM *db = malloc(sizeof *db);
    if (db) {
        db->building = (struct building){.is_under_way = false, .kept = NULL};
        db->aside = (struct aside){.is_under_way = false};
    }
    *fault = db ? open_database(db, file, flags, mode, &how) : MEMORY;
    if (!*fault) {
        errno = before;
        return db;
    }
    int error = errno;
    free(db);
    errno = error;
    return NULL;
}

DBM *dbm_open(const char *file, int flags, mode_t mode) {
    int fault;
    return opened(file, flags, mode, NULL, &fault);
}

DBM *dbmx_open(const char *file, int flags, mode_t mode, const dbmx_how *how, int *fault) {
    int number;
    return opened(file, flags, mode, how, fault ? fault : &number);
}

/* Of two failures the first one is told. */
static void close_own(DBM *db) {
    int status = ndbm_building_commits(&db->building, &db->served), error = errno;
    if (db->aside.is_under_way) {
        ndbm_aside_close(&db->aside, &db->served);
    } else {
        ndbm_served_close(&db->served);
    }
    if (status) errno = error;
}

void dbm_close(DBM *db) {
    if (!db) {
        misuse();
        return;
    }
    if (db->served.shared) {
        ndbm_shared_close(&db->served);
    } else if (is_own(db)) {
        close_own(db);
    } else {
        ndbm_served_leave(&db->served);
        ndbm_aside_leave(&db->aside);
    }
    int error = errno;
    ndbm_building_ends(&db->building);
    if (db->dir >= 0) close(db->dir);
    free(db);
    errno = error;
}

/* whether a call may begin that reads this, behind the pairs that a build has kept; where it may not, errno says why */
static bool begins(DBM *db, enum reading reading, bool changes) {
    return !ndbm_building_commits(&db->building, &db->served) && ndbm_served_begins(&db->served, reading, changes);
}

static datum given(int32_t status, void *at, size_t length) {
    return status ? (datum){NULL, 0} : (datum){at, length};
}

/* The status of a fetch into the room for a content, within a call, where the key may lie in the room. Of such a key there is a copy,
 * since it is read while the content is written. */
static int32_t fetch_apart(struct served *served, datum key, unsigned char *content, size_t *length) {
    uintptr_t from = (uintptr_t)key.dptr, room = (uintptr_t)content;
    if (!key.dsize || from >= room + CONTENT_ROOM || room >= from + key.dsize) return ndbm_served_fetch(served, key, content, length);
    void *copy = malloc(key.dsize);
    if (!copy) return -MEMORY;
    memcpy(copy, key.dptr, key.dsize);
    int32_t status = ndbm_served_fetch(served, (datum){copy, key.dsize}, content, length);
    free(copy);
    return status;
}

datum dbm_fetch(DBM *db, datum key) {
    size_t length = 0;
    if (!is_own(db) || !is_datum(key)) return given(misuse(), NULL, 0);
    if (!begins(db, OF_PAIR, false)) return given(-1, NULL, 0);
    int32_t status = fetch_apart(&db->served, key, db->content, &length);
    return given(ndbm_served_ends(&db->served, status), db->content, length);
}

/* the next key of the pass, or the first one of a new pass */
static datum next_of_pass(DBM *db, bool is_first) {
    size_t length = 0;
    int32_t status;
    if (!is_own(db)) return given(misuse(), NULL, 0);
    if (!begins(db, OF_FILE, false)) return given(-1, NULL, 0);
    is_first = is_first || ndbm_shared_begins_pass(&db->served);
    do {
        status = (is_first ? ndbm_c_firstkey : ndbm_c_nextkey)(&db->served.handle, db->key, &length);
    } while (ndbm_served_again(&db->served, status));
    ndbm_shared_passed(&db->served, is_first, status, db->key, length);
    return given(ndbm_served_ends(&db->served, status), db->key, length);
}

datum dbm_firstkey(DBM *db) {
    return next_of_pass(db, true);
}

datum dbm_nextkey(DBM *db) {
    return next_of_pass(db, false);
}

int dbm_store(DBM *db, datum key, datum content, int store_mode) {
    const dbmx_pair pair = {key, content};
    bool replace = store_mode == DBM_REPLACE;
    if (!is_own(db) || (store_mode != DBM_INSERT && store_mode != DBM_REPLACE)) return misuse();
    if (!is_datum(key) || !is_datum(content)) return misuse();
    if (!db->building.is_under_way) return ndbm_store_one(&db->served, &pair, replace);
    return ndbm_building_store(&db->building, &db->served, &pair, replace);
}

int dbm_delete(DBM *db, datum key) {
    int32_t status;
    if (!is_own(db) || !is_datum(key)) return misuse();
    if (!begins(db, OF_PAIR, true)) return -1;
    do {
        status = ndbm_c_delete(&db->served.handle, bytes_of(key), key.dsize);
    } while (ndbm_served_again(&db->served, status));
    status = ndbm_served_ends(&db->served, status);
    if (status > 0) errno = ENOENT;
    return status ? -1 : 0;
}

/* Pairs that are kept are stored before it, so that it tells the fault of that too. */
int dbm_error(DBM *db) {
    if (!is_own(db)) return misuse();
    int before = errno;
    ndbm_building_commits(&db->building, &db->served);
    errno = before;
    return ndbm_served_error(&db->served);
}

int dbm_clearerr(DBM *db) {
    return is_own(db) ? ndbm_served_clearerr(&db->served) : misuse();
}

/* It is that of the file that has the name, also where another one is built beside it: programs compare the two. */
int dbm_pagfno(DBM *db) {
    if (!is_own(db)) return misuse();
    return db->aside.is_under_way ? ndbm_aside_named(&db->aside) : db->served.fd;
}

/* Where there is no FILE.dir, it is the file's descriptor of a file that the library doesn't lock. */
int dbm_dirfno(DBM *db) {
    if (!is_own(db)) return misuse();
    if (db->dir < 0 && !db->is_locked) return db->served.fd;
    int before = errno;
    if (db->dir < 0) db->dir = ndbm_file_stand_in(&db->file);
    if (db->dir >= 0) errno = before;
    return db->dir;
}

int dbm_rdonly(DBM *db) {
    return is_own(db) ? !db->writable : misuse();
}

/* a call by an export that has no arguments, and changes something or only reads: its number, or -1 */
static int call(DBM *db, int32_t (*export)(struct handle *), bool changes) {
    int32_t status;
    if (!is_own(db)) return misuse();
    if (!begins(db, OF_FILE, changes)) return -1;
    do {
        status = export(&db->served.handle);
    } while (ndbm_served_again(&db->served, status));
    status = ndbm_served_ends(&db->served, status);
    return status < 0 ? -1 : status;
}

int dbmx_sync(DBM *db) {
    return call(db, ndbm_c_sync, true);
}

int dbmx_store_many(DBM *db, const dbmx_pair *pairs, size_t count, size_t *stored) {
    size_t done = 0;
    if (stored) *stored = 0;
    if (!is_own(db) || (!pairs && count)) return misuse();
    if (ndbm_building_commits(&db->building, &db->served)) return -1;
    int status = ndbm_store_list(&db->served, pairs, count, &done);
    if (stored) *stored = done;
    return status;
}

int dbmx_stat(DBM *db, dbmx_numbers *numbers) {
    int32_t status;
    if (!is_own(db) || !numbers) return misuse();
    if (!begins(db, OF_FILE, false)) return -1;
    do {
        status = ndbm_c_stat(&db->served.handle, numbers);
    } while (ndbm_served_again(&db->served, status));
    return ndbm_served_ends(&db->served, status) ? -1 : 0;
}

int dbmx_verify(DBM *db) {
    return call(db, ndbm_c_verify, false);
}

int dbmx_version(DBM *db) {
    return call(db, ndbm_c_version, false);
}

int dbmx_upgrade(DBM *db) {
    return call(db, ndbm_c_upgrade, true);
}

const char *dbmx_error_text(int fault) {
    static const char *const texts[] = {
        "no fault", "out of memory",
        "the system failed to read, write, sync or open the file, or another program has it open", "a change is in doubt",
        "opened for reading only", "the pair is too long", "the database is full", "no pass was begun",
        "no room in the file", "the file is damaged", "not a database", "unknown version",
        "the device is too small", "the limit is out of range", "no such database", "the database exists",
    };
    return fault >= 0 && fault < (int)(sizeof texts / sizeof *texts) ? texts[fault] : "unknown fault";
}
