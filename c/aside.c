/* A database that is built in a file beside the one whose place it takes: FILE.db.new in the folder of FILE.db.
 *
 *     dbm_open                           stores, fetches, ..         dbm_close
 *
 *     FILE.db.new is made, and      ->   the new file is        ->   it is closed and synced, gets the name FILE.db, and
 *     FILE.db locked for reading         written, and the old        the folder is synced
 *        |                               one is read
 *        | refused                          |                           | a commit or a call of the system was refused
 *        v                                  | the program is stopped    v
 *     FILE.db.new is removed,               v                        FILE.db.new is removed, and FILE.db stays
 *     and FILE.db stays                  FILE.db.new is left there, which the next build removes, and FILE.db stays
 *
 * One process has the file beside at a time: the one that made it under its name and has it locked alone. It is removed by a process alone
 * that has it so, as crates/dbm_aside/src/aside.rt does too. So a file that was renamed meanwhile, or made by another process, stays. */
#define _GNU_SOURCE
#include <errno.h>
#include <fcntl.h>
#include <stdio.h>
#include <stdlib.h>
#include <string.h>
#include <unistd.h>

#include "parts.h"

bool ndbm_aside_is_wanted(const char *path, int flags) {
    struct stat it;
    if (!ndbm_file_is_written(flags) || !(flags & O_TRUNC) || ((flags & O_CREAT) && (flags & O_EXCL))) return false;
    return !stat(path, &it) && S_ISREG(it.st_mode) && it.st_size > 0;
}

/* Whether an open file has this name in the folder, which is no link then. */
static bool is_under(const struct aside *it, int fd, const char *name) {
    struct stat open, found;
    if (fstat(fd, &open) || fstatat(it->folder, name, &found, AT_SYMLINK_NOFOLLOW)) return false;
    return open.st_dev == found.st_dev && open.st_ino == found.st_ino;
}

/* Removes the name of the file beside, where this process has it locked alone and it has that name still. */
static int remove_locked(const struct aside *it, int fd) {
    if (ndbm_lock_at_once(fd, true)) return -1;
    return is_under(it, fd, it->beside) ? unlinkat(it->folder, it->beside, 0) : 0;
}

/* Removes what a build left that was stopped: 0, or -1 with errno, which is EWOULDBLOCK where another process has it. */
static int remove_left(const struct aside *it) {
    struct stat file;
    int left = ndbm_file_open_named(it->folder, it->beside, O_RDWR | O_NOFOLLOW, &file);
    if (left < 0) return errno == ENOENT ? 0 : -1;
    int status = remove_locked(it, left);
    ndbm_give_up(left);
    return status;
}

/* Makes the file beside, which only its owner may read yet: its descriptor, or -1 with errno. */
static int make_beside(const struct aside *it, int flags) {
    if (remove_left(it)) return -1;
    int fd = ndbm_file_make_named(it->folder, it->beside, flags);
    if (fd < 0 && errno == EEXIST) errno = EWOULDBLOCK;
    if (fd < 0 || ndbm_lock_at_once(fd, true)) return fd < 0 ? -1 : ndbm_give_up(fd);
    if (is_under(it, fd, it->beside)) return fd;
    errno = EWOULDBLOCK;
    return ndbm_give_up(fd);
}

/* Opens the old file and locks it together with those who read it: 0, or -1 with errno. */
static int lock_old(struct aside *it, int flags, bool waits, struct stat *file) {
    it->old = ndbm_file_open_named(it->folder, it->name, flags, file);
    if (it->old < 0) return -1;
    int status = ndbm_file_lock(it->old, false, waits);
    if (!status && is_under(it, it->old, it->name)) return 0;
    if (!status) errno = EWOULDBLOCK;
    it->old = ndbm_give_up(it->old);
    return -1;
}

/* Gives a file the owner, the group and the mode of another one. */
static int own_as(int fd, const struct stat *like) {
    static const uid_t no_user = (uid_t)-1;
    static const gid_t no_group = (gid_t)-1;
    struct stat it;
    if (fstat(fd, &it)) return -1;
    uid_t user = it.st_uid == like->st_uid ? no_user : like->st_uid;
    gid_t group = it.st_gid == like->st_gid ? no_group : like->st_gid;
    if ((user != no_user || group != no_group) && fchown(fd, user, group)) return -1;
    return fchmod(fd, like->st_mode & 0777);
}

/* One try to have both files: the descriptor of the one beside, or -1 with errno, and nothing is left then. */
static int try_once(struct aside *it, const struct asked *asked, struct stat *file) {
    int fd = make_beside(it, asked->flags);
    if (fd < 0) return -1;
    if (!lock_old(it, asked->flags, asked->wait, file) && !own_as(fd, file)) return fd;
    int error = errno;
    if (it->old >= 0) it->old = ndbm_give_up(it->old);
    remove_locked(it, fd);
    errno = error;
    return ndbm_give_up(fd);
}

static int try_until(struct aside *it, const struct asked *asked, struct stat *file) {
    uint64_t until = ndbm_until(asked->wait);
    for (;;) {
        uint64_t began = ndbm_now();
        int fd = try_once(it, asked, file);
        if (fd >= 0 || !ndbm_file_is_tried_again(began, until)) return fd;
    }
}

/* The path of the file itself, where another one is a link to it that may be followed; null with errno where there is none. */
static char *path_of(const char *path, int flags) {
    struct stat it;
    bool is_link = !(flags & O_NOFOLLOW) && !lstat(path, &it) && S_ISLNK(it.st_mode);
    return is_link ? realpath(path, NULL) : strdup(path);
}

/* Finds the folder and the names: 0, or -1 with errno. */
static int find(struct aside *it, const char *path, int flags) {
    char *whole = path_of(path, flags);
    if (!whole) return -1;
    const char *slash = strrchr(whole, '/');
    it->folder = ndbm_file_open_folder(whole, O_RDONLY);
    it->name = strdup(slash ? slash + 1 : whole);
    it->beside = it->name ? ndbm_naming_joined(it->name, ".new") : NULL;
    int error = errno;
    free(whole);
    errno = error;
    return it->folder < 0 || !it->beside ? -1 : 0;
}

/* The kind of the old file, which is a good database as far as an opening tells: 0, or the number of the fault, with errno. */
static int look_at_old(const struct aside *it, enum kind *kind) {
    static const struct how reading = {.writable = false};
    struct served old = {.handle = {NULL, false}, .fd = it->old};
    struct head head;
    int fault = ndbm_served_holds(&old, &reading);
    if (fault) return fault;
    ndbm_c_drop(&old.handle);
    if (ndbm_turn_look(it->old, &head)) return DEVICE;
    *kind = head.kind;
    return 0;
}

/* Makes a database in a file that has no bytes. */
static int make_database(struct served *served, const struct how *asked, bool first_version) {
    struct how how = *asked;
    how.create = how.exclusive = true;
    how.truncate = false;
    how.first_version = first_version;
    return ndbm_served_holds(served, &how);
}

/* Empties it, as O_TRUNC does. */
static int empty_database(struct served *served, const struct how *asked) {
    struct how how = *asked;
    how.create = how.exclusive = false;
    ndbm_c_drop(&served->handle);
    return ndbm_served_holds(served, &how);
}

/* A database of the old one's kind: 0, or the number of the fault, with errno. A new one has its kind by its version. One that is emptied
 * keeps its kind, and has the version that is asked for. */
static int make_as_old(const struct aside *it, struct served *served, const struct how *asked) {
    enum kind kind = NO_KIND;
    int fault = look_at_old(it, &kind);
    if (!fault) fault = make_database(served, asked, kind == FIRST_KIND);
    if (fault || asked->first_version == (kind == FIRST_KIND)) return fault;
    return empty_database(served, asked);
}

/* Gives back what it has. errno stays. */
static void release(struct aside *it) {
    int before = errno;
    if (it->old >= 0) close(it->old);
    if (it->folder >= 0) close(it->folder);
    free(it->name);
    free(it->beside);
    *it = (struct aside){.is_under_way = false, .folder = -1, .old = -1};
    errno = before;
}

int ndbm_aside_open(struct aside *it, struct served *served, const struct asked *asked, struct stat *file) {
    *it = (struct aside){.is_under_way = true, .folder = -1, .old = -1};
    int fd = find(it, asked->path, asked->flags) ? -1 : try_until(it, asked, file);
    *served = (struct served){.handle = {NULL, false}, .fd = fd};
    int fault = fd < 0 ? ndbm_fault_of(errno, asked->flags) : make_as_old(it, served, &asked->how), error = errno;
    if (!fault) {
        ndbm_owner_begins(&served->owner);
        return 0;
    }
    if (fd >= 0) {
        remove_locked(it, fd);
        close(fd);
    }
    errno = error;
    release(it);
    return fault;
}

/* The old file gets a new time, by which programs that have it open and look at that open its name again. One that can't be had is none. */
static void tell_readers(const struct aside *it) {
    int before = errno;
    if (futimens(it->old, NULL)) errno = before;
}

int ndbm_aside_named(const struct aside *it) {
    return it->old;
}

/* Gives the new file the name of the old one, and its owner, group and mode, which the program may have changed by dbm_pagfno: 0, or the
 * number of errno. From here on its lock lets others read, since it is read under its name at once. */
static int put(const struct aside *it, int fd) {
    struct stat old;
    if (fstat(it->old, &old) || own_as(fd, &old)) return ndbm_system_number();
    int error = ndbm_bytes_sync_all(fd);
    if (error) return error;
    if (ndbm_lock_at_once(fd, false)) return ndbm_system_number();
    if (!is_under(it, fd, it->beside)) return EWOULDBLOCK;
    if (renameat(it->folder, it->beside, it->folder, it->name)) return ndbm_system_number();
    tell_readers(it);
    return ndbm_bytes_sync_all(it->folder);
}

void ndbm_aside_close(struct aside *it, struct served *served) {
    int before = errno, error = ndbm_served_shut(served);
    if (!error) error = put(it, served->fd);
    if (error) remove_locked(it, served->fd);
    close(served->fd);
    release(it);
    errno = error ? error : before;
}

void ndbm_aside_leave(struct aside *it) {
    if (it->is_under_way) release(it);
}
