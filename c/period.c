/* Periods of a shared handle. A period is a call that has the lock: nobody else writes the file meanwhile. At its beginning the handle
 * looks whether the file still has the name, whether it is one of the second kind, and by its turn whether anybody has written.
 *
 *     the turn, and where it is looked at      what a handle does that knows this turn       one that knows another turn
 *
 *     even, without the lock                   answers of the pages that it keeps            locks
 *     odd, without the lock                    locks                                         locks
 *     even, under the lock                     goes on with its database                     opens the database anew
 *     odd, under the lock: a writer died,      goes on with its database, to read            syncs, to read, and opens the
 *     or was refused                                                                         database anew
 *
 * Who writes has an opening for writing, which syncs what was left before anything else, and changes the turn before its first write
 * (turn.c). So two odd turns that are the same have the same writer's remains below them, and a reader syncs them once.
 *
 * A program that knows no turn, as one from before it, changes the file's times. So these are compared too, under the lock and once a second. */
#define _GNU_SOURCE
#include <endian.h>
#include <errno.h>
#include <fcntl.h>
#include <stdatomic.h>
#include <string.h>
#include <sys/mman.h>
#include <unistd.h>

#include "parts.h"

/* how much of a file is mapped: what its first bytes are in, which is never cut off */
enum { MAPPED = 4096 };

static void map_head(struct served *it) {
    struct shared *shared = it->shared;
    if (shared->head || shared->place != NEAR) return;
    void *head = mmap(NULL, MAPPED, PROT_READ, MAP_SHARED, it->fd, 0);
    if (head != MAP_FAILED) shared->head = head;
}

void ndbm_period_forgets(struct shared *shared) {
    if (shared->head) munmap(shared->head, MAPPED);
    shared->head = NULL;
}

/* Opens the file that has the name, under the number of the descriptor that there is: 0, or -1 with errno. */
static int open_anew(struct served *it) {
    struct shared *shared = it->shared;
    struct stat file;
    int fd = ndbm_file_open_named(shared->name.folder, shared->name.text, shared->flags, &file);
    if (fd < 0) return -1;
    if (dup3(fd, it->fd, O_CLOEXEC) < 0) return ndbm_give_up(fd);
    close(fd);
    if (ndbm_name_is_of(&shared->name, &file)) return 0;
    ndbm_period_forgets(shared);
    shared->place = ndbm_place_of(it->fd);
    shared->is_current = false;
    shared->synced = 0;
    ndbm_name_notes(&shared->name, &file);
    return 0;
}

/* A lock is of an opening of the file. One that a child has of its parent would be the parent's lock too, so it takes an opening of
 * its own. */
static int be_owner(struct served *it) {
    if (ndbm_owner_is_here(&it->owner)) return 0;
    if (open_anew(it)) return -1;
    ndbm_owner_ends(&it->owner);
    ndbm_owner_begins(&it->owner);
    return 0;
}

/* which second this is */
static time_t second(void) {
    struct timespec now;
    clock_gettime(CLOCK_MONOTONIC_COARSE, &now);
    return now.tv_sec;
}

/* the file that has the name now: 0, or -1 with errno */
static int look_at_name(const struct shared *shared, struct stat *file) {
    return fstatat(shared->name.folder, shared->name.text, file, 0);
}

static int give_back(struct served *it) {
    ndbm_lock_give_back(it->fd);
    it->shared->held = NOTHING;
    return -1;
}

/* Locks the file that has the name: 0, or -1 with errno. */
static int lock_named(struct served *it, bool alone, struct stat *file) {
    struct shared *shared = it->shared;
    uint64_t until = ndbm_until(shared->wait);
    for (;;) {
        if (ndbm_lock_take(it->fd, alone, shared->place != FAR, until)) return -1;
        shared->held = alone ? ALONE : TOGETHER;
        if (look_at_name(shared, file)) return give_back(it);
        if (ndbm_name_is_of(&shared->name, file)) break;
        give_back(it);
        if (open_anew(it)) return -1;
    }
    shared->looked = second();
    return 0;
}

/* Syncs what a writer left that died, once for each. */
static int sync_remains(struct served *it, uint64_t turn, bool is_unknown) {
    bool is_left = turn & 1 && turn != it->shared->synced;
    if (!is_left && !is_unknown) return 0;
    int error = ndbm_bytes_sync(it->fd);
    if (error) {
        errno = error;
        return -1;
    }
    it->shared->synced = turn;
    return 0;
}

/* Looks whether anybody has written, under the lock: 0, or -1 with errno. */
static int look_at_turn(struct served *it, const struct stat *file) {
    struct shared *shared = it->shared;
    struct head head;
    if (ndbm_turn_look(it->fd, &head)) return -1;
    if (head.kind == FIRST_KIND) {
        errno = ENOTSUP;
        return -1;
    }
    bool is_known = head.turn == it->turn.number, is_unwritten = ndbm_name_is_unwritten(&shared->name, file);
    if (!is_known || !is_unwritten) shared->is_current = false;
    if (shared->held == TOGETHER && sync_remains(it, head.turn, is_known && !is_unwritten)) return -1;
    it->turn.number = head.turn;
    ndbm_name_notes(&shared->name, file);
    if (head.kind == SECOND_KIND) map_head(it);
    return 0;
}

int ndbm_period_begins(struct served *it, bool alone) {
    struct stat file;
    if (be_owner(it) || lock_named(it, alone, &file)) return -1;
    if (!look_at_turn(it, &file)) return 0;
    it->shared->is_current = false;
    return give_back(it);
}

/* The turn without the lock. All eight bytes are read at once from the mapping. */
static bool turn_is(const struct served *it, uint64_t number) {
    const struct shared *shared = it->shared;
    struct head head;
    if (!shared->head) return !ndbm_turn_look(it->fd, &head) && head.turn == number;
    const _Atomic uint64_t *turn = (const _Atomic uint64_t *)(const void *)((const char *)shared->head + HEAD - sizeof *turn);
    return be64toh(atomic_load(turn)) == number;
}

/* Whether the name was looked at in this second, or has the file still, which nobody wrote to without the turn. */
static bool is_looked_at(struct shared *shared) {
    struct stat file;
    time_t now = second();
    if (now == shared->looked) return true;
    if (look_at_name(shared, &file)) return false;
    if (!ndbm_name_is_of(&shared->name, &file) || !ndbm_name_is_unwritten(&shared->name, &file)) return false;
    shared->looked = now;
    return true;
}

bool ndbm_period_is_spared(struct served *it) {
    struct shared *shared = it->shared;
    if (!shared->is_current || it->turn.number & 1 || shared->place == FAR) return false;
    return is_looked_at(shared) && turn_is(it, it->turn.number);
}

/* Behind a period the times are those of its last write. */
void ndbm_period_ends(struct served *it) {
    struct shared *shared = it->shared;
    struct stat file;
    if (shared->held == NOTHING) return;
    if (it->turn.is_odd) {
        ndbm_turn_ends(&it->turn, it->fd);
        if (!fstat(it->fd, &file)) ndbm_name_notes(&shared->name, &file);
    }
    give_back(it);
}
