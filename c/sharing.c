/* Handles that share their file: each call of one is a period with a lock of its own, or is answered of the pages that are kept, with no
 * lock. Between two calls such a handle holds no lock, writes nothing and closes nothing: what others have overtaken is dropped. */
#define _GNU_SOURCE
#include <errno.h>
#include <fcntl.h>
#include <stdlib.h>
#include <string.h>
#include <unistd.h>

#include "parts.h"

/* Opens the database that the file has now, in the place of the one that is held: 0, or the number of the fault, with errno. */
static int hold_anew(struct served *it, const struct how *how) {
    struct shared *shared = it->shared;
    enum reading reading = it->reading;
    it->fault = ndbm_served_error(it);
    ndbm_c_drop(&it->handle);
    shared->is_current = false;
    int fault = ndbm_served_holds(it, how);
    it->reading = reading;
    it->was_clear = true;
    if (fault) {
        ndbm_served_keeps(it, fault);
        return fault;
    }
    if (shared->pass == BEHIND) ndbm_c_resume(&it->handle, shared->last, shared->last_size);
    shared->is_current = true;
    shared->is_writing = how->writable;
    return 0;
}

/* Begins a period, and keeps the fault where there is none: 0, or -1 with errno. */
static int begin(struct served *it, bool alone) {
    if (!ndbm_period_begins(it, alone)) return 0;
    ndbm_served_keeps(it, ndbm_fault_of(errno, it->shared->flags));
    return -1;
}

/* The database as the file has it, within a period: 0, or the number of the fault, with errno. */
static int hold_current(struct served *it) {
    const struct shared *shared = it->shared;
    struct how how = shared->how;
    how.writable = shared->held == ALONE;
    if (shared->is_current && (shared->is_writing || !how.writable)) return 0;
    return hold_anew(it, &how);
}

bool ndbm_shared_begins(struct served *it, bool changes) {
    bool alone = changes && it->shared->how.writable;
    if (!alone && ndbm_period_is_spared(it)) return true;
    if (begin(it, alone)) return false;
    if (!hold_current(it)) return true;
    int error = errno;
    ndbm_shared_ends(it, true);
    errno = error;
    return false;
}

enum miss ndbm_shared_misses(struct served *it) {
    struct shared *shared = it->shared;
    if (shared->held != NOTHING) return IS_GIVEN;
    /* To lack a sector is no fault of the database. */
    if (!begin(it, false)) {
        if (shared->is_current) return IS_GIVEN;
        ndbm_served_forgets(it);
        if (!hold_current(it)) return IS_ANEW;
    }
    it->system = ndbm_system_number();
    return IS_REFUSED;
}

void ndbm_shared_ends(struct served *it, bool is_cut_short) {
    if (is_cut_short) {
        it->shared->is_current = false;
        ndbm_turn_is_left(&it->turn);
    }
    ndbm_period_ends(it);
}

bool ndbm_shared_begins_pass(const struct served *it) {
    return it->shared && it->shared->pass == BEGUN;
}

void ndbm_shared_passed(struct served *it, bool is_first, int32_t status, const unsigned char *key, size_t length) {
    struct shared *shared = it->shared;
    if (!shared) return;
    if (status == 1 && is_first) shared->pass = BEGUN;
    if (status) return;
    shared->pass = BEHIND;
    shared->last_size = length;
    memcpy(shared->last, key, length);
}

/* The first period of a handle. Where it makes nothing it only reads, so that many may be opened at once. */
static int hold_first(struct served *it, const struct how *asked) {
    struct how how = *asked;
    how.writable = ndbm_turn_is_made(it->fd, asked);
    if (begin(it, how.writable)) return it->fault;
    int fault = hold_anew(it, &how), error = errno;
    ndbm_shared_ends(it, fault != 0);
    errno = error;
    return fault;
}

/* What a handle has before its first period, or null with errno. */
static struct shared *made_shared(int fd, const struct stat *file, const struct asked *asked) {
    struct shared *shared = malloc(sizeof *shared);
    if (!shared) return NULL;
    *shared = (struct shared){.flags = asked->flags & ~(O_CREAT | O_EXCL | O_TRUNC), .wait = asked->wait, .place = ndbm_place_of(fd)};
    shared->how = asked->how;
    shared->how.create = shared->how.exclusive = shared->how.truncate = false;
    if (!ndbm_name_begins(&shared->name, asked->path, file)) return shared;
    int error = errno;
    free(shared);
    errno = error;
    return NULL;
}

int ndbm_shared_open(struct served *it, int fd, const struct stat *file, const struct asked *asked) {
    *it = (struct served){.handle = {NULL, false}, .fd = fd, .shared = made_shared(fd, file, asked)};
    if (!it->shared) {
        ndbm_give_up(fd);
        return ndbm_fault_of(errno, asked->flags);
    }
    ndbm_owner_begins(&it->owner);
    int fault = hold_first(it, &asked->how);
    if (fault) ndbm_shared_close(it);
    return fault;
}

void ndbm_shared_close(struct served *it) {
    int before = errno;
    ndbm_c_drop(&it->handle);
    ndbm_owner_ends(&it->owner);
    ndbm_period_forgets(it->shared);
    ndbm_name_ends(&it->shared->name);
    free(it->shared);
    close(it->fd);
    errno = before;
}
