/* Serves the database of the crate ndbm_c by a file: opens and closes it, and begins and ends the calls of it. No proof covers what is
 * here. */
#define _GNU_SOURCE
#include <errno.h>
#include <unistd.h>

#include "parts.h"

/* errno for a fault. For one of the device it is the system's own number; where there is none, the device had no memory to list
 * a change. */
static int errno_for(int fault, int system) {
    static const int numbers[] = {0,      ENOMEM, ENOMEM, EIO,    EPERM,  EINVAL, ENOSPC, EINVAL,
                                  ENOSPC, EIO,    EINVAL, EINVAL, ENOSPC, EINVAL, ENOENT, EEXIST};
    if (fault == DEVICE && system > 0) return system;
    return fault > 0 && fault < (int)(sizeof numbers / sizeof *numbers) ? numbers[fault] : EIO;
}

/* The number of errno where an export stopped within a change, or 0. Where it tells a fault of the device and the system refused
 * nothing, it found no memory to list a write or a sync. A database in which that happened tells from then on that it is in doubt. */
static int cut_short(const struct served *it, int32_t status) {
    if (status == -BROKEN) return EIO;
    return status == -DEVICE && !it->system ? ENOMEM : 0;
}

/* Carries out what an export that answered this status has listed, but nothing of a change that was cut short, which the file then
 * hasn't: 0, or the number of errno. */
static int carry_out_whole(struct served *it, int32_t status) {
    int error = cut_short(it, status);
    return error ? error : ndbm_carry_out(it);
}

int ndbm_served_holds(struct served *it, const struct how *how) {
    const struct served_file file = {ndbm_c_file_sectors()};
    int32_t status;
    it->reading = OF_OPENING;
    it->misses = 0;
    it->given = 0;
    it->system = 0;
    if (ndbm_c_begin(&it->handle, file)) {
        errno = ENOMEM;
        return MEMORY;
    }
    do {
        status = ndbm_c_open(&it->handle, how);
    } while (ndbm_served_again(it, status));
    int error = carry_out_whole(it, status);
    if (!status && !error) return 0;
    ndbm_c_drop(&it->handle);
    int fault = error && status != -BROKEN ? DEVICE : -status;
    errno = errno_for(fault, error ? error : it->system);
    return fault == DEVICE && errno == ENOMEM ? MEMORY : fault;
}

int ndbm_served_open(struct served *it, int fd, const struct how *how) {
    *it = (struct served){.handle = {NULL, false}, .fd = fd};
    int fault = ndbm_served_holds(it, how);
    if (fault) ndbm_give_up(fd);
    if (!fault) ndbm_owner_begins(&it->owner);
    return fault;
}

int ndbm_served_shut(struct served *it) {
    int error = it->is_dead ? EIO : 0;
    if (!it->is_dead) {
        it->given = 0;
        it->system = 0;
        int32_t status = ndbm_c_close(&it->handle);
        error = carry_out_whole(it, status);
        if (!error && status < 0) error = errno_for(-status, 0);
        if (!error) ndbm_turn_ends(&it->turn, it->fd);
    }
    ndbm_c_drop(&it->handle);
    ndbm_owner_ends(&it->owner);
    return error;
}

void ndbm_served_close(struct served *it) {
    int before = errno, error = ndbm_served_shut(it);
    /* The descriptor is closed also where a signal came. */
    if (close(it->fd) && errno != EINTR && !error) error = ndbm_system_number();
    errno = error ? error : before;
}

void ndbm_served_leave(struct served *it) {
    ndbm_c_drop(&it->handle);
    ndbm_owner_ends(&it->owner);
    ndbm_give_up(it->fd);
}

void ndbm_served_dies(struct served *it) {
    int fault = ndbm_served_error(it);
    it->fault = fault ? fault : BROKEN;
    it->is_dead = true;
}

bool ndbm_served_begins(struct served *it, enum reading reading, bool changes) {
    int before = errno;
    if (it->is_dead) {
        if (!it->fault) it->fault = BROKEN;
        errno = EIO;
        return false;
    }
    if (it->shared && !ndbm_shared_begins(it, changes)) return false;
    it->before = before;
    it->was_clear = !ndbm_c_error(&it->handle);
    it->reading = reading;
    it->misses = 0;
    it->given = 0;
    it->system = 0;
    return true;
}

bool ndbm_served_again(struct served *it, int32_t status) {
    uint32_t sector = 0;
    if (status != -DEVICE || !ndbm_c_lacks(&it->handle, &sector)) {
        it->misses = 0;
        return false;
    }
    enum miss miss = it->shared ? ndbm_shared_misses(it) : IS_GIVEN;
    if (miss != IS_GIVEN) return miss == IS_ANEW;
    it->system = ndbm_give_lacked(it, sector);
    if (it->system) return false;
    ndbm_served_forgets(it);
    return true;
}

/* Forgets the sector that the call lacked and wasn't given, which else would be taken for a miss of a later call. All that was listed
 * is carried out. */
static void forget_lacked(struct served *it) {
    uint32_t sector = 0;
    if (ndbm_c_lacks(&it->handle, &sector)) ndbm_c_carried_out(&it->handle);
}

int32_t ndbm_served_ends(struct served *it, int32_t status) {
    int fault = ndbm_c_error(&it->handle), error = carry_out_whole(it, status);
    if (error) {
        it->is_dead = !it->shared;
        if (!it->fault) it->fault = fault > 0 ? fault : DEVICE;
        it->system = error;
        status = -DEVICE;
    } else if (status < 0 || it->reading == OF_GROUP) {
        forget_lacked(it);
    }
    /* A fault that the crate doesn't keep is kept here: that of a file which was looked through, or of a pair to be added. */
    if (status < 0 && !fault && !it->fault) it->fault = -status;
    if (it->shared) ndbm_shared_ends(it, status == -DEVICE || status == -BROKEN);
    errno = status < 0 ? errno_for(-status, it->system) : it->before;
    return status;
}

int32_t ndbm_served_fetch(struct served *it, datum key, unsigned char *content, size_t *length) {
    int32_t status;
    do {
        status = ndbm_c_fetch(&it->handle, bytes_of(key), key.dsize, content, length);
    } while (ndbm_served_again(it, status));
    return status;
}

void ndbm_served_forgets(struct served *it) {
    if (it->was_clear) ndbm_c_clearerr(&it->handle);
}

int ndbm_served_error(struct served *it) {
    int32_t fault = it->is_dead || it->fault ? it->fault : ndbm_c_error(&it->handle);
    return fault > 0 ? fault : 0;
}

int ndbm_served_clearerr(struct served *it) {
    it->fault = 0;
    if (!it->is_dead && it->handle.is_open) ndbm_c_clearerr(&it->handle);
    return 0;
}

void ndbm_served_keeps(struct served *it, int fault) {
    if (!ndbm_served_error(it)) it->fault = fault;
}
