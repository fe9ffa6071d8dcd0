/* Carries out the writes and syncs that a call of the crate ndbm_c lists. */
#define _GNU_SOURCE
#include <string.h>

#include "parts.h"

/* adjacent sectors that one call writes, and room behind them for one more */
struct run {
    uint32_t first, count;
    unsigned char bytes[(MOVED + 1) * SECTOR];
};

/* whether a run makes the file one of the second kind, where it isn't */
static bool makes_second_kind(const struct run *run) {
    static const unsigned char none[HEAD - SECTOR];
    unsigned char head[HEAD];
    if (run->first) return false;
    memcpy(head, run->bytes, SECTOR);
    memcpy(head + SECTOR, none, sizeof none);
    return ndbm_turn_of(head).kind == SECOND_KIND;
}

/* Writes the sectors of a run, which is empty then: 0, or the system's number. The turn of the file is odd by then. */
static int write_run(struct served *it, struct run *run) {
    if (!run->count) return 0;
    int error = ndbm_turn_begins(&it->turn, it->fd, makes_second_kind(run));
    if (!error) error = ndbm_bytes_write(it->fd, run->bytes, (size_t)SECTOR * run->count, (off_t)run->first * SECTOR);
    if (!error) run->count = 0;
    return error;
}

/* the room behind a run */
static unsigned char *behind(struct run *run) {
    return run->bytes + (size_t)SECTOR * run->count;
}

/* Takes the sector whose bytes are behind a run into it. The run is written first where it has no place for it, and begins with
 * that sector then: 0, or the system's number. */
static int put_in_run(struct served *it, struct run *run, uint32_t sector) {
    if (run->count == MOVED || sector != run->first + run->count) {
        const unsigned char *content = behind(run);
        int error = write_run(it, run);
        if (error) return error;
        run->first = sector;
        memmove(run->bytes, content, SECTOR);
    }
    run->count++;
    return 0;
}

/* Writes a run and syncs the file: 0, or the system's number. */
static int sync_run(struct served *it, struct run *run) {
    int error = write_run(it, run);
    return error ? error : ndbm_bytes_sync(it->fd);
}

/* the last write of a list, up to some change of it */
struct written {
    bool is_there;
    uint32_t sector;
    unsigned char bytes[SECTOR];
};

/* Whether a write repeats the last one. The file has these bytes there then. It is the last one from now on. */
static bool repeats(struct written *last, uint32_t sector, const unsigned char *bytes) {
    if (last->is_there && last->sector == sector && !memcmp(last->bytes, bytes, SECTOR)) return true;
    last->is_there = true;
    last->sector = sector;
    memcpy(last->bytes, bytes, SECTOR);
    return false;
}

/* A write that repeats the last one is left out, and so is a sync with no other write behind the sync before it, since it settles nothing
 * more. An opening that was made again lists such ones. The turn is written by turn.c, so the writes of its sector are left out, by which
 * an opening changes it too. */
int ndbm_carry_out(struct served *it) {
    struct run run;
    struct written written;
    uint32_t sector = 0;
    int32_t change, last = 0;
    int error = 0;
    size_t i = 0;
    run.first = run.count = 0;
    written.is_there = false;
    for (; !error && (change = ndbm_c_listed(&it->handle, i, &sector, behind(&run))) > 0; i++) {
        if (change == WRITE && (sector == TURN_SECTOR || repeats(&written, sector, behind(&run)))) continue;
        if (change == WRITE) error = put_in_run(it, &run, sector);
        if (change == SYNC && last != SYNC) error = sync_run(it, &run);
        last = change;
    }
    if (!error) error = write_run(it, &run);
    if (!error && (i || it->given)) ndbm_c_carried_out(&it->handle);
    return error;
}
