/* Locks a file, and has those who wait for the lock come to it.
 *
 * The lock (flock) is of an opening of the file, alone or together with others. The system lets others in together while somebody waits to
 * have it alone, so a few readers in a loop would keep every writer out. So there is a turnstile before it: a byte behind all that a file
 * can have, which is locked too (F_OFD_SETLK), alone or together as the lock then is. Who is in the turnstile has the lock next: who finds
 * somebody there that waits for the other kind of lock doesn't pass by. It is held while the lock is waited for, and given back once that
 * is had. So nobody waits for the turnstile who has the lock, and there is no circle. Who waits long to have the lock alone lets the others
 * by for a moment, since they may have it together with an opening that has it for long.
 *
 * Nothing is wrong where the turnstile is passed by. It only orders those who wait. */
#define _GNU_SOURCE
#include <errno.h>
#include <fcntl.h>
#include <sys/file.h>
#include <time.h>

#include "parts.h"

enum { SECOND = 1000000000 };

/* in nanoseconds: the pauses between two tries; for how long the turnstile is held alone at most; for how long others are let by */
enum { SHORTEST = 20000, LONGEST = 500000, HELD = 50000000, LET_BY = 5000000 };

uint64_t ndbm_now(void) {
    struct timespec it;
    clock_gettime(CLOCK_MONOTONIC, &it);
    return (uint64_t)it.tv_sec * SECOND + (uint64_t)it.tv_nsec;
}

uint64_t ndbm_until(unsigned seconds) {
    return ndbm_now() + (uint64_t)seconds * SECOND;
}

void ndbm_pause(uint64_t time) {
    struct timespec it = {(time_t)(time / SECOND), (long)(time % SECOND)};
    nanosleep(&it, NULL);
}

static struct flock turnstile(short type) {
    return (struct flock){.l_type = type, .l_whence = SEEK_SET, .l_start = (off_t)1 << 62, .l_len = 1};
}

/* Whether somebody is in the turnstile who keeps such a one out. */
static bool is_kept_out(int fd, bool alone) {
    struct flock it = turnstile(alone ? F_WRLCK : F_RDLCK);
    return !fcntl(fd, F_OFD_GETLK, &it) && it.l_type != F_UNLCK;
}

/* One try: 0, or -1 with EWOULDBLOCK. A system without such locks has no turnstile. */
static int enter(int fd, bool alone) {
    struct flock it = turnstile(alone ? F_WRLCK : F_RDLCK);
    if (!fcntl(fd, F_OFD_SETLK, &it) || (errno != EACCES && errno != EAGAIN)) return 0;
    errno = EWOULDBLOCK;
    return -1;
}

static void leave(int fd) {
    struct flock it = turnstile(F_UNLCK);
    int error = errno;
    fcntl(fd, F_OFD_SETLK, &it);
    errno = error;
}

int ndbm_lock_at_once(int fd, bool alone) {
    return flock(fd, (alone ? LOCK_EX : LOCK_SH) | LOCK_NB);
}

void ndbm_lock_give_back(int fd) {
    int error = errno;
    flock(fd, LOCK_UN);
    errno = error;
}

/* Tries until then: 0, or -1 with errno. */
static int try_until(int (*once)(int fd, bool alone), int fd, bool alone, uint64_t until) {
    for (uint64_t pause = SHORTEST; once(fd, alone); pause = pause < LONGEST ? 2 * pause : pause) {
        if (errno != EWOULDBLOCK) return -1;
        if (ndbm_now() >= until) {
            errno = EWOULDBLOCK;
            return -1;
        }
        ndbm_pause(pause);
    }
    return 0;
}

/* Goes through the turnstile once. */
static int go_through(int fd, bool alone, uint64_t until) {
    if (try_until(enter, fd, alone, until)) return -1;
    uint64_t soon = ndbm_now() + HELD;
    int status = try_until(ndbm_lock_at_once, fd, alone, alone && soon < until ? soon : until);
    leave(fd);
    return status;
}

int ndbm_lock_take(int fd, bool alone, bool has_turnstile, uint64_t until) {
    if (!has_turnstile) return try_until(ndbm_lock_at_once, fd, alone, until);
    if (!is_kept_out(fd, alone) && !ndbm_lock_at_once(fd, alone)) return 0;
    while (go_through(fd, alone, until)) {
        if (errno != EWOULDBLOCK) return -1;
        if (ndbm_now() >= until) {
            errno = EWOULDBLOCK;
            return -1;
        }
        ndbm_pause(LET_BY);
    }
    return 0;
}
