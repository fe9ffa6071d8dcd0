/* Reads, writes and syncs bytes of a file, all that are asked for, also where signals come. */
#define _GNU_SOURCE
#include <errno.h>
#include <string.h>
#include <unistd.h>

#include "parts.h"

/* The device over a file has up to 2^32 sectors, and so a place in it may be as far as this. */
_Static_assert(sizeof(off_t) >= sizeof(int64_t), "off_t has 64 bits");

int ndbm_system_number(void) {
    return errno > 0 ? errno : EIO;
}

ssize_t ndbm_bytes_read(int fd, unsigned char *bytes, size_t size, off_t at) {
    size_t done = 0;
    while (done < size) {
        ssize_t some = pread(fd, bytes + done, size - done, at + (off_t)done);
        if (some < 0 && errno == EINTR) continue;
        if (some < 0) return -1;
        if (!some) break;
        done += (size_t)some;
    }
    memset(bytes + done, 0, size - done);
    return (ssize_t)done;
}

int ndbm_bytes_write(int fd, const unsigned char *bytes, size_t size, off_t at) {
    size_t done = 0;
    while (done < size) {
        ssize_t some = pwrite(fd, bytes + done, size - done, at + (off_t)done);
        if (some < 0 && errno == EINTR) continue;
        if (some < 0) return ndbm_system_number();
        if (!some) return EIO;
        done += (size_t)some;
    }
    return 0;
}

/* Syncs by this call of the system: 0, or the system's number. */
static int sync_by(int (*sync)(int fd), int fd) {
    while (sync(fd)) {
        if (errno != EINTR) return ndbm_system_number();
    }
    return 0;
}

int ndbm_bytes_sync(int fd) {
    return sync_by(fdatasync, fd);
}

int ndbm_bytes_sync_all(int fd) {
    return sync_by(fsync, fd);
}

int ndbm_give_up(int fd) {
    int error = errno;
    close(fd);
    errno = error;
    return -1;
}
