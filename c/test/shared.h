/* What the programs that try shared handles have in common. */
#ifndef SHARED_H
#define SHARED_H

#include <stdint.h>
#include <sys/vfs.h>
#include <time.h>

#include "check.h"

/* where the turn of a file stands */
enum { TURN_AT = 512, TURN_SIZE = 8 };

static inline double now(void) {
    struct timespec it;
    clock_gettime(CLOCK_MONOTONIC, &it);
    return (double)it.tv_sec + (double)it.tv_nsec / 1e9;
}

static inline void sleep_for(long milliseconds) {
    struct timespec left = {milliseconds / 1000, milliseconds % 1000 * 1000000};
    while (nanosleep(&left, &left) && errno == EINTR) continue;
}

/* Whether the file system of this folder is one of those on which reads go without a lock and there is a turnstile. */
static inline bool is_near(void) {
    static const uint32_t systems[] = {0xEF53, 0x58465342, 0x9123683E, 0x01021994, 0x2FC12FC1, 0xF2F52010, 0x794C7630};
    struct statfs it;
    if (statfs(".", &it)) exit(2);
    for (size_t i = 0; i < sizeof systems / sizeof *systems; i++) {
        if ((uint32_t)it.f_type == systems[i]) return true;
    }
    printf("left out: what is so on local file systems alone\n");
    return false;
}

/* A shared handle, whose calls wait for so many seconds. */
static inline DBM *shared_for(const char *file, int flags, unsigned seconds) {
    const dbmx_how how = {.limit = 100000, .wait = seconds, .options = DBMX_SHARED};
    DBM *db = dbmx_open(file, flags, 0644, &how, NULL);
    if (db) return db;
    printf("%s isn't shared: %s\n", file, strerror(errno));
    exit(1);
}

static inline DBM *shared(const char *file, int flags) {
    return shared_for(file, flags, 20);
}

static inline int put(DBM *db, const char *key, const char *content) {
    return dbm_store(db, of(key), of(content), DBM_REPLACE);
}

static inline bool has(DBM *db, const char *key, const char *content) {
    return is(dbm_fetch(db, of(key)), content);
}

/* the turn of a file, and another one in its place */
static inline uint64_t turn_of(const char *path) {
    unsigned char bytes[TURN_SIZE];
    uint64_t turn = 0;
    int fd = open(path, O_RDONLY);
    if (fd < 0 || pread(fd, bytes, sizeof bytes, TURN_AT) != (ssize_t)sizeof bytes || close(fd)) exit(2);
    for (size_t i = 0; i < sizeof bytes; i++) turn = turn << 8 | bytes[i];
    return turn;
}

static inline void set_turn(const char *path, uint64_t turn) {
    unsigned char bytes[TURN_SIZE];
    for (size_t i = sizeof bytes; i > 0; turn >>= 8) bytes[--i] = (unsigned char)turn;
    int fd = open(path, O_WRONLY);
    if (fd < 0 || pwrite(fd, bytes, sizeof bytes, TURN_AT) != (ssize_t)sizeof bytes || close(fd)) exit(2);
}

#endif
