/* What the programs that try builds have in common. */
#ifndef BUILDS_H
#define BUILDS_H

#include <stdint.h>

#include "check.h"

enum { LONGEST_KEY = 32 };

/* how a database is built, with no wait for a lock */
static const dbmx_how building = {.options = DBMX_BUILD};

/* A database that is built, and has to open. */
static inline DBM *build_or_end(const char *file, int flags) {
    DBM *db = dbmx_open(file, flags, 0644, &building, NULL);
    if (db) return db;
    printf("%s isn't built: %s\n", file, strerror(errno));
    exit(1);
}

static inline datum key_of(uint32_t n, char *text) {
    return (datum){text, (size_t)sprintf(text, "key %u", n)};
}

/* Stores a key with a content of so many bytes, which are all the same: what dbm_store answers. */
static inline int put_filled(DBM *db, uint32_t n, size_t size, int fill, int mode) {
    static unsigned char bytes[DBMX_CONTENT_MAX];
    char text[LONGEST_KEY];
    memset(bytes, fill, size);
    return dbm_store(db, key_of(n, text), (datum){bytes, size}, mode);
}

/* whether the key has such a content */
static inline bool is_filled(DBM *db, uint32_t n, size_t size, int fill) {
    char text[LONGEST_KEY];
    datum content = dbm_fetch(db, key_of(n, text));
    const unsigned char *bytes = content.dptr;
    if (!bytes || content.dsize != size) return false;
    for (size_t i = 0; i < size; i++) {
        if (bytes[i] != fill) return false;
    }
    return true;
}

static inline uint32_t pairs_of(DBM *db) {
    dbmx_numbers numbers = {0};
    CHECK(dbmx_stat(db, &numbers) == 0);
    return numbers.pairs;
}

/* how many pairs a closed database has, which is whole */
static inline uint32_t pairs_in(const char *file) {
    DBM *db = open_or_end(file, O_RDONLY);
    uint32_t pairs = pairs_of(db);
    CHECK(dbmx_verify(db) == 0);
    dbm_close(db);
    return pairs;
}

/* a database that a child leaves open at its end */
static DBM *left_open;

/* Has a child do this, which ends by _exit, with nothing closed. */
static inline void in_child(void (*part)(void)) {
    int status = 1;
    fflush(stdout);
    pid_t child = fork();
    if (!child) {
        part();
        fflush(stdout);
        _exit(bad);
    }
    left_open = NULL;
    CHECK(child > 0 && waitpid(child, &status, 0) == child && status == 0);
}

#endif
