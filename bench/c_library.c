// The times of calls by an ndbm.h: stores one by one, fetches in another order, and a pass. Compiled
// once over the C library of this repository, and with GDBM over gdbm's ndbm, where with SYNCED gdbm's own call syncs each
// store: its dbm_open takes no notice of O_SYNC. Arguments: the file's name, and how many pairs. It prints the calls a second
// of each part.
#include <fcntl.h>
#include <stdio.h>
#include <stdlib.h>
#include <string.h>
#include <time.h>

#ifdef GDBM
#include <gdbm-ndbm.h>
#include <gdbm.h>
#else
#include "ndbm.h"
#endif

enum { KEY = 16, CONTENT = 32 };

static char key_bytes[KEY + 1], content_bytes[CONTENT + 1];

// The key and the content of a pair. Neighbors have keys far from one another.
static datum key_of(unsigned n) {
    snprintf(key_bytes, sizeof key_bytes, "%08x%08x", n * 2654435761u, n);
    return (datum){key_bytes, KEY};
}

static datum content_of(unsigned n) {
    snprintf(content_bytes, sizeof content_bytes, "%032x", n);
    return (datum){content_bytes, CONTENT};
}

static void fail(const char *what) {
    perror(what);
    exit(1);
}

static void tell(unsigned count, const struct timespec *from) {
    struct timespec to;
    clock_gettime(CLOCK_MONOTONIC, &to);
    double seconds = (double)(to.tv_sec - from->tv_sec) + (double)(to.tv_nsec - from->tv_nsec) / 1e9;
    printf("%.0f\n", count / seconds);
}

static void store_all(DBM *db, unsigned count) {
    for (unsigned n = 0; n < count; n++) {
        if (dbm_store(db, key_of(n), content_of(n), DBM_REPLACE) != 0) fail("dbm_store");
#ifdef SYNCED
        if (gdbm_sync(db->file) != 0) fail("gdbm_sync");
#endif
    }
}

// Each key once, in another order than that of the stores: the step shares no divisor with a power of ten.
static void fetch_all(DBM *db, unsigned count) {
    for (unsigned long i = 0, n = 0; i < count; i++, n = (n + 7919) % count) {
        datum found = dbm_fetch(db, key_of((unsigned)n)), wanted = content_of((unsigned)n);
        if (!found.dptr || found.dsize != CONTENT || memcmp(found.dptr, wanted.dptr, CONTENT) != 0) fail("dbm_fetch");
    }
}

static void pass(DBM *db, unsigned count) {
    unsigned keys = 0;
    for (datum key = dbm_firstkey(db); key.dptr; key = dbm_nextkey(db)) keys++;
    if (keys != count) fail("dbm_nextkey");
}

int main(int words, char **word) {
    static void (*const parts[])(DBM *, unsigned) = {store_all, fetch_all, pass};
    if (words != 3) return 2;
    unsigned count = (unsigned)strtoul(word[2], NULL, 10);
    DBM *db = dbm_open(word[1], O_RDWR | O_CREAT, 0644);
    if (!db) fail("dbm_open");
    for (int i = 0; i < 3; i++) {
        struct timespec from;
        clock_gettime(CLOCK_MONOTONIC, &from);
        parts[i](db, count);
        tell(count, &from);
    }
    dbm_close(db);
    return 0;
}
