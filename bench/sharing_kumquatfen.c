// The C library: shared handles, or a handle that has the file for itself.
#include "sharing.h"

#include <fcntl.h>
#include <unistd.h>

#include "ndbm.h"

static DBM *base;

void table_make(const char *content) {
    static dbmx_pair pairs[PAIRS];
    static char keys[PAIRS][KEY_ROOM];
    const dbmx_how how = {.limit = 100000};
    unlink("table.db");
    if (!(base = dbmx_open("table", O_RDWR | O_CREAT, 0644, &how, NULL))) fail("dbmx_open");
    for (unsigned i = 0; i < PAIRS; i++) pairs[i] = (dbmx_pair){{keys[i], key_of(i, keys[i])}, {(void *)content, CONTENT}};
    if (dbmx_store_many(base, pairs, PAIRS, NULL)) fail("dbmx_store_many");
    dbm_close(base);
}

void table_open(bool writes, bool alone) {
    const dbmx_how how = {.options = alone ? 0 : DBMX_SHARED};
    if (!(base = dbmx_open("table", writes ? O_RDWR : O_RDONLY, 0644, &how, NULL))) fail("dbmx_open");
}

size_t table_fetch(const char *key, size_t size) {
    return dbm_fetch(base, (datum){(void *)key, size}).dsize;
}

void table_store(const char *key, size_t size, const char *content) {
    if (dbm_store(base, (datum){(void *)key, size}, (datum){(void *)content, CONTENT}, DBM_REPLACE)) fail("dbm_store");
}

void table_close(void) {
    dbm_close(base);
}
