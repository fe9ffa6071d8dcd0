// gdbm by its ndbm interface, which has no sync of its own: gdbm's is called on the file below.
#include "peer.h"

#include <fcntl.h>
#include <gdbm-ndbm.h>

static DBM *base;

static datum datum_of(struct word word) {
    return (datum){word.bytes, (int)word.length};
}

// False where there is nothing; a word of no bytes has a pointer too.
static bool word_of(datum datum, struct word *word) {
    if (datum.dptr == NULL && dbm_error(base)) fail("gdbm: read");
    *word = (struct word){datum.dptr, (size_t)datum.dsize};
    return datum.dptr != NULL;
}

void peer_open(char *name) {
    base = dbm_open(name, O_RDWR | O_CREAT, 0666);
    if (base == NULL) fail("dbm_open");
}

void peer_store(struct word key, struct word content) {
    if (dbm_store(base, datum_of(key), datum_of(content), DBM_REPLACE) != 0) fail("dbm_store");
}

bool peer_fetch(struct word key, struct word *content) {
    return word_of(dbm_fetch(base, datum_of(key)), content);
}

bool peer_delete(struct word key) {
    int status = dbm_delete(base, datum_of(key));
    if (status != 0 && dbm_error(base)) fail("dbm_delete");
    return status == 0;
}

bool peer_first(struct word *key) {
    return word_of(dbm_firstkey(base), key);
}

bool peer_next(struct word *key) {
    return word_of(dbm_nextkey(base), key);
}

void peer_sync(void) {
    if (gdbm_sync(base->file) != 0) fail("gdbm_sync");
}

void peer_close(void) {
    dbm_close(base);
}
