// LMDB: changes are in a transaction that a sync commits, reads in one that lasts until the next
// change.
#include "peer.h"

#include <lmdb.h>

// The most that the file may become; LMDB wants to know it beforehand.
static const size_t MOST_BYTES = (size_t)4 << 30;

static MDB_env *environment;
static MDB_dbi base;
// NULL where none is begun.
static MDB_txn *reading, *writing;
static MDB_cursor *pass;

static void must(int status, const char *call) {
    if (status != 0) fail(call);
}

static bool found(int status, const char *call) {
    if (status != 0 && status != MDB_NOTFOUND) fail(call);
    return status == 0;
}

static MDB_val value_of(struct word word) {
    return (MDB_val){word.length, word.bytes};
}

static struct word word_of(MDB_val value) {
    return (struct word){value.mv_data, value.mv_size};
}

static void end_reading(void) {
    if (pass != NULL) mdb_cursor_close(pass);
    if (reading != NULL) mdb_txn_abort(reading);
    pass = NULL;
    reading = NULL;
}

static MDB_txn *to_write(void) {
    end_reading();
    if (writing == NULL) must(mdb_txn_begin(environment, NULL, 0, &writing), "mdb_txn_begin");
    return writing;
}

static MDB_txn *to_read(void) {
    if (reading == NULL)
        must(mdb_txn_begin(environment, NULL, MDB_RDONLY, &reading), "mdb_txn_begin");
    return reading;
}

void peer_open(char *name) {
    must(mdb_env_create(&environment), "mdb_env_create");
    must(mdb_env_set_mapsize(environment, MOST_BYTES), "mdb_env_set_mapsize");
    must(mdb_env_open(environment, name, MDB_NOSUBDIR, 0666), "mdb_env_open");
    must(mdb_dbi_open(to_write(), NULL, 0, &base), "mdb_dbi_open");
    peer_sync();
}

void peer_store(struct word key, struct word content) {
    MDB_val key_value = value_of(key), content_value = value_of(content);
    must(mdb_put(to_write(), base, &key_value, &content_value, 0), "mdb_put");
}

bool peer_fetch(struct word key, struct word *content) {
    MDB_val key_value = value_of(key), content_value = {0};
    bool there = found(mdb_get(to_read(), base, &key_value, &content_value), "mdb_get");
    *content = word_of(content_value);
    return there;
}

bool peer_delete(struct word key) {
    MDB_val key_value = value_of(key);
    return found(mdb_del(to_write(), base, &key_value, NULL), "mdb_del");
}

static bool step(struct word *key, MDB_cursor_op where) {
    MDB_val key_value = {0}, content_value;
    bool there = found(mdb_cursor_get(pass, &key_value, &content_value, where), "mdb_cursor_get");
    *key = word_of(key_value);
    return there;
}

bool peer_first(struct word *key) {
    if (pass == NULL) must(mdb_cursor_open(to_read(), base, &pass), "mdb_cursor_open");
    return step(key, MDB_FIRST);
}

bool peer_next(struct word *key) {
    return step(key, MDB_NEXT);
}

void peer_sync(void) {
    if (writing != NULL) must(mdb_txn_commit(writing), "mdb_txn_commit");
    writing = NULL;
}

void peer_close(void) {
    end_reading();
    mdb_env_close(environment);
}
