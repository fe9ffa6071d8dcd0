// LMDB: a transaction for each call.
#include "sharing.h"

#include <lmdb.h>
#include <unistd.h>

static MDB_env *environment;
static MDB_dbi base;
static MDB_txn *reading;

static void must(int status, const char *call) {
    if (status != 0) fail(call);
}

static void open_environment(void) {
    must(mdb_env_create(&environment), "mdb_env_create");
    must(mdb_env_set_mapsize(environment, (size_t)1 << 30), "mdb_env_set_mapsize");
    must(mdb_env_open(environment, "table.lmdb", MDB_NOSUBDIR, 0644), "mdb_env_open");
}

static void put(MDB_txn *to, const char *key, size_t size, const char *content) {
    MDB_val name = {size, (void *)key}, value = {CONTENT, (void *)content};
    must(mdb_put(to, base, &name, &value, 0), "mdb_put");
}

void table_make(const char *content) {
    MDB_txn *filling;
    char key[KEY_ROOM];
    unlink("table.lmdb");
    unlink("table.lmdb-lock");
    open_environment();
    must(mdb_txn_begin(environment, NULL, 0, &filling), "mdb_txn_begin");
    must(mdb_dbi_open(filling, NULL, 0, &base), "mdb_dbi_open");
    for (unsigned i = 0; i < PAIRS; i++) put(filling, key, key_of(i, key), content);
    must(mdb_txn_commit(filling), "mdb_txn_commit");
    mdb_env_close(environment);
}

void table_open(bool writes, bool alone) {
    (void)writes, (void)alone;
    open_environment();
    must(mdb_txn_begin(environment, NULL, MDB_RDONLY, &reading), "mdb_txn_begin");
    must(mdb_dbi_open(reading, NULL, 0, &base), "mdb_dbi_open");
    mdb_txn_reset(reading);
}

size_t table_fetch(const char *key, size_t size) {
    MDB_val name = {size, (void *)key}, value = {0, NULL};
    must(mdb_txn_renew(reading), "mdb_txn_renew");
    must(mdb_get(reading, base, &name, &value), "mdb_get");
    mdb_txn_reset(reading);
    return value.mv_size;
}

void table_store(const char *key, size_t size, const char *content) {
    MDB_txn *writing;
    must(mdb_txn_begin(environment, NULL, 0, &writing), "mdb_txn_begin");
    put(writing, key, size, content);
    must(mdb_txn_commit(writing), "mdb_txn_commit");
}

void table_close(void) {
    mdb_txn_abort(reading);
    mdb_env_close(environment);
}
