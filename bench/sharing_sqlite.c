// SQLite with a write-ahead log that is synced at each commit, and a transaction for each call.
#include "sharing.h"

#include <sqlite3.h>
#include <unistd.h>

static sqlite3 *base;
static sqlite3_stmt *get, *put;

static void must(bool done, const char *call) {
    if (!done) fail(call);
}

static void tell(const char *words) {
    must(sqlite3_exec(base, words, NULL, NULL, NULL) == SQLITE_OK, words);
}

static void open_base(void) {
    must(sqlite3_open("table.sqlite", &base) == SQLITE_OK, "sqlite3_open");
    sqlite3_busy_timeout(base, 20000);
    tell("pragma journal_mode=wal; pragma synchronous=full; pragma cache_size=-32000;");
}

static void prepare(void) {
    must(sqlite3_prepare_v2(base, "select content from pairs where key = ?", -1, &get, NULL) == SQLITE_OK, "select");
    must(sqlite3_prepare_v2(base, "replace into pairs values (?, ?)", -1, &put, NULL) == SQLITE_OK, "replace");
}

void table_make(const char *content) {
    char key[KEY_ROOM];
    unlink("table.sqlite");
    unlink("table.sqlite-wal");
    unlink("table.sqlite-shm");
    open_base();
    tell("create table pairs (key blob primary key, content blob) without rowid; begin;");
    prepare();
    for (unsigned i = 0; i < PAIRS; i++) table_store(key, key_of(i, key), content);
    tell("commit");
    table_close();
}

void table_open(bool writes, bool alone) {
    (void)writes, (void)alone;
    open_base();
    prepare();
}

size_t table_fetch(const char *key, size_t size) {
    sqlite3_bind_blob(get, 1, key, (int)size, SQLITE_STATIC);
    must(sqlite3_step(get) == SQLITE_ROW, "fetch");
    size_t length = (size_t)sqlite3_column_bytes(get, 0);
    sqlite3_reset(get);
    return length;
}

void table_store(const char *key, size_t size, const char *content) {
    sqlite3_bind_blob(put, 1, key, (int)size, SQLITE_STATIC);
    sqlite3_bind_blob(put, 2, content, CONTENT, SQLITE_STATIC);
    must(sqlite3_step(put) == SQLITE_DONE, "store");
    sqlite3_reset(put);
}

void table_close(void) {
    sqlite3_finalize(get);
    sqlite3_finalize(put);
    sqlite3_close(base);
}
