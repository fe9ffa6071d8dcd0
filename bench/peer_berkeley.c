// Berkeley DB's hash table without an environment: it has no log, and its cache is of the default
// size.
#include "peer.h"

#include <db.h>

static DB *base;
static DBC *pass;

static DBT dbt_of(struct word word) {
    return (DBT){.data = word.bytes, .size = (u_int32_t)word.length};
}

static bool found(int status, const char *call) {
    if (status != 0 && status != DB_NOTFOUND) fail(call);
    return status == 0;
}

static void must(int status, const char *call) {
    if (status != 0) fail(call);
}

void peer_open(char *name) {
    must(db_create(&base, NULL, 0), "db_create");
    must(base->open(base, NULL, name, NULL, DB_HASH, DB_CREATE, 0666), "DB->open");
    must(base->cursor(base, NULL, &pass, 0), "DB->cursor");
}

void peer_store(struct word key, struct word content) {
    DBT key_dbt = dbt_of(key), content_dbt = dbt_of(content);
    must(base->put(base, NULL, &key_dbt, &content_dbt, 0), "DB->put");
}

bool peer_fetch(struct word key, struct word *content) {
    DBT key_dbt = dbt_of(key), content_dbt = {0};
    bool there = found(base->get(base, NULL, &key_dbt, &content_dbt, 0), "DB->get");
    *content = (struct word){content_dbt.data, content_dbt.size};
    return there;
}

bool peer_delete(struct word key) {
    DBT key_dbt = dbt_of(key);
    return found(base->del(base, NULL, &key_dbt, 0), "DB->del");
}

static bool step(struct word *key, u_int32_t where) {
    DBT key_dbt = {0};
    DBT nothing = {.flags = DB_DBT_PARTIAL};   // of the content no byte is asked for
    bool there = found(pass->get(pass, &key_dbt, &nothing, where), "DBC->get");
    *key = (struct word){key_dbt.data, key_dbt.size};
    return there;
}

bool peer_first(struct word *key) {
    return step(key, DB_FIRST);
}

bool peer_next(struct word *key) {
    return step(key, DB_NEXT);
}

void peer_sync(void) {
    must(base->sync(base, 0), "DB->sync");
}

void peer_close(void) {
    must(pass->close(pass), "DBC->close");
    must(base->close(base, 0), "DB->close");
}
