/* How long the bytes stay that the library gives, and that they may be given back to it. */
#include <stdalign.h>
#include <stddef.h>

#include "check.h"

static bool is_aligned(datum it) {
    return (uintptr_t)it.dptr % alignof(max_align_t) == 0;
}

/* a key stays over all but the next key, and a content over all but the next content */
static void lives(DBM *db) {
    datum key = dbm_firstkey(db);
    CHECK(key.dptr && key.dsize == 1);
    char first = *(char *)key.dptr;
    datum content = dbm_fetch(db, of("a"));
    CHECK(is(content, "one"));
    CHECK(*(char *)key.dptr == first);
    CHECK(dbm_store(db, of("c"), of("three"), DBM_REPLACE) == 0);
    CHECK(dbm_store(db, of("c"), of("four"), DBM_INSERT) == 1);
    CHECK(dbm_delete(db, of("c")) == 0);
    CHECK(dbm_error(db) == 0 && dbm_clearerr(db) == 0 && !dbm_rdonly(db) && dbm_pagfno(db) > 2);
    dbmx_pair many[] = {{of("c"), of("many")}, {of("d"), of("more")}};
    dbmx_numbers numbers;
    CHECK(dbmx_store_many(db, many, 2, NULL) == 0 && dbm_delete(db, of("c")) == 0 && dbm_delete(db, of("d")) == 0);
    CHECK(dbmx_stat(db, &numbers) == 0 && dbmx_sync(db) == 0 && dbmx_verify(db) == 0);
    CHECK(is(content, "one") && key.dsize == 1 && *(char *)key.dptr == first);
    datum next = dbm_nextkey(db);
    CHECK(next.dptr && next.dsize == 1 && *(char *)next.dptr != first);
    CHECK(is(content, "one"));
    CHECK(is_aligned(content) && is_aligned(next));
}

/* what was given is an argument */
static void aliases(DBM *db) {
    CHECK(dbm_store(db, of("one"), of("found by a content"), DBM_REPLACE) == 0);
    CHECK(is(dbm_fetch(db, dbm_fetch(db, of("a"))), "found by a content"));
    int found = 0;
    for (datum key = dbm_firstkey(db); key.dptr; key = dbm_nextkey(db)) {
        datum content = dbm_fetch(db, key);
        CHECK(content.dptr);
        found += is(key, "a") && is(content, "one");
        found += is(key, "b") && is(content, "two");
        found += is(key, "one") && is(content, "found by a content");
    }
    CHECK(found == 3);
    CHECK(dbm_fetch(db, dbm_firstkey(db)).dptr);
}

/* a key with its own content, a content under another key, a key as its content */
static void stored_aliases(DBM *db) {
    CHECK(dbm_store(db, of("copy"), dbm_fetch(db, of("a")), DBM_INSERT) == 0);
    CHECK(is(dbm_fetch(db, of("copy")), "one"));
    datum content = dbm_fetch(db, of("b"));
    CHECK(dbm_store(db, content, content, DBM_REPLACE) == 0);
    CHECK(is(dbm_fetch(db, of("two")), "two"));
    datum key = dbm_firstkey(db);
    char was[32] = {0};
    CHECK(key.dsize < sizeof was && key.dptr);
    memcpy(was, key.dptr, key.dsize);
    CHECK(dbm_store(db, key, dbm_fetch(db, of("one")), DBM_REPLACE) == 0);
    CHECK(is(dbm_fetch(db, of(was)), "found by a content"));
    CHECK(is(key, was));
    CHECK(dbm_store(db, key, key, DBM_REPLACE) == 0);
    CHECK(is(dbm_fetch(db, of(was)), was));

    /* a content that names the key to be deleted */
    CHECK(dbm_store(db, of("pointer"), of("target"), DBM_REPLACE) == 0);
    CHECK(dbm_store(db, of("target"), of("x"), DBM_REPLACE) == 0);
    CHECK(dbm_delete(db, dbm_fetch(db, of("pointer"))) == 0);
    CHECK(!dbm_fetch(db, of("target")).dptr);

    /* given bytes in a list of pairs */
    dbmx_pair pair = {of("in a list"), dbm_fetch(db, of("pointer"))};
    CHECK(dbmx_store_many(db, &pair, 1, NULL) == 0);
    CHECK(is(dbm_fetch(db, of("in a list")), "target"));
}

/* a longest pair goes through both */
static void longest(DBM *db) {
    static char bytes[DBMX_PAIR_MAX], was[DBMX_PAIR_MAX];
    memset(bytes, 'k', sizeof bytes);
    datum whole = {bytes, sizeof bytes}, none = {NULL, 0};
    CHECK(dbm_store(db, whole, none, DBM_INSERT) == 0);
    CHECK(dbm_store(db, none, whole, DBM_INSERT) == 0);
    datum content = dbm_fetch(db, none);
    CHECK(content.dsize == sizeof bytes);
    memcpy(was, content.dptr, sizeof was);
    CHECK(!memcmp(was, bytes, sizeof was));
    bool seen = false;
    for (datum key = dbm_firstkey(db); key.dptr; key = dbm_nextkey(db)) {
        seen |= key.dsize == sizeof bytes && !memcmp(key.dptr, bytes, key.dsize);
    }
    CHECK(seen);
    CHECK(content.dsize == sizeof bytes && !memcmp(content.dptr, bytes, sizeof was));
    content = dbm_fetch(db, content);
    CHECK(content.dptr && content.dsize == 0);
}

/* each database has its own */
static void two(DBM *db) {
    make("u", "a", "another");
    DBM *other = open_or_end("u", O_RDONLY);
    CHECK(dbm_store(db, of("a"), of("mine"), DBM_REPLACE) == 0);
    datum mine = dbm_fetch(db, of("a")), theirs = dbm_fetch(other, of("a"));
    CHECK(is(mine, "mine") && is(theirs, "another"));
    datum key = dbm_firstkey(other);
    CHECK(is(dbm_fetch(db, key), "mine"));
    dbm_close(other);
    CHECK(is(dbm_fetch(db, of("a")), "mine"));
}

int main(void) {
    int before = open_descriptors();
    DBM *db = open_or_end("t", O_RDWR | O_CREAT | O_EXCL);
    CHECK(dbm_store(db, of("a"), of("one"), DBM_INSERT) == 0 && dbm_store(db, of("b"), of("two"), DBM_INSERT) == 0);
    lives(db);
    aliases(db);
    stored_aliases(db);
    longest(db);
    two(db);
    dbm_close(db);
    CHECK(open_descriptors() == before);
    return bad;
}
