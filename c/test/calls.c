/* The calls of the standard, and those that other ndbms have, on an open database. */
#include "check.h"

static const datum empty = {NULL, 0};
static const datum nowhere = {NULL, 1};

static void store_and_fetch(DBM *db) {
    WORKS(dbm_store(db, of("key"), of("one"), DBM_INSERT) == 0);
    WORKS(is(dbm_fetch(db, of("key")), "one"));
    WORKS(dbm_store(db, of("key"), of("two"), DBM_INSERT) == 1);
    WORKS(is(dbm_fetch(db, of("key")), "one"));
    WORKS(dbm_store(db, of("key"), of("two"), DBM_REPLACE) == 0);
    WORKS(is(dbm_fetch(db, of("key")), "two"));
    WORKS(!dbm_fetch(db, of("absent")).dptr);
    CHECK(dbm_fetch(db, of("absent")).dsize == 0);
    WORKS(dbm_delete(db, of("key")) == 0);
    WORKS(!dbm_fetch(db, of("key")).dptr);
    FAILS(ENOENT, dbm_delete(db, of("key")) == -1);
    WORKS(dbm_error(db) == 0);
}

/* bytes of any value, and none */
static void any_bytes(DBM *db) {
    char all[256];
    for (int i = 0; i < 256; i++) all[i] = (char)i;
    datum whole = {all, sizeof all};
    WORKS(dbm_store(db, whole, whole, DBM_INSERT) == 0);
    datum found = dbm_fetch(db, whole);
    CHECK(found.dsize == sizeof all && !memcmp(found.dptr, all, sizeof all));
    CHECK(dbm_delete(db, whole) == 0);

    WORKS(dbm_store(db, empty, empty, DBM_INSERT) == 0);
    WORKS(dbm_store(db, empty, of("x"), DBM_INSERT) == 1);
    found = dbm_fetch(db, empty);
    CHECK(found.dptr && found.dsize == 0);
    datum none_somewhere = {all, 0};
    found = dbm_fetch(db, none_somewhere);
    CHECK(found.dptr && found.dsize == 0);
    found = dbm_firstkey(db);
    CHECK(found.dptr && found.dsize == 0);
    WORKS(!dbm_nextkey(db).dptr);
    WORKS(dbm_delete(db, empty) == 0);
    FAILS(ENOENT, dbm_delete(db, empty) == -1);
}

/* The most bytes of a content under a key of so many, and one more. Up to a key of 1,023 bytes they are 65,535, and under a
 * longer one as many as make 2,026 with it. */
static void long_pairs(DBM *db) {
    static const size_t longest[][2] = {{0, 65535}, {1013, 65535}, {1023, 65535}, {1024, 1002}, {2026, 0}};
    static char bytes[65536];
    memset(bytes, 'x', sizeof bytes);
    for (size_t i = 0; i < sizeof longest / sizeof *longest; i++) {
        datum key = {bytes, longest[i][0]}, fits = {bytes, longest[i][1]}, above = {bytes, longest[i][1] + 1};
        WORKS(dbm_store(db, key, fits, DBM_REPLACE) == 0);
        FAILS(EINVAL, dbm_store(db, key, above, DBM_REPLACE) == -1);
        CHECK(dbm_error(db) == 5);
        WORKS(dbm_clearerr(db) == 0);
        datum found = dbm_fetch(db, key);
        CHECK(found.dsize == fits.dsize && !memcmp(found.dptr, bytes, fits.dsize));
        WORKS(dbm_delete(db, key) == 0);
    }
    datum above = {bytes, 2027};
    FAILS(EINVAL, dbm_store(db, above, empty, DBM_REPLACE) == -1);
    CHECK(dbm_error(db) == 5 && dbm_clearerr(db) == 0);
    WORKS(!dbm_fetch(db, above).dptr);
    FAILS(ENOENT, dbm_delete(db, above) == -1);
    CHECK(dbm_error(db) == 0);
}

/* arguments that make no sense are no fault of the database, and change nothing */
static void misuse(DBM *db) {
    datum endless = {"x", SIZE_MAX};
    FAILS(EINVAL, dbm_store(db, of("key"), of("x"), 2) == -1);
    FAILS(EINVAL, dbm_store(db, of("key"), of("x"), -1) == -1);
    FAILS(EINVAL, dbm_store(db, nowhere, of("x"), DBM_REPLACE) == -1);
    FAILS(EINVAL, dbm_store(db, of("key"), nowhere, DBM_REPLACE) == -1);
    FAILS(EINVAL, dbm_store(db, endless, of("x"), DBM_REPLACE) == -1);
    FAILS(EINVAL, dbm_store(db, of("key"), endless, DBM_REPLACE) == -1);
    FAILS(EINVAL, !dbm_fetch(db, nowhere).dptr);
    FAILS(EINVAL, !dbm_fetch(db, endless).dptr);
    FAILS(EINVAL, dbm_delete(db, nowhere) == -1);
    FAILS(EINVAL, dbm_delete(db, endless) == -1);
    WORKS(dbm_error(db) == 0);
    WORKS(!dbm_firstkey(db).dptr);

    FAILS(EINVAL, dbm_store(NULL, of("key"), of("x"), DBM_REPLACE) == -1);
    FAILS(EINVAL, !dbm_fetch(NULL, of("key")).dptr);
    FAILS(EINVAL, dbm_delete(NULL, of("key")) == -1);
    FAILS(EINVAL, !dbm_firstkey(NULL).dptr);
    FAILS(EINVAL, !dbm_nextkey(NULL).dptr);
    FAILS(EINVAL, dbm_error(NULL) == -1);
    FAILS(EINVAL, dbm_clearerr(NULL) == -1);
    FAILS(EINVAL, dbm_pagfno(NULL) == -1);
    FAILS(EINVAL, dbm_dirfno(NULL) == -1);
    FAILS(EINVAL, dbm_rdonly(NULL) == -1);
    FAILS(EINVAL, (dbm_close(NULL), true));
}

/* a pass gives each key once, and its keys may be deleted as they come */
static void passes(DBM *db) {
    enum { COUNT = 300 };
    FAILS(EINVAL, !dbm_nextkey(db).dptr);
    CHECK(dbm_error(db) == 7 && dbm_clearerr(db) == 0);
    WORKS(!dbm_firstkey(db).dptr);
    WORKS(!dbm_nextkey(db).dptr);
    for (int i = 0; i < COUNT; i++) CHECK(dbm_store(db, (datum){&i, sizeof i}, (datum){&i, sizeof i}, DBM_INSERT) == 0);
    for (int round = 0; round < 2; round++) {
        int seen[COUNT] = {0}, keys = 0;
        for (datum key = dbm_firstkey(db); key.dptr; key = dbm_nextkey(db)) {
            int i;
            CHECK(key.dsize == sizeof i);
            memcpy(&i, key.dptr, sizeof i);
            CHECK(i >= 0 && i < COUNT && !seen[i]++);
            keys++;
            if (round == 1) CHECK(dbm_delete(db, key) == 0);
        }
        CHECK(keys == COUNT);
        WORKS(!dbm_nextkey(db).dptr);
    }
    WORKS(!dbm_firstkey(db).dptr);
    CHECK(dbm_error(db) == 0);
}

/* the first fault stays until it is cleared */
static void errors(DBM *db) {
    static char bytes[3000];
    datum large = {bytes, sizeof bytes};
    DBM *reader;
    FAILS(EINVAL, dbm_store(db, large, of("key"), DBM_INSERT) == -1);
    dbm_close(db);
    reader = open_or_end("t", O_RDONLY);
    CHECK(dbm_error(reader) == 0);
    FAILS(EPERM, dbm_store(reader, of("key"), of("x"), DBM_INSERT) == -1);
    FAILS(EPERM, dbm_store(reader, of("key"), of("x"), DBM_REPLACE) == -1);
    FAILS(EPERM, dbm_delete(reader, of("key")) == -1);
    CHECK(dbm_error(reader) == 4);
    FAILS(EINVAL, !dbm_nextkey(reader).dptr);
    CHECK(dbm_error(reader) == 4);
    WORKS(!dbm_fetch(reader, of("key")).dptr);
    CHECK(dbm_error(reader) == 4);
    WORKS(dbm_clearerr(reader) == 0);
    WORKS(dbm_error(reader) == 0);
    WORKS((dbm_close(reader), true));
}

static void descriptors(void) {
    DBM *db = open_or_end("t", O_RDWR);
    struct stat file, found;
    WORKS(dbm_pagfno(db) > 2 && dbm_dirfno(db) > 2 && dbm_dirfno(db) != dbm_pagfno(db));
    CHECK(!stat("t.db", &file) && !fstat(dbm_pagfno(db), &found) && file.st_ino == found.st_ino && file.st_dev == found.st_dev);
    WORKS(dbm_rdonly(db) == 0);
    int fd = dbm_pagfno(db);
    dbm_close(db);
    FAILS(EBADF, fcntl(fd, F_GETFD) == -1);
    db = open_or_end("t", O_RDONLY);
    WORKS(dbm_rdonly(db) == 1);
    dbm_close(db);
}

int main(void) {
    int before = open_descriptors();
    DBM *db = open_or_end("t", O_RDWR | O_CREAT | O_EXCL);
    passes(db);
    store_and_fetch(db);
    any_bytes(db);
    long_pairs(db);
    misuse(db);
    errors(db);
    descriptors();
    CHECK(open_descriptors() == before);
    return bad;
}
