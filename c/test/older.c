/* A program that was compiled with the header as it was before version 2 of the file format. What it passes and reads lies where
 * the library looks for it and puts it, and the pairs that it knew go through as before. */
#include "older.h"

#include "check.h"

/* the value that the header has for DBMX_VERSION_1 now, which was no option then */
static const unsigned first_version = 2;

/* What it gets has the size that it was compiled with: nothing behind that is written. */
static void numbers_of(DBM *db) {
    struct {
        dbmx_numbers it;
        unsigned char behind[64];
    } got;
    memset(&got, 0xa5, sizeof got);
    WORKS(dbmx_stat(db, &got.it) == 0);
    CHECK(sizeof got.it == 28 && got.it.pairs == 3 && got.it.limit == 1000 && got.it.buckets == 1);
    CHECK(got.it.level == 0 && got.it.split == 0 && got.it.pages >= 4 && got.it.free == 0);
    for (size_t i = 0; i < sizeof got.behind; i++) CHECK(got.behind[i] == 0xa5);
}

static void store_three(DBM *db) {
    static char bytes[DBMX_PAIR_MAX];
    datum longest = {bytes, sizeof bytes - 1};
    memset(bytes, 'x', sizeof bytes);
    WORKS(dbm_store(db, of("a"), of("1"), DBM_INSERT) == 0);
    WORKS(dbm_store(db, of("b"), of("2"), DBM_REPLACE) == 0);
    WORKS(dbm_store(db, of("c"), longest, DBM_REPLACE) == 0);
    WORKS(is(dbm_fetch(db, of("a")), "1"));
    datum found = dbm_fetch(db, of("c"));
    CHECK(found.dsize == longest.dsize && !memcmp(found.dptr, bytes, found.dsize));
}

/* a file that it makes; a pair that was too long is stored there */
static void new_file(void) {
    static char bytes[DBMX_PAIR_MAX + 1];
    dbmx_how how = {1000, 0, 0};
    int fault = 99;
    DBM *db = NULL;
    WORKS((db = dbmx_open("new", O_RDWR | O_CREAT | O_EXCL, 0644, &how, &fault)) && fault == 0);
    if (!db) return;
    store_three(db);
    numbers_of(db);
    WORKS(dbm_store(db, of("long"), (datum){bytes, sizeof bytes}, DBM_INSERT) == 0);
    CHECK(dbm_fetch(db, of("long")).dsize == sizeof bytes);
    dbm_close(db);
}

/* a file of version 1, as an older library made it: it stays so, and refuses what it refused */
static void older_file(void) {
    static char bytes[DBMX_PAIR_MAX];
    dbmx_how how = {1000, 0, first_version};
    unsigned char version[4] = {0};
    int keys = 0, fd;
    dbm_close(dbmx_open("old", O_RDWR | O_CREAT | O_EXCL, 0644, &how, NULL));
    DBM *db = open_or_end("old", O_RDWR | O_CREAT);
    store_three(db);
    numbers_of(db);
    FAILS(EINVAL, dbm_store(db, of("d"), (datum){bytes, sizeof bytes}, DBM_REPLACE) == -1);
    CHECK(dbm_error(db) == 5 && dbm_clearerr(db) == 0);
    dbmx_pair pairs[] = {{of("a"), of("3")}, {of("d"), {bytes, sizeof bytes}}};
    size_t stored = 77;
    FAILS(EINVAL, dbmx_store_many(db, pairs, 2, &stored) == -1);
    CHECK(stored == 1 && is(dbm_fetch(db, of("a")), "3"));
    for (datum key = dbm_firstkey(db); key.dptr; key = dbm_nextkey(db)) keys++;
    CHECK(keys == 3);
    WORKS(dbmx_verify(db) == 0);
    dbm_close(db);
    /* bytes 16 to 19 of page 1, which has 2,048 bytes */
    fd = open("old.db", O_RDONLY);
    CHECK(fd >= 0 && pread(fd, version, sizeof version, 2048 + 16) == 4 && !close(fd));
    CHECK(!version[0] && !version[1] && !version[2] && version[3] == 1);
}

int main(void) {
    int before = open_descriptors();
    CHECK(sizeof(dbmx_how) == 12 && sizeof(dbmx_pair) == 2 * sizeof(datum));
    new_file();
    older_file();
    CHECK(open_descriptors() == before);
    return bad;
}
