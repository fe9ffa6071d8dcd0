/* The versions of the file format: which one is made, what each allows, contents of up to 65,535 bytes, and the upgrade. */
#include "check.h"

enum { MOST = 65536, PAIRS = 500 };

/* bytes none of which is that of its place in another page, for keys and contents of any size */
static unsigned char bytes[2 * MOST];

static datum first_of(size_t size) {
    return (datum){bytes, size};
}

static bool has(datum found, datum wanted) {
    return found.dptr && found.dsize == wanted.dsize && !memcmp(found.dptr, wanted.dptr, wanted.dsize);
}

/* The version that the file has in its meta page, which is page 1 of 2,048 bytes: four bytes from byte 16 on. */
static int version_in(const char *path) {
    unsigned char it[4] = {0};
    int fd = open(path, O_RDONLY);
    if (fd < 0 || pread(fd, it, sizeof it, 2048 + 16) != (ssize_t)sizeof it) exit(2);
    close(fd);
    return it[0] << 24 | it[1] << 16 | it[2] << 8 | it[3];
}

static DBM *open_how(const char *file, int flags, unsigned options) {
    dbmx_how how = {.options = options};
    DBM *db = dbmx_open(file, flags, 0644, &how, NULL);
    if (db) return db;
    printf("%s isn't opened: %s\n", file, strerror(errno));
    exit(1);
}

/* Opens a file, and answers the version that is told. */
static int version_of(const char *file, int flags, unsigned options) {
    DBM *db = open_how(file, flags, options);
    int version = 0;
    WORKS((version = dbmx_version(db)) > 0);
    WORKS((dbm_close(db), true));
    return version;
}

/* which version a file gets, and that it keeps it */
static void made(void) {
    make("plain", "a", "1");
    CHECK(version_in("plain.db") == 2 && version_of("plain", O_RDWR, 0) == 2);
    CHECK(version_of("first", O_RDWR | O_CREAT | O_EXCL, DBMX_VERSION_1) == 1 && version_in("first.db") == 1);
    CHECK(version_of("both", O_RDWR | O_CREAT, DBMX_VERSION_1 | DBMX_UNLOCKED) == 1 && version_in("both.db") == 1);
    CHECK(version_of("unlocked", O_RDWR | O_CREAT, DBMX_UNLOCKED) == 2 && version_in("unlocked.db") == 2);
    /* one that is there keeps its own */
    CHECK(version_of("first", O_RDWR | O_CREAT, 0) == 1 && version_of("first", O_RDONLY, 0) == 1);
    CHECK(version_of("plain", O_RDWR | O_CREAT, DBMX_VERSION_1) == 2 && version_of("plain", O_RDONLY, DBMX_VERSION_1) == 2);
    CHECK(version_in("first.db") == 1 && version_in("plain.db") == 2);
    DBM *db = open_or_end("plain", O_RDONLY);
    CHECK(is(dbm_fetch(db, of("a")), "1"));
    dbm_close(db);
    /* One that is emptied has the one that is asked for. Its first page may wait in the log. */
    CHECK(version_of("first", O_RDWR | O_TRUNC, 0) == 2 && version_of("first", O_RDONLY, 0) == 2);
    CHECK(version_of("plain", O_RDWR | O_TRUNC, DBMX_VERSION_1) == 1 && version_of("plain", O_RDONLY, 0) == 1);
    FAILS(EINVAL, dbmx_version(NULL) == -1);
    FAILS(EINVAL, dbmx_upgrade(NULL) == -1);
}

/* The pairs that each version allows: together at most 2,026 bytes, and in version 2 also a key of at most 1,023 bytes with a
 * content of at most 65,535. */
static const struct {
    size_t key, content;
    bool in_first, in_second;
} sizes[] = {
    {0, 2026, true, true},       {0, 2027, false, true},       {0, 65535, false, true},   {0, 65536, false, false},
    {1, 65535, false, true},     {1013, 1013, true, true},     {1013, 1014, false, true}, {1023, 1003, true, true},
    {1023, 1004, false, true},   {1023, 65535, false, true},   {1023, 65536, false, false}, {1024, 1002, true, true},
    {1024, 1003, false, false},  {1024, 65535, false, false},  {2025, 1, true, true},     {2026, 0, true, true},
    {2026, 1, false, false},     {2027, 0, false, false},      {65535, 0, false, false},  {65536, 65536, false, false},
};

static void limits(const char *file, unsigned options) {
    DBM *db = open_how(file, O_RDWR | O_CREAT | O_EXCL, options);
    for (size_t i = 0; i < sizeof sizes / sizeof *sizes; i++) {
        datum key = first_of(sizes[i].key), content = first_of(sizes[i].content);
        dbmx_pair pair = {key, content};
        size_t stored = 77;
        if (options & DBMX_VERSION_1 ? sizes[i].in_first : sizes[i].in_second) {
            WORKS(dbm_store(db, key, content, DBM_INSERT) == 0);
            WORKS(has(dbm_fetch(db, key), content));
            WORKS(dbm_delete(db, key) == 0);
            WORKS(dbmx_store_many(db, &pair, 1, &stored) == 0 && stored == 1);
            WORKS(has(dbm_fetch(db, key), content));
            WORKS(dbm_store(db, key, (datum){NULL, 0}, DBM_INSERT) == 1);
            WORKS(dbm_delete(db, key) == 0);
        } else {
            FAILS(EINVAL, dbm_store(db, key, content, DBM_INSERT) == -1);
            CHECK(dbm_error(db) == 5 && dbm_clearerr(db) == 0);
            FAILS(EINVAL, dbm_store(db, key, content, DBM_REPLACE) == -1);
            FAILS(EINVAL, dbmx_store_many(db, &pair, 1, &stored) == -1);
            CHECK(stored == 0 && dbm_error(db) == 5 && dbm_clearerr(db) == 0);
            WORKS(!dbm_fetch(db, key).dptr);
        }
    }
    WORKS(!dbm_firstkey(db).dptr);
    WORKS(dbmx_verify(db) == 0);
    dbm_close(db);
}

/* contents around the ends of their pages, which have 2,032 bytes each */
static void contents(void) {
    static const size_t long_ones[] = {2027, 2032, 2033, 4064, 4065, 65024, 65025, 65534, 65535};
    enum { COUNT = sizeof long_ones / sizeof *long_ones };
    DBM *db = open_or_end("long", O_RDWR | O_CREAT | O_EXCL);
    for (int i = 0; i < COUNT; i++) {
        datum content = {bytes + i, long_ones[i]};
        WORKS(dbm_store(db, (datum){&i, sizeof i}, content, DBM_INSERT) == 0);
    }
    dbm_close(db);
    db = open_or_end("long", O_RDWR);
    for (int round = 0; round < 2; round++) {
        for (int i = 0; i < COUNT; i++) {
            WORKS(has(dbm_fetch(db, (datum){&i, sizeof i}), (datum){bytes + i, long_ones[i]}));
        }
        WORKS(dbmx_verify(db) == 0);
    }
    /* each gets the length of the one before it, and the first one that of the last */
    for (int i = 0; i < COUNT; i++) {
        datum key = {&i, sizeof i}, content = {bytes + 7 * i, long_ones[(i + COUNT - 1) % COUNT]};
        WORKS(dbm_store(db, key, content, DBM_REPLACE) == 0);
        WORKS(has(dbm_fetch(db, key), content));
    }
    WORKS(dbmx_verify(db) == 0);
    for (int i = 0; i < COUNT; i++) WORKS(dbm_store(db, (datum){&i, sizeof i}, of("short"), DBM_REPLACE) == 0);
    for (int i = 0; i < COUNT; i++) WORKS(is(dbm_fetch(db, (datum){&i, sizeof i}), "short"));
    dbmx_numbers numbers;
    WORKS(dbmx_stat(db, &numbers) == 0 && numbers.pairs == COUNT);
    /* the pages of the longest content that was there, at the least, are free */
    CHECK(numbers.free >= 33);
    WORKS(dbmx_verify(db) == 0);
    dbm_close(db);
}

/* a long content stays over all but the next fetch, and its bytes are keys and contents */
static void buffers(void) {
    DBM *db = open_or_end("buffers", O_RDWR | O_CREAT | O_EXCL);
    datum whole = first_of(65535), inner = {bytes + 60000, 900};
    CHECK(dbm_store(db, of("a"), whole, DBM_INSERT) == 0 && dbm_store(db, inner, of("inner"), DBM_INSERT) == 0);
    datum content = dbm_fetch(db, of("a"));
    CHECK(has(content, whole));
    dbmx_pair many[] = {{of("b"), first_of(40000)}, {of("c"), of("3")}};
    dbmx_numbers numbers;
    CHECK(dbmx_store_many(db, many, 2, NULL) == 0 && dbm_store(db, of("d"), first_of(3000), DBM_REPLACE) == 0);
    CHECK(dbm_firstkey(db).dptr && dbm_nextkey(db).dptr && dbm_delete(db, of("d")) == 0 && dbmx_version(db) == 2);
    CHECK(dbmx_stat(db, &numbers) == 0 && numbers.pairs == 4);
    CHECK(dbmx_sync(db) == 0 && dbmx_verify(db) == 0 && dbmx_upgrade(db) == 0);
    CHECK(has(content, whole));
    /* a content of another key, and under keys within it */
    CHECK(dbm_store(db, of("e"), content, DBM_INSERT) == 0);
    CHECK(dbm_store(db, (datum){(char *)content.dptr + 3, 1023}, content, DBM_INSERT) == 0);
    dbmx_pair own = {{(char *)content.dptr + 5, 77}, content};
    CHECK(dbmx_store_many(db, &own, 1, NULL) == 0 && has(content, whole));
    CHECK(has(dbm_fetch(db, of("e")), whole));
    CHECK(has(dbm_fetch(db, (datum){bytes + 3, 1023}), whole) && has(dbm_fetch(db, (datum){bytes + 5, 77}), whole));
    /* a key of a fetch lies in the bytes that the fetch writes, at their begin and far behind it; one is no key at all */
    content = dbm_fetch(db, (datum){bytes + 5, 77});
    CHECK(has(dbm_fetch(db, (datum){(char *)content.dptr + 60000, 900}), (datum){"inner", 5}));
    content = dbm_fetch(db, of("a"));
    CHECK(has(dbm_fetch(db, (datum){(char *)content.dptr + 3, 1023}), whole));
    WORKS(!dbm_fetch(db, content).dptr);
    CHECK(dbm_store(db, (datum){bytes, 9}, whole, DBM_INSERT) == 0);
    content = dbm_fetch(db, of("a"));
    CHECK(has(dbm_fetch(db, (datum){content.dptr, 9}), whole));
    dbm_close(db);
}

/* pairs of version 1 stay in an upgrade, and get long contents */
static void upgrades(void) {
    DBM *db = open_how("upgraded", O_RDWR | O_CREAT | O_EXCL, DBMX_VERSION_1);
    dbmx_numbers before, after;
    for (int i = 0; i < PAIRS; i++) CHECK(dbm_store(db, (datum){&i, sizeof i}, first_of((size_t)i), DBM_INSERT) == 0);
    FAILS(EINVAL, dbm_store(db, of("long"), first_of(2027), DBM_INSERT) == -1);
    CHECK(dbm_error(db) == 5 && dbm_clearerr(db) == 0 && version_in("upgraded.db") == 1);
    dbm_close(db);
    db = open_or_end("upgraded", O_RDONLY);
    FAILS(EPERM, dbmx_upgrade(db) == -1);
    CHECK(dbm_error(db) == 4 && dbmx_version(db) == 1);
    dbm_close(db);

    db = open_or_end("upgraded", O_RDWR);
    int keys = 0;
    WORKS(dbmx_stat(db, &before) == 0);
    CHECK(dbm_firstkey(db).dptr);
    datum content = dbm_fetch(db, (datum){&(int){123}, sizeof(int)});
    WORKS(dbmx_upgrade(db) == 0);
    WORKS(dbmx_version(db) == 2);
    /* the pass goes on, and what was given stays */
    CHECK(has(content, first_of(123)));
    for (keys = 1; dbm_nextkey(db).dptr; keys++) continue;
    CHECK(keys == PAIRS && dbm_error(db) == 0);
    WORKS(dbmx_stat(db, &after) == 0 && !memcmp(&before, &after, sizeof after));
    for (int i = 0; i < PAIRS; i++) CHECK(has(dbm_fetch(db, (datum){&i, sizeof i}), first_of((size_t)i)));
    WORKS(dbm_store(db, of("long"), first_of(65535), DBM_INSERT) == 0);
    WORKS(dbmx_verify(db) == 0);
    dbm_close(db);

    CHECK(version_in("upgraded.db") == 2);
    db = open_or_end("upgraded", O_RDWR);
    WORKS(dbmx_version(db) == 2);
    WORKS(dbmx_upgrade(db) == 0);
    WORKS(has(dbm_fetch(db, of("long")), first_of(65535)));
    for (int i = 0; i < PAIRS; i++) CHECK(has(dbm_fetch(db, (datum){&i, sizeof i}), first_of((size_t)i)));
    WORKS(dbmx_verify(db) == 0);
    dbm_close(db);
    db = open_or_end("upgraded", O_RDONLY);
    WORKS(has(dbm_fetch(db, of("long")), first_of(65535)));
    FAILS(EPERM, dbmx_upgrade(db) == -1);
    dbm_close(db);
}

/* lists of long contents, which are stored, replaced and shortened; one of them is too long */
static void lists(void) {
    enum { COUNT = 200 };
    static int keys[COUNT];
    static dbmx_pair pairs[COUNT];
    DBM *db = open_or_end("lists", O_RDWR | O_CREAT | O_EXCL);
    size_t stored = 0;
    for (int i = 0; i < COUNT; i++) {
        keys[i] = i;
        pairs[i] = (dbmx_pair){{&keys[i], sizeof keys[i]}, {bytes + i, 65535 - (size_t)i}};
    }
    WORKS(dbmx_store_many(db, pairs, COUNT, &stored) == 0 && stored == COUNT);
    for (int i = 0; i < COUNT; i++) CHECK(has(dbm_fetch(db, pairs[i].key), pairs[i].content));
    for (int i = 0; i < COUNT; i++) pairs[i].content = (datum){bytes + 2 * i, i % 3 ? (size_t)i : 65535};
    WORKS(dbmx_store_many(db, pairs, COUNT, &stored) == 0 && stored == COUNT);
    for (int i = 0; i < COUNT; i++) CHECK(has(dbm_fetch(db, pairs[i].key), pairs[i].content));
    WORKS(dbmx_verify(db) == 0);
    for (int i = 0; i < COUNT; i++) pairs[i].content = (datum){bytes + 3 * i, 5000};
    pairs[150].content.dsize = 65536;
    FAILS(EINVAL, dbmx_store_many(db, pairs, COUNT, &stored) == -1);
    CHECK(stored == 150 && dbm_error(db) == 5);
    for (int i = 0; i < 150; i++) CHECK(has(dbm_fetch(db, pairs[i].key), pairs[i].content));
    for (int i = 150; i < COUNT; i++) {
        CHECK(has(dbm_fetch(db, pairs[i].key), (datum){bytes + 2 * i, i % 3 ? (size_t)i : 65535}));
    }
    WORKS(dbmx_verify(db) == 0);
    dbm_close(db);

    /* of version 1 a list ends at the first of them that is long */
    db = open_how("first_lists", O_RDWR | O_CREAT | O_EXCL, DBMX_VERSION_1);
    for (int i = 0; i < COUNT; i++) pairs[i].content = (datum){bytes + i, 2022};
    pairs[120].content.dsize = 2023;
    FAILS(EINVAL, dbmx_store_many(db, pairs, COUNT, &stored) == -1);
    CHECK(stored == 120 && dbm_error(db) == 5);
    for (int i = 0; i < COUNT; i++) {
        datum found = dbm_fetch(db, pairs[i].key);
        CHECK(i < 120 ? has(found, pairs[i].content) : !found.dptr);
    }
    WORKS(dbmx_verify(db) == 0);
    dbm_close(db);
}

int main(void) {
    int before = open_descriptors();
    uint32_t random = 1;
    for (size_t i = 0; i < sizeof bytes; i++) {
        random = random * 1103515245 + 12345;
        bytes[i] = (unsigned char)(random >> 16);
    }
    made();
    limits("limits_1", DBMX_VERSION_1);
    limits("limits_2", 0);
    contents();
    buffers();
    upgrades();
    lists();
    CHECK(open_descriptors() == before);
    return bad;
}
