/* Calls whose first request for memory is refused, then their second one, and so on, up to the first time that they need no more. A
 * call that was refused has changed nothing: the file has the bytes that it had, and the database the pairs. One that was answered is
 * there whole. */
#include "refusing.h"

#include <sys/syscall.h>

#include "check.h"

enum { KEYS = 64, OLD = 20, NEW = 40, BEFORE = 60, BEHIND = 61, GROUP = 6, LONG = 21, LONG_SIZE = 40000 };

/* a map: the size of the content of each key, or -1 where the key isn't there */
struct map {
    int sizes[KEYS];
};

enum kind { STORED, DELETED, STORED_MANY, UPGRADED };

/* a change, and the version of the database */
struct change {
    enum kind kind;
    int key, size, version;
};

static const struct change changes[] = {
    {STORED, NEW, 0, 1},        {STORED, NEW, 1900, 1}, {STORED, 3, 200, 1},     {DELETED, 3, 0, 1},
    {STORED_MANY, NEW, 30, 1},  {UPGRADED, 0, 0, 1},    {STORED, NEW, 2100, 2},  {STORED, NEW, 9000, 2},
    {STORED, NEW, 26000, 2},    {STORED, 3, 2500, 2},   {STORED, LONG, 3, 2},    {DELETED, LONG, 0, 2},
    {STORED_MANY, 3, 30, 2},
};

/* how often the database wasn't used any more behind a change that was refused */
static int cuts;

/* whether the next read of a file is refused */
static bool is_unreadable;

ssize_t pread(int fd, void *to, size_t size, off_t at) {
    if (!is_unreadable) return syscall(SYS_pread64, fd, to, size, at);
    is_unreadable = false;
    errno = EIO;
    return -1;
}

ssize_t pread64(int fd, void *to, size_t size, off_t at) {
    return pread(fd, to, size, at);
}

/* No power cut comes here, so nothing is synced. */
int fdatasync(int fd) {
    (void)fd;
    return 0;
}

static datum key_of(int key, char *text) {
    return (datum){text, (size_t)sprintf(text, "key %d", key)};
}

static datum content_of(int key, int size, unsigned char *room) {
    memset(room, 'a' + (key + size) % 26, (size_t)size);
    return (datum){room, (size_t)size};
}

static int store(DBM *db, int key, int size) {
    static unsigned char room[DBMX_CONTENT_MAX];
    char text[16];
    return dbm_store(db, key_of(key, text), content_of(key, size, room), DBM_REPLACE);
}

static int delete(DBM *db, int key) {
    char text[16];
    return dbm_delete(db, key_of(key, text));
}

/* the pairs of this key and those behind it */
static int store_many(DBM *db, int key, int size) {
    static unsigned char rooms[GROUP][DBMX_CONTENT_MAX];
    char texts[GROUP][16];
    dbmx_pair pairs[GROUP];
    size_t stored = 77;
    for (int i = 0; i < GROUP; i++) pairs[i] = (dbmx_pair){key_of(key + i, texts[i]), content_of(key + i, size, rooms[i])};
    int status = dbmx_store_many(db, pairs, GROUP, &stored);
    CHECK(stored == (status ? 0 : GROUP));
    return status;
}

static int carry_out(DBM *db, const struct change *change) {
    switch (change->kind) {
        case STORED: return store(db, change->key, change->size);
        case DELETED: return delete(db, change->key);
        case STORED_MANY: return store_many(db, change->key, change->size);
        default: return dbmx_upgrade(db);
    }
}

/* the same on a map */
static void apply(struct map *map, const struct change *change) {
    int count = change->kind == STORED_MANY ? GROUP : change->kind <= DELETED;
    for (int i = 0; i < count; i++) map->sizes[change->key + i] = change->kind == DELETED ? -1 : change->size;
}

static bool has(DBM *db, int key, int size) {
    static unsigned char room[DBMX_CONTENT_MAX];
    char text[16];
    datum found = dbm_fetch(db, key_of(key, text));
    if (size < 0) return !found.dptr;
    return found.dptr && found.dsize == (size_t)size && !memcmp(found.dptr, content_of(key, size, room).dptr, found.dsize);
}

/* Whether the database is this map, and its file is whole. */
static bool is_map(DBM *db, const struct map *map) {
    dbmx_numbers numbers;
    uint32_t pairs = 0;
    for (int key = 0; key < KEYS; key++) {
        if (!has(db, key, map->sizes[key])) return false;
        pairs += map->sizes[key] >= 0;
    }
    return !dbmx_stat(db, &numbers) && numbers.pairs == pairs && !dbmx_verify(db) && !dbm_error(db);
}

/* the bytes of a file, and how many there are */
static char *bytes_of(const char *path, size_t *size) {
    *size = (size_t)size_of(path);
    int fd = open(path, O_RDONLY);
    char *bytes = malloc(*size + 1);
    if (fd < 0 || !bytes || read(fd, bytes, *size) != (ssize_t)*size || close(fd)) exit(2);
    return bytes;
}

static void copy_file(const char *from, const char *to) {
    size_t size;
    char *bytes = bytes_of(from, &size);
    write_file(to, bytes, size, 0644);
    free(bytes);
}

/* whether the file has these bytes, which are given back */
static bool has_stayed(char *bytes, size_t size) {
    size_t size_now;
    char *now = bytes_of("t.db", &size_now);
    bool stays = size == size_now && !memcmp(bytes, now, size);
    free(now);
    free(bytes);
    return stays;
}

/* Makes the file of a version that changes are made on, with a pair of a long content where the version has such, and tells its map. */
static void make_file(const char *name, int version, struct map *map) {
    const dbmx_how how = {.limit = 1000, .options = version == 1 ? DBMX_VERSION_1 : 0};
    DBM *db = dbmx_open(name, O_RDWR | O_CREAT | O_EXCL, 0644, &how, NULL);
    if (!db) exit(1);
    for (int key = 0; key < KEYS; key++) {
        map->sizes[key] = key < OLD ? 10 * key : key == LONG && version == 2 ? LONG_SIZE : -1;
        CHECK(map->sizes[key] < 0 || store(db, key, map->sizes[key]) == 0);
    }
    CHECK(is_map(db, map));
    dbm_close(db);
}

/* whether every call fails, until the database is opened again */
static bool is_cut(DBM *db) {
    errno = 0;
    if (dbm_fetch(db, of("key 1")).dptr || errno != EIO) return false;
    FAILS(EIO, store(db, 1, 1) == -1);
    FAILS(EIO, dbmx_sync(db) == -1);
    return true;
}

/* Ends with a database that has to be this map, now, behind one more store, and opened again. */
static void judge(DBM *db, struct map map, const char *what, long n) {
    CHECK(dbm_clearerr(db) == 0);
    if (is_cut(db)) {
        cuts++;
        FAILS(EIO, (dbm_close(db), true));
        db = open_or_end("t", O_RDWR);
    }
    bool good = CHECK(is_map(db, &map)) && CHECK(store(db, BEHIND, 20) == 0);
    map.sizes[BEHIND] = 20;
    WORKS((dbm_close(db), true));
    db = open_or_end("t", O_RDONLY);
    good = CHECK(is_map(db, &map)) && good;
    dbm_close(db);
    if (!good) printf("so behind %s with request %ld refused\n", what, n);
}

/* Makes a change with a request refused, and answers whether there was one. Where it is a second change, the first one has left pages
 * that aren't in their places yet. */
static bool made(const struct change *change, bool is_second, const struct map *from, long n) {
    struct map map = *from, changed;
    char what[80];
    snprintf(what, sizeof what, "change %d%s", (int)(change - changes), is_second ? ", a second one," : "");
    copy_file(change->version == 1 ? "first.db" : "second.db", "t.db");
    DBM *db = open_or_end("t", O_RDWR);
    if (is_second) CHECK(store(db, BEFORE, 10) == 0);
    if (is_second) map.sizes[BEFORE] = 10;
    changed = map;
    apply(&changed, change);
    size_t size;
    char *bytes = bytes_of("t.db", &size);
    refuse(n);
    errno = 77;
    int status = carry_out(db, change), error = errno;
    refused = 0;
    int fault = dbm_error(db);
    bool was = was_refused, stays = has_stayed(bytes, size);
    if (status) CHECK(status == -1 && was && error == ENOMEM && (fault == 1 || fault == 2) && stays);
    if (!status) CHECK(error == 77 && fault == 0);
    judge(db, status ? map : changed, what, n);
    return was;
}

/* Each request of a change is refused. Where it has the memory of another one, it may make none. */
static void each_request(const struct change *change, bool is_second, const struct map *from) {
    long n = 1;
    while (made(change, is_second, from, n)) n++;
    CHECK(n > 1 || is_second);
}

static void each_change(const struct map *maps) {
    for (size_t i = 0; i < sizeof changes / sizeof *changes; i++) {
        each_request(&changes[i], false, &maps[changes[i].version - 1]);
        each_request(&changes[i], true, &maps[changes[i].version - 1]);
    }
    CHECK(cuts > 0);
}

/* A closing may be refused memory, and says so or not: all that was stored is there. */
static void closings(struct map map) {
    long n = 0;
    map.sizes[BEFORE] = 10;
    do {
        copy_file("second.db", "t.db");
        DBM *db = open_or_end("t", O_RDWR);
        CHECK(store(db, BEFORE, 10) == 0);
        refuse(++n);
        errno = 77;
        dbm_close(db);
        int error = errno;
        refused = 0;
        CHECK(error == 77 || (was_refused && error == ENOMEM));
        bool was = was_refused;
        judge(open_or_end("t", O_RDWR), map, "a closing", n);
        was_refused = was;
    } while (was_refused);
}

/* so with an opening of a file whose last change isn't in its places yet */
static void openings(struct map map) {
    long n = 0;
    copy_file("second.db", "t.db");
    DBM *db = open_or_end("t", O_RDWR);
    CHECK(store(db, BEFORE, 10) == 0);
    map.sizes[BEFORE] = 10;
    copy_file("t.db", "left.db");
    dbm_close(db);
    do {
        int fault = 99;
        copy_file("left.db", "t.db");
        refuse(++n);
        errno = 77;
        db = dbmx_open("t", O_RDWR, 0, NULL, &fault);
        int error = errno;
        refused = 0;
        CHECK(db ? error == 77 && fault == 0 : was_refused && error == ENOMEM && fault == 1);
        bool was = was_refused;
        judge(db ? db : open_or_end("t", O_RDWR), map, "an opening", n);
        was_refused = was;
    } while (was_refused);
    CHECK(n > 5);
}

/* Behind a read that the system refused, a change whose pages are all in memory, or new: where there is no memory for its list, which is
 * longer than the one before, this is told, and not taken for a read that lacks a sector. It answers whether a request was refused. */
static bool unread(struct map map, long n) {
    copy_file("second.db", "t.db");
    DBM *db = open_or_end("t", O_RDWR);
    CHECK(has(db, NEW, -1) && has(db, 1, map.sizes[1]) && store(db, 1, 7) == 0);
    map.sizes[1] = 7;
    is_unreadable = true;
    FAILS(EIO, has(db, LONG, -1));
    CHECK(!is_unreadable && dbm_error(db) == 2 && dbm_clearerr(db) == 0);
    refuse(n);
    errno = 77;
    int status = store(db, NEW, 9000), error = errno;
    refused = 0;
    int fault = dbm_error(db);
    CHECK(status ? status == -1 && was_refused && error == ENOMEM && (fault == 1 || fault == 2) : error == 77 && fault == 0);
    if (!status) map.sizes[NEW] = 9000;
    bool was = was_refused;
    judge(db, map, "a read that was refused", n);
    return was;
}

int main(void) {
    static struct map maps[2];
    int before = open_descriptors();
    make_file("first", 1, &maps[0]);
    make_file("second", 2, &maps[1]);
    each_change(maps);
    closings(maps[1]);
    openings(maps[1]);
    long n = 1;
    while (unread(maps[1], n)) n++;
    CHECK(n > 1);
    CHECK(open_descriptors() == before);
    return bad;
}
