/* The calls that are beyond the standard's: many pairs stored, sync, numbers, verify and the words of faults. */
#include "check.h"

enum { MANY = 20000, LARGE = 3000, LARGE_SIZE = 2000 };

static struct {
    char key[16], content[16];
} texts[MANY];
static dbmx_pair many[MANY];

static void fill(void) {
    for (int i = 0; i < MANY; i++) {
        snprintf(texts[i].key, sizeof texts[i].key, "key %d", i);
        snprintf(texts[i].content, sizeof texts[i].content, "%d", i * 7);
        many[i] = (dbmx_pair){of(texts[i].key), of(texts[i].content)};
    }
}

static uint32_t pairs_of(DBM *db) {
    dbmx_numbers numbers = {0};
    WORKS(dbmx_stat(db, &numbers) == 0);
    return numbers.pairs;
}

/* Whether the first so many of the list are there, and none of the others. */
static bool are_there(DBM *db, size_t count, size_t of_all) {
    for (size_t i = 0; i < of_all; i++) {
        datum found = dbm_fetch(db, many[i].key);
        if (i < count ? !is(found, texts[i].content) : found.dptr != NULL) return false;
    }
    return true;
}

static void all_of_them(void) {
    DBM *db = open_or_end("many", O_RDWR | O_CREAT | O_EXCL);
    size_t stored = 77;
    WORKS(dbmx_store_many(db, NULL, 0, &stored) == 0 && stored == 0);
    WORKS(dbmx_store_many(db, many, 0, NULL) == 0);
    CHECK(pairs_of(db) == 0);
    WORKS(dbmx_store_many(db, many, MANY, &stored) == 0 && stored == MANY);
    CHECK(pairs_of(db) == MANY && are_there(db, MANY, MANY));
    WORKS(dbmx_store_many(db, many, 100, NULL) == 0);
    CHECK(pairs_of(db) == MANY);
    WORKS(dbmx_verify(db) == 0);
    WORKS(dbmx_sync(db) == 0);
    WORKS(dbmx_sync(db) == 0);
    WORKS((dbm_close(db), true));
    db = open_or_end("many", O_RDONLY);
    CHECK(pairs_of(db) == MANY && are_there(db, MANY, MANY));
    WORKS(dbmx_verify(db) == 0);
    size_t none = 77;
    FAILS(EPERM, dbmx_store_many(db, many, 1, &none) == -1);
    CHECK(none == 0 && dbm_error(db) == 4);
    dbm_close(db);
}

/* of two pairs with one key the later one stays, and it is stored over what is there */
static void replaced(void) {
    DBM *db = open_or_end("twice", O_RDWR | O_CREAT | O_EXCL);
    dbmx_pair pairs[] = {{of("a"), of("1")}, {of("b"), of("2")}, {of("a"), of("3")}, {{NULL, 0}, {NULL, 0}}};
    size_t stored = 0;
    CHECK(dbm_store(db, of("b"), of("before"), DBM_INSERT) == 0);
    WORKS(dbmx_store_many(db, pairs, 4, &stored) == 0 && stored == 4);
    CHECK(is(dbm_fetch(db, of("a")), "3") && is(dbm_fetch(db, of("b")), "2") && pairs_of(db) == 3);
    datum empty = dbm_fetch(db, (datum){NULL, 0});
    CHECK(empty.dptr && empty.dsize == 0);
    dbm_close(db);
}

/* more bytes than go into one commit */
static void large(void) {
    DBM *db = open_or_end("large", O_RDWR | O_CREAT | O_EXCL);
    char *bytes = malloc((size_t)LARGE * LARGE_SIZE);
    dbmx_pair *pairs = malloc(LARGE * sizeof *pairs);
    if (!bytes || !pairs) exit(2);
    for (int i = 0; i < LARGE; i++) {
        char *content = bytes + (size_t)i * LARGE_SIZE;
        memset(content, 'a' + i % 26, LARGE_SIZE);
        pairs[i] = (dbmx_pair){of(texts[i].key), {content, LARGE_SIZE}};
    }
    size_t stored = 0;
    WORKS(dbmx_store_many(db, pairs, LARGE, &stored) == 0 && stored == LARGE);
    CHECK(pairs_of(db) == LARGE);
    for (int i = 0; i < LARGE; i++) {
        datum found = dbm_fetch(db, pairs[i].key);
        if (!CHECK(found.dsize == LARGE_SIZE && !memcmp(found.dptr, pairs[i].content.dptr, LARGE_SIZE))) break;
    }
    dbm_close(db);
    free(pairs);
    free(bytes);
}

/* One pair of the list is put out of shape: those before it are stored, those behind it aren't. The options say of which version
 * the database is. */
static void stops_at(size_t place, datum key, datum content, unsigned options, int number, int fault) {
    enum { COUNT = 9000 };
    dbmx_how how = {.options = options};
    DBM *db = dbmx_open("stops", O_RDWR | O_CREAT | O_TRUNC, 0644, &how, NULL);
    if (!CHECK(db != NULL)) return;
    dbmx_pair was = many[place];
    many[place] = (dbmx_pair){key, content};
    size_t stored = COUNT;
    errno = 0;
    CHECK(dbmx_store_many(db, many, COUNT, &stored) == -1 && errno == number);
    CHECK(stored == place && dbm_error(db) == fault);
    many[place] = was;
    CHECK(pairs_of(db) == place && are_there(db, place, COUNT));
    dbm_close(db);
}

static void refused(void) {
    static char bytes[DBMX_CONTENT_MAX + 1];
    /* together 2,027 bytes or more, of which version 2 refuses the key of 1,024 */
    const datum half = {bytes, 1014}, long_key = {bytes, 1024}, whole = {bytes, 2027};
    const datum nowhere = {NULL, 1}, endless = {bytes, SIZE_MAX}, too_long = {bytes, sizeof bytes};
    static const size_t places[] = {0, 1, 500, 8191, 8192, 8999};
    for (size_t i = 0; i < sizeof places / sizeof *places; i++) {
        stops_at(places[i], half, half, DBMX_VERSION_1, EINVAL, 5);
        stops_at(places[i], long_key, half, 0, EINVAL, 5);
    }
    stops_at(3, of("key"), whole, DBMX_VERSION_1, EINVAL, 5);
    stops_at(3, of("key"), too_long, 0, EINVAL, 5);
    for (unsigned options = 0; options <= DBMX_VERSION_1; options += DBMX_VERSION_1) {
        stops_at(3, whole, of("content"), options, EINVAL, 5);
        stops_at(3, nowhere, of("content"), options, EINVAL, 0);
        stops_at(3, of("key"), nowhere, options, EINVAL, 0);
        stops_at(3, of("key"), endless, options, EINVAL, 0);
        stops_at(3, endless, endless, options, EINVAL, 0);
    }

    dbmx_how how = {.limit = 1000};
    size_t stored = 0;
    DBM *db = dbmx_open("few", O_RDWR | O_CREAT, 0644, &how, NULL);
    FAILS(ENOSPC, dbmx_store_many(db, many, 1500, &stored) == -1);
    CHECK(stored == 1000 && dbm_error(db) == 6 && pairs_of(db) == 1000 && are_there(db, 1000, 1500));
    CHECK(dbm_clearerr(db) == 0);
    WORKS(dbmx_store_many(db, many, 1000, &stored) == 0 && stored == 1000);
    FAILS(EINVAL, dbmx_store_many(db, NULL, 1, &stored) == -1);
    CHECK(stored == 0 && dbm_error(db) == 0);
    FAILS(EINVAL, dbmx_stat(db, NULL) == -1);
    dbm_close(db);

    dbmx_numbers numbers;
    stored = 5;
    FAILS(EINVAL, dbmx_store_many(NULL, many, 1, &stored) == -1);
    CHECK(stored == 0);
    FAILS(EINVAL, dbmx_sync(NULL) == -1);
    FAILS(EINVAL, dbmx_stat(NULL, &numbers) == -1);
    FAILS(EINVAL, dbmx_verify(NULL) == -1);
}

/* a file that was cut is refused, by its opening or by a look at it */
static void damaged(void) {
    int fault = 0;
    CHECK(size_of("few.db") > 6000 && !truncate("few.db", 6000));
    DBM *db = dbmx_open("few", O_RDONLY, 0, NULL, &fault);
    if (!db) {
        CHECK(errno == EIO && fault == 9);
        return;
    }
    FAILS(EIO, dbmx_verify(db) == -1);
    CHECK(dbm_error(db) == 9);
    dbm_close(db);
}

static void words(int count, char **wanted) {
    CHECK(!strcmp(dbmx_error_text(0), "no fault"));
    for (int i = 0; i < count; i++) {
        const char *text = dbmx_error_text(i + 1);
        if (!CHECK(!strcmp(text, wanted[i]))) printf("fault %d is '%s', and not '%s'\n", i + 1, text, wanted[i]);
    }
    static const int others[] = {16, -1, 1000, -2147483647 - 1, 2147483647};
    for (size_t i = 0; i < sizeof others / sizeof *others; i++) CHECK(!strcmp(dbmx_error_text(others[i]), "unknown fault"));
    CHECK(count == 15);
}

/* The words of the command line are those of the faults from 1 on. */
int main(int count, char **arguments) {
    int before = open_descriptors();
    fill();
    all_of_them();
    replaced();
    large();
    refused();
    damaged();
    words(count - 1, arguments + 1);
    CHECK(open_descriptors() == before);
    return bad;
}
