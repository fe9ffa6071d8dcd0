/* Stores of a database that is built: all answers are those of the map that has all of them, what is refused is told by its own call, and
 * a child that is killed at some moment leaves the first of its pairs. */
#include <signal.h>
#include <stdatomic.h>
#include <sys/mman.h>
#include <sys/resource.h>
#include <time.h>

#include "builds.h"

enum { KEYS = 2000, STEPS = 15000, ROUNDS = 40, KILLED_PAIRS = 12000, FEW_BYTES = 400000 };

/* The content of each key is told by a number from 1 on, by which its size goes; 0: it isn't there. */
static uint32_t map[KEYS];
static uint32_t there;

static uint32_t drawn(uint32_t below) {
    static uint32_t random = 1;
    random = random * 1103515245 + 12345;
    return (random >> 8) % below;
}

static size_t size_of_content(uint32_t number) {
    if (number % 500 == 77) return 30000 + number % 30000;
    return number % 40 == 7 ? 2000 + number % 2000 : number % 60;
}

static int fill_of(uint32_t number) {
    return (int)(number % 251);
}

/* One store, and what it answers. */
static void store_in_both(DBM *db, uint32_t key, uint32_t number, int mode) {
    int wanted = mode == DBM_INSERT && map[key] ? 1 : 0;
    WORKS(put_filled(db, key, size_of_content(number), fill_of(number), mode) == wanted);
    if (wanted) return;
    there += !map[key];
    map[key] = number;
}

static bool is_as_in_map(DBM *db, uint32_t key) {
    char text[LONGEST_KEY];
    if (!map[key]) return !dbm_fetch(db, key_of(key, text)).dptr;
    return is_filled(db, key, size_of_content(map[key]), fill_of(map[key]));
}

static void delete_in_both(DBM *db, uint32_t key) {
    char text[LONGEST_KEY];
    CHECK(dbm_delete(db, key_of(key, text)) == (map[key] ? 0 : -1));
    there -= map[key] != 0;
    map[key] = 0;
}

/* how many keys a pass gives, between whose calls pairs are replaced */
static uint32_t passed(DBM *db, uint32_t number) {
    uint32_t count = 0;
    for (datum key = dbm_firstkey(db); key.dptr; key = dbm_nextkey(db)) {
        uint32_t replaced = drawn(KEYS);
        if (map[replaced] && count < 8) store_in_both(db, replaced, number + count, DBM_REPLACE);
        count++;
    }
    return count;
}

/* One call whose answer goes by all stores before it. */
static void ask(DBM *db, uint32_t number) {
    uint32_t which = drawn(10);
    if (which < 5) CHECK(is_as_in_map(db, drawn(KEYS)));
    if (which == 5 || which == 6) delete_in_both(db, drawn(KEYS));
    if (which == 7) CHECK(pairs_of(db) == there);
    if (which == 8) CHECK(dbmx_verify(db) == 0 && dbmx_sync(db) == 0);
    if (which == 9) CHECK(passed(db, number) == there);
}

/* Stores and now and then another call; then all pairs are there, also behind the closing. */
static void is_the_map(const char *file, int modes) {
    DBM *db = build_or_end(file, O_RDWR | O_CREAT | O_TRUNC);
    memset(map, 0, sizeof map);
    there = 0;
    for (uint32_t i = 1; i <= STEPS; i++) {
        int mode = modes == 2 ? (int)drawn(2) : modes;
        store_in_both(db, drawn(KEYS), i, mode);
        if (drawn(200) == 0) ask(db, i);
    }
    WORKS((dbm_close(db), true));
    db = open_or_end(file, O_RDONLY);
    CHECK(pairs_of(db) == there && dbmx_verify(db) == 0);
    for (uint32_t key = 0; key < KEYS; key++) CHECK(is_as_in_map(db, key));
    dbm_close(db);
}

/* What a child does that ends with nothing closed: how it opens the file, and what it calls behind three stores. */
static DBM *(*opens)(void);
static int (*asks)(DBM *);

static void store_three(void) {
    left_open = opens();
    for (uint32_t i = 0; left_open && i < 3; i++) CHECK(put_filled(left_open, i, 10, 'a', i % 2 ? DBM_INSERT : DBM_REPLACE) == 0);
    CHECK(left_open && (!asks || asks(left_open) == 0));
}

/* how many pairs are there when such a child has ended */
static uint32_t left_by(DBM *(*opening)(void), int (*asking)(DBM *)) {
    opens = opening;
    asks = asking;
    unlink("left.db");
    in_child(store_three);
    return pairs_in("left");
}

static DBM *plainly(void) {
    return dbm_open("left", O_RDWR | O_CREAT, 0644);
}
static DBM *with_truncation(void) {
    return dbm_open("left", O_RDWR | O_CREAT | O_TRUNC, 0644);
}
static DBM *exclusively(void) {
    return dbm_open("left", O_RDWR | O_CREAT | O_EXCL, 0644);
}
static DBM *with_no_how(void) {
    return dbmx_open("left", O_RDWR | O_CREAT, 0644, NULL, NULL);
}
static DBM *by_option(void) {
    return dbmx_open("left", O_RDWR | O_CREAT, 0644, &building, NULL);
}
static DBM *with_another_how(void) {
    static const dbmx_how how = {.limit = 1000};
    return dbmx_open("left", O_RDWR | O_CREAT, 0644, &how, NULL);
}
static DBM *that_is_there(void) {
    dbm_close(open_or_end("left", O_RDWR | O_CREAT));
    return dbm_open("left", O_RDWR | O_CREAT, 0644);
}

/* which openings build, by the environment and by the option */
static void who_builds(void) {
    CHECK(left_by(plainly, NULL) == 3 && left_by(with_truncation, NULL) == 3 && left_by(by_option, NULL) == 0);
    setenv("KUMQUATFEN_BUILD", "yes", 1);
    CHECK(left_by(plainly, NULL) == 3);
    setenv("KUMQUATFEN_BUILD", "1", 1);
    CHECK(left_by(plainly, NULL) == 0 && left_by(with_truncation, NULL) == 0 && left_by(exclusively, NULL) == 0);
    CHECK(left_by(with_no_how, NULL) == 0 && left_by(with_another_how, NULL) == 3 && left_by(that_is_there, NULL) == 3);
    setenv("KUMQUATFEN_SHARED", "1", 1);
    CHECK(left_by(plainly, NULL) == 3);
    unsetenv("KUMQUATFEN_SHARED");
    unsetenv("KUMQUATFEN_BUILD");
}

static int fetches(DBM *db) {
    return !is_filled(db, 1, 10, 'a');
}
static int fetches_another(DBM *db) {
    return dbm_fetch(db, of("none")).dptr != NULL;
}
static int begins_pass(DBM *db) {
    return !dbm_firstkey(db).dptr;
}
static int deletes(DBM *db) {
    return dbm_delete(db, of("none")) != -1;
}
static int stats(DBM *db) {
    return pairs_of(db) != 3;
}
static int tells_version(DBM *db) {
    return dbmx_version(db) != 2;
}
static int stores_list(DBM *db) {
    return dbmx_store_many(db, NULL, 0, NULL);
}

/* Each call that answers by the pairs has them stored before it. */
static void who_commits(void) {
    static int (*const calls[])(DBM *) = {fetches,     fetches_another, begins_pass,  deletes,     stats,    tells_version,
                                          stores_list, dbmx_sync,       dbmx_verify, dbmx_upgrade, dbm_error};
    for (size_t i = 0; i < sizeof calls / sizeof *calls; i++) CHECK(left_by(by_option, calls[i]) == 3);
}

/* A pair that is refused is so by its own call, and those around it stand. */
static void refusals(void) {
    static unsigned char bytes[DBMX_CONTENT_MAX + 1];
    const dbmx_how small = {.limit = 4, .options = DBMX_BUILD}, first = {.options = DBMX_BUILD | DBMX_VERSION_1};
    DBM *db = dbmx_open("small", O_RDWR | O_CREAT, 0644, &small, NULL);
    for (uint32_t i = 0; i < 4; i++) CHECK(put_filled(db, i, i, 'a', DBM_INSERT) == 0);
    FAILS(ENOSPC, put_filled(db, 4, 4, 'a', DBM_INSERT) == -1);
    CHECK(dbm_error(db) == 6 && dbm_clearerr(db) == 0);
    FAILS(ENOSPC, put_filled(db, 5, 5, 'a', DBM_REPLACE) == -1);
    CHECK(dbm_clearerr(db) == 0 && put_filled(db, 1, 7, 'b', DBM_INSERT) == 1 && put_filled(db, 1, 7, 'b', DBM_REPLACE) == 0);
    FAILS(EINVAL, dbm_store(db, of("long"), (datum){bytes, sizeof bytes}, DBM_REPLACE) == -1);
    CHECK(dbm_error(db) == 5 && pairs_of(db) == 4 && is_filled(db, 1, 7, 'b') && is_filled(db, 3, 3, 'a'));
    FAILS(EINVAL, dbm_store(db, (datum){NULL, 1}, of("a"), DBM_REPLACE) == -1);
    FAILS(EINVAL, dbm_store(db, of("a"), of("a"), 2) == -1);
    dbm_close(db);
    CHECK(pairs_in("small") == 4);

    db = dbmx_open("first", O_RDWR | O_CREAT, 0644, &first, NULL);
    CHECK(put_filled(db, 1, 1000, 'a', DBM_INSERT) == 0);
    FAILS(EINVAL, put_filled(db, 2, 3000, 'a', DBM_INSERT) == -1);
    CHECK(dbm_error(db) == 5 && dbmx_upgrade(db) == 0 && put_filled(db, 2, 3000, 'a', DBM_INSERT) == 0);
    CHECK(is_filled(db, 2, 3000, 'a') && is_filled(db, 1, 1000, 'a'));
    dbm_close(db);
}

static void options(void) {
    const dbmx_how shared = {.options = DBMX_BUILD | DBMX_SHARED}, unlocked = {.options = DBMX_BUILD | DBMX_UNLOCKED};
    FAILS(EINVAL, !dbmx_open("none", O_RDWR | O_CREAT, 0644, &shared, NULL));
    FAILS(EINVAL, !dbmx_open("none", O_RDWR | O_CREAT, 0644, &unlocked, NULL));
    FAILS(ENOENT, !dbmx_open("none", O_RDWR | O_TRUNC, 0644, &building, NULL));
    FAILS(ENOENT, !dbmx_open("none", O_RDONLY | O_CREAT, 0644, &building, NULL));
    DBM *db = build_or_end("small", O_RDONLY);
    CHECK(pairs_of(db) == 4);
    FAILS(EPERM, put_filled(db, 1, 1, 'a', DBM_REPLACE) == -1);
    dbm_close(db);
    FAILS(EPERM, !dbmx_open("small", O_RDONLY | O_TRUNC, 0644, &building, NULL));
    FAILS(EEXIST, !dbmx_open("small", O_RDWR | O_CREAT | O_EXCL | O_TRUNC, 0644, &building, NULL));
}

/* The system refuses to let the file grow: the call that meets it tells so, all that come behind it are refused, and the file has the first of
 * the pairs. */
static void too_large(void) {
    const struct rlimit most = {FEW_BYTES, FEW_BYTES};
    uint32_t count = 0;
    signal(SIGXFSZ, SIG_IGN);
    DBM *db = build_or_end("large", O_RDWR | O_CREAT);
    CHECK(!setrlimit(RLIMIT_FSIZE, &most));
    errno = 0;
    while (count < KILLED_PAIRS && put_filled(db, count, 500, 'a', DBM_INSERT) == 0) count++;
    CHECK(errno == EFBIG && count < KILLED_PAIRS && dbm_error(db) == 2);
    FAILS(EIO, put_filled(db, 0, 1, 'b', DBM_REPLACE) == -1);
    FAILS(EIO, put_filled(db, count, 1, 'b', DBM_INSERT) == -1);
    FAILS(EIO, !dbm_fetch(db, of("key 0")).dptr);
    FAILS(EIO, dbmx_sync(db) == -1);
    FAILS(EIO, (dbm_close(db), true));
    /* a failure that the closing meets */
    db = build_or_end("larger", O_RDWR | O_CREAT);
    for (uint32_t i = 0; i < 900; i++) CHECK(put_filled(db, i, 500, 'a', DBM_REPLACE) == 0);
    FAILS(EFBIG, (dbm_close(db), true));
    CHECK(pairs_in("larger") < 900);
}

/* The pairs that are there are the first ones: how many. Where the child was killed before there was a database, one is made. */
static uint32_t first_pairs(const char *file) {
    char text[LONGEST_KEY];
    DBM *db = dbm_open(file, O_RDONLY, 0);
    if (!db) db = open_or_end(file, O_RDWR | O_CREAT);
    uint32_t pairs = pairs_of(db);
    CHECK(dbmx_verify(db) == 0);
    for (uint32_t i = 0; i < pairs; i += 1 + i / 50) CHECK(is_filled(db, i, 500 + i % 700, (int)(i % 251)));
    CHECK(!pairs || is_filled(db, pairs - 1, 500 + (pairs - 1) % 700, (int)((pairs - 1) % 251)));
    CHECK(!dbm_fetch(db, key_of(pairs, text)).dptr);
    dbm_close(db);
    return pairs;
}

/* how many pairs a child has stored so far, in memory that it shares with its parent */
static _Atomic uint32_t *stored;

static void build_on(void) {
    DBM *db = build_or_end("killed", O_RDWR | O_CREAT);
    for (uint32_t i = 0; i < KILLED_PAIRS; i++) {
        CHECK(put_filled(db, i, 500 + i % 700, (int)(i % 251), i % 3 ? DBM_INSERT : DBM_REPLACE) == 0);
        *stored = i + 1;
    }
    dbm_close(db);
}

static void rest(long microseconds) {
    nanosleep(&(struct timespec){0, microseconds * 1000}, NULL);
}

/* How many pairs a build leaves that is killed at some moment behind its store of so many. */
static uint32_t killed_behind(uint32_t pairs) {
    int status = 0;
    pid_t ended = 0;
    unlink("killed.db");
    *stored = 0;
    pid_t child = fork();
    if (!child) {
        build_on();
        _exit(bad);
    }
    while (*stored < pairs && !(ended = waitpid(child, &status, WNOHANG))) rest(50);
    rest((long)drawn(2000));
    kill(child, SIGKILL);
    CHECK((ended == child || waitpid(child, &status, 0) == child) && (status == 0 || WIFSIGNALED(status)));
    return first_pairs("killed");
}

static void kills(void) {
    int between = 0;
    stored = mmap(NULL, sizeof *stored, PROT_READ | PROT_WRITE, MAP_SHARED | MAP_ANONYMOUS, -1, 0);
    if (!CHECK(stored != MAP_FAILED)) return;
    for (int round = 0; round < ROUNDS; round++) {
        uint32_t pairs = killed_behind(drawn(KILLED_PAIRS));
        between += pairs > 0 && pairs < KILLED_PAIRS;
    }
    if (!CHECK(between >= ROUNDS / 5)) printf("only %d builds were killed within their stores\n", between);
}

/* A child has no use of a build, and its closing writes nothing. */
static void children(void) {
    DBM *db = build_or_end("parents", O_RDWR | O_CREAT);
    int status = 1;
    for (uint32_t i = 0; i < 100; i++) CHECK(put_filled(db, i, 10, 'a', DBM_INSERT) == 0);
    off_t size = size_of("parents.db");
    pid_t child = fork();
    if (!child) {
        FAILS(EINVAL, put_filled(db, 100, 10, 'a', DBM_INSERT) == -1);
        FAILS(EINVAL, dbm_error(db) == -1);
        WORKS((dbm_close(db), true));
        _exit(bad);
    }
    CHECK(waitpid(child, &status, 0) == child && status == 0 && size_of("parents.db") == size);
    CHECK(put_filled(db, 100, 10, 'a', DBM_INSERT) == 0);
    WORKS((dbm_close(db), true));
    CHECK(pairs_in("parents") == 101);
}

int main(void) {
    int before = open_descriptors();
    is_the_map("inserts", DBM_INSERT);
    is_the_map("replaces", DBM_REPLACE);
    is_the_map("both", 2);
    is_the_map("both", 2);
    who_builds();
    who_commits();
    refusals();
    options();
    apart(too_large);
    kills();
    children();
    CHECK(open_descriptors() == before);
    return bad;
}
