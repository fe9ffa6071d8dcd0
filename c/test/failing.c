/* What fails below the library: memory that is refused, a file that can't grow or be looked at, and what the file keeps then. The
 * system's functions that it calls are those here: they change errno also where they succeed, as they may. */
#include "refusing.h"

#include <signal.h>
#include <sys/file.h>
#include <sys/resource.h>
#include <sys/syscall.h>

#include "check.h"

static long noted(long answer) {
    if (answer >= 0) errno = ENOTTY;
    return answer;
}

ssize_t pread(int fd, void *to, size_t size, off_t at) {
    return noted(syscall(SYS_pread64, fd, to, size, at));
}

ssize_t pread64(int fd, void *to, size_t size, off_t at) {
    return noted(syscall(SYS_pread64, fd, to, size, at));
}

/* how many writes and syncs were made */
static int writes, syncs;

ssize_t pwrite(int fd, const void *from, size_t size, off_t at) {
    writes++;
    return noted(syscall(SYS_pwrite64, fd, from, size, at));
}

ssize_t pwrite64(int fd, const void *from, size_t size, off_t at) {
    return pwrite(fd, from, size, at);
}

int fdatasync(int fd) {
    syncs++;
    return (int)noted(syscall(SYS_fdatasync, fd));
}

int fsync(int fd) {
    return (int)noted(syscall(SYS_fsync, fd));
}

/* the fstat that is refused, counted from now on; 0: none */
static long unseen;

int fstat(int fd, struct stat *it) {
    if (unseen && !--unseen) {
        errno = EOVERFLOW;
        return -1;
    }
    return (int)noted(syscall(SYS_fstat, fd, it));
}

int flock(int fd, int operation) {
    return (int)noted(syscall(SYS_flock, fd, operation));
}

int close(int fd) {
    return (int)noted(syscall(SYS_close, fd));
}

/* The database, which is opened again where a change that was refused has left it of no use. */
static DBM *usable(DBM *db, const char *file) {
    errno = 0;
    if (dbm_fetch(db, of("a")).dptr || errno != EIO) return db;
    FAILS(EIO, (dbm_close(db), true));
    return open_or_end(file, O_RDWR);
}

/* an opening opens, or tells of memory and leaves nothing open */
static void openings(int flags) {
    long n = 0;
    do {
        int fault = 99;
        refuse(++n);
        errno = 77;
        DBM *db = dbmx_open("memory", flags, 0644, NULL, &fault);
        int error = errno;
        refused = 0;
        if (!db) CHECK(was_refused && error == ENOMEM && fault == 1);
        if (db) CHECK(error == 77 && fault == 0);
        if (db) dbm_close(db);
        /* what was refused holds no lock */
        db = dbm_open("memory", O_RDWR | O_CREAT, 0644);
        CHECK(db != NULL);
        if (db) dbm_close(db);
        if (flags & O_EXCL) unlink("memory.db");
    } while (was_refused);
    CHECK(n > 2);
}

/* a list of one pair is stored, or tells of memory and isn't there */
static DBM *lists(DBM *db) {
    const dbmx_pair pair = {of("a"), of("1")};
    long n = 0;
    do {
        size_t count = 77;
        refuse(++n);
        errno = 77;
        int status = dbmx_store_many(db, &pair, 1, &count), error = errno;
        refused = 0;
        CHECK(status ? status == -1 && was_refused && error == ENOMEM && count == 0 : error == 77 && count == 1);
        db = usable(db, "memory");
        CHECK(!dbm_clearerr(db) && (status != 0) == !dbm_fetch(db, of("a")).dptr);
        if (!status) CHECK(dbm_delete(db, of("a")) == 0);
    } while (was_refused);
    return db;
}

/* A store stores, or tells of memory and changes nothing. Where there is no memory for pages of the file, the fault is the
 * device's. */
static void stores(void) {
    DBM *db = open_or_end("memory", O_RDWR | O_CREAT | O_TRUNC);
    int stored = 0;
    for (int i = 0; i < 2000; i++) {
        datum pair = {&i, sizeof i};
        refuse(1);
        errno = 77;
        int status = dbm_store(db, pair, pair, DBM_INSERT), error = errno, fault = dbm_error(db);
        refused = 0;
        stored += status == 0;
        if (status) CHECK(status == -1 && was_refused && error == ENOMEM && (fault == 1 || fault == 2));
        db = usable(db, "memory");
        CHECK(dbm_clearerr(db) == 0);
        if (!status) CHECK(error == 77);
    }
    dbmx_numbers numbers;
    CHECK(dbmx_stat(db, &numbers) == 0 && numbers.pairs == (uint32_t)stored && dbmx_verify(db) == 0);
    dbm_close(lists(db));
}

/* a long content is stored and fetched, or memory is told and nothing has changed; so where the key lies in the content */
static void contents(void) {
    static char bytes[DBMX_CONTENT_MAX];
    datum content = {bytes, sizeof bytes};
    memset(bytes, 'a', sizeof bytes);
    DBM *db = open_or_end("contents", O_RDWR | O_CREAT | O_EXCL);
    long n = 0;
    do {
        CHECK(dbm_store(db, of("a"), of("short"), DBM_REPLACE) == 0);
        refuse(++n);
        errno = 77;
        int status = dbm_store(db, of("a"), content, DBM_REPLACE), error = errno, fault = dbm_error(db);
        refused = 0;
        if (status) CHECK(status == -1 && was_refused && error == ENOMEM && (fault == 1 || fault == 2));
        db = usable(db, "contents");
        CHECK(dbm_clearerr(db) == 0 && dbm_fetch(db, of("a")).dsize == (status ? 5 : sizeof bytes));
    } while (was_refused);
    dbm_close(db);
    n = 0;
    do {
        db = open_or_end("contents", O_RDWR);
        refuse(++n);
        errno = 77;
        datum found = dbm_fetch(db, of("a"));
        int error = errno, fault = dbm_error(db);
        refused = 0;
        if (found.dptr) CHECK(error == 77 && found.dsize == sizeof bytes && !memcmp(found.dptr, bytes, sizeof bytes));
        if (!found.dptr) CHECK(was_refused && error == ENOMEM && (fault == 1 || fault == 2));
        CHECK(dbm_clearerr(db) == 0 && dbm_fetch(db, of("a")).dsize == sizeof bytes);
        dbm_close(db);
    } while (was_refused);

    db = open_or_end("contents", O_RDWR);
    datum key = {dbm_fetch(db, of("a")).dptr, 1};
    refuse(1);
    FAILS(ENOMEM, !dbm_fetch(db, key).dptr);
    CHECK(was_refused && dbm_error(db) == 1 && dbm_clearerr(db) == 0);
    WORKS(dbm_fetch(db, key).dsize == sizeof bytes);
    WORKS(dbmx_verify(db) == 0);
    dbm_close(db);
}

/* So much memory is enough for lists of 32 MB: contents that are stored, and long ones that are replaced by short ones. */
static void bounded(void) {
    enum { COUNT = 500, MEMORY = 96 << 20 };
    static char bytes[DBMX_CONTENT_MAX];
    static int keys[COUNT];
    static dbmx_pair pairs[COUNT];
    static const size_t sizes[] = {sizeof bytes, 3, 1900, sizeof bytes, 40000};
    struct rlimit low;
    long pages = 0;
    FILE *sizes_now = fopen("/proc/self/statm", "r");
    if (!sizes_now || fscanf(sizes_now, "%ld", &pages) != 1) exit(2);
    fclose(sizes_now);
    DBM *db = open_or_end("bounded", O_RDWR | O_CREAT | O_EXCL);
    low.rlim_cur = low.rlim_max = (rlim_t)pages * (rlim_t)sysconf(_SC_PAGESIZE) + MEMORY;
    CHECK(!setrlimit(RLIMIT_AS, &low));
    for (size_t round = 0; round < sizeof sizes / sizeof *sizes; round++) {
        size_t stored = 0;
        memset(bytes, 'a' + (int)round, sizeof bytes);
        for (int i = 0; i < COUNT; i++) {
            keys[i] = i * 7 % COUNT;
            pairs[i] = (dbmx_pair){{&keys[i], sizeof keys[i]}, {bytes, sizes[round]}};
        }
        WORKS(dbmx_store_many(db, pairs, COUNT, &stored) == 0 && stored == COUNT);
        for (int i = 0; i < COUNT; i++) {
            datum found = dbm_fetch(db, pairs[i].key);
            if (!CHECK(found.dsize == sizes[round] && !memcmp(found.dptr, bytes, found.dsize))) return;
        }
    }
    dbm_close(db);
}

/* A file of at most so many bytes: the system's own number is told, and what was answered is there afterwards. */
static void growths(void) {
    static char bytes[1500];
    struct rlimit was, low;
    int stored = 0;
    memset(bytes, 'x', sizeof bytes);
    signal(SIGXFSZ, SIG_IGN);
    DBM *db = open_or_end("grown", O_RDWR | O_CREAT | O_EXCL);
    CHECK(!getrlimit(RLIMIT_FSIZE, &was));
    low = was;
    low.rlim_cur = 300000;
    CHECK(!setrlimit(RLIMIT_FSIZE, &low));
    for (;;) {
        char key[16];
        datum content = {bytes, sizeof bytes};
        snprintf(key, sizeof key, "key %d", stored);
        errno = 77;
        if (dbm_store(db, of(key), content, DBM_INSERT)) break;
        CHECK(errno == 77);
        if (!CHECK(++stored < 100)) return;
    }
    CHECK(errno == EFBIG && dbm_error(db) == 2);
    CHECK(stored > 0);
    CHECK(dbm_store(db, of("another"), (datum){bytes, sizeof bytes}, DBM_INSERT) == -1 && (errno == EIO || errno == EFBIG));
    CHECK(dbm_error(db) == 2);
    dbm_close(db);
    CHECK(!setrlimit(RLIMIT_FSIZE, &was));

    db = open_or_end("grown", O_RDWR);
    for (int i = 0; i < stored; i++) {
        char key[16];
        snprintf(key, sizeof key, "key %d", i);
        CHECK(dbm_fetch(db, of(key)).dsize == sizeof bytes);
    }
    CHECK(dbmx_verify(db) == 0 && dbm_store(db, of("another"), of("x"), DBM_INSERT) == 0);
    dbm_close(db);
}

/* a file that can't be made at all */
static void makings(void) {
    struct rlimit none = {0, 0};
    int fault = 0;
    signal(SIGXFSZ, SIG_IGN);
    CHECK(!setrlimit(RLIMIT_FSIZE, &none));
    FAILS(EFBIG, !dbmx_open("unmade", O_RDWR | O_CREAT, 0644, NULL, &fault));
    CHECK(fault == 2 && size_of("unmade.db") == 0);
    struct rlimit files = {3, 3};
    CHECK(!setrlimit(RLIMIT_NOFILE, &files));
    FAILS(EMFILE, !dbmx_open("memory", O_RDONLY, 0, NULL, &fault));
    CHECK(fault == 2);
}

/* a call that succeeds leaves errno, whatever the system did to it */
static void quiet(void) {
    dbmx_pair pairs[] = {{of("a"), of("1")}, {of("b"), of("2")}, {of("c"), of("3")}};
    dbmx_numbers numbers;
    DBM *db = NULL;
    unlink("quiet.db");
    WORKS((db = dbm_open("quiet", O_RDWR | O_CREAT | O_EXCL, 0644)) != NULL);
    if (!db) return;
    WORKS(dbmx_store_many(db, pairs, 3, NULL) == 0);
    WORKS(dbm_store(db, of("d"), of("4"), DBM_INSERT) == 0);
    WORKS(dbm_store(db, of("d"), of("4"), DBM_INSERT) == 1);
    WORKS(is(dbm_fetch(db, of("a")), "1"));
    WORKS(!dbm_fetch(db, of("e")).dptr);
    WORKS(dbm_delete(db, of("d")) == 0);
    WORKS(dbm_firstkey(db).dptr != NULL);
    WORKS(dbm_nextkey(db).dptr != NULL);
    WORKS(dbm_nextkey(db).dptr != NULL);
    WORKS(!dbm_nextkey(db).dptr);
    WORKS(dbmx_stat(db, &numbers) == 0 && numbers.pairs == 3);
    WORKS(dbmx_verify(db) == 0);
    WORKS(dbmx_sync(db) == 0);
    WORKS(dbm_error(db) == 0);
    WORKS(dbm_clearerr(db) == 0);
    WORKS((dbm_close(db), true));
    WORKS((db = dbm_open("quiet", O_RDONLY, 0)) != NULL);
    if (!db) return;
    WORKS(is(dbm_fetch(db, of("c")), "3"));
    WORKS((dbm_close(db), true));
}

/* An opening for writing of a file that is there makes one write and one sync, however often it is made again for pages that it lacks,
 * and one for reading makes none. Of a file of the second kind there is a write of its turn before that, and another one by the closing. */
static void openings_of_a_file(void) {
    writes = syncs = 0;
    DBM *db = open_or_end("quiet", O_RDONLY);
    CHECK(is(dbm_fetch(db, of("a")), "1"));
    dbm_close(db);
    CHECK(writes == 0 && syncs == 0);
    db = open_or_end("quiet", O_RDWR);
    CHECK(writes == 2 && syncs == 1);
    CHECK(is(dbm_fetch(db, of("a")), "1"));
    dbm_close(db);
    CHECK(writes == 3 && syncs == 1);
}

/* An opening that can't look at its file is refused with the system's number, so many times; a file that is written is then looked at
 * once more, and taken for one that another file has the place of where that fails. It leaves nothing open and nothing locked. */
static void looks(const char *file, int flags, long times) {
    const dbmx_how how = {.wait = 0};
    long n = 0;
    DBM *db = NULL;
    while (!db && n < 10) {
        int fault = 99;
        unseen = ++n;
        errno = 77;
        db = dbmx_open(file, flags, 0644, &how, &fault);
        int error = errno;
        if (n <= times) CHECK(!db && error == EOVERFLOW && fault == 2);
        if (n > times && !db) CHECK(n == times + 1 && flags != O_RDONLY && error == EAGAIN && fault == 2);
    }
    CHECK(n == times + 1 + (flags != O_RDONLY) && unseen);
    unseen = 0;
    if (db) dbm_close(db);
}

int main(void) {
    int before = open_descriptors();
    quiet();
    openings_of_a_file();
    looks("quiet", O_RDONLY, 1);
    looks("quiet", O_RDWR, 1);
    looks("quiet", O_RDWR | O_CREAT, 2);
    write_file("none.db", "", 0, 0644);
    looks("none", O_RDWR | O_CREAT | O_EXCL, 3);
    openings(O_RDWR | O_CREAT | O_EXCL);
    openings(O_RDWR | O_CREAT);
    openings(O_RDONLY);
    openings(O_RDWR | O_TRUNC);
    stores();
    contents();
    apart(bounded);
    apart(growths);
    apart(makings);
    CHECK(open_descriptors() == before);
    return bad;
}
