/* Shared handles beside openings that aren't shared: how long a call waits, who goes first, and what the environment says. */
#include <sys/file.h>

#include "shared.h"

#define SHARES "KUMQUATFEN_SHARED"
#define WAITS "KUMQUATFEN_WAIT"

static const dbmx_how at_once = {.wait = 0};

/* The call fails by its wait, which is of so many seconds. */
#define WAITS_IN_VAIN(seconds, what) (began = now(), FAILS(EAGAIN, what), CHECK(is_wait(seconds)))
static double began;

static bool is_wait(double seconds) {
    double time = now() - began;
    return time >= 0.9 * seconds && time < seconds + 3;
}

static DBM *exclusive(int flags) {
    DBM *db = dbmx_open("t", flags, 0644, &(dbmx_how){.wait = 20}, NULL);
    if (!db) exit(1);
    return db;
}

/* While another opening writes nobody else is answered but by the turn that is odd, and behind it all find what it stored. */
static void beside_a_writer(void) {
    DBM *a = shared_for("t", O_RDWR | O_CREAT, 1), *reader = shared_for("t", O_RDONLY, 1);
    CHECK(put(a, "k", "1") == 0 && has(reader, "k", "1"));
    DBM *writer = exclusive(O_RDWR);
    CHECK(put(writer, "k", "2") == 0);
    WAITS_IN_VAIN(1, put(a, "k", "3") == -1);
    WAITS_IN_VAIN(1, !dbm_fetch(reader, of("k")).dptr);
    WAITS_IN_VAIN(1, !dbm_firstkey(reader).dptr);
    CHECK(dbm_error(a) == 2 && dbm_error(reader) == 2 && dbm_clearerr(a) == 0 && dbm_clearerr(reader) == 0);
    int fault = 99;
    const dbmx_how how = {.wait = 1, .options = DBMX_SHARED};
    WAITS_IN_VAIN(1, !dbmx_open("t", O_RDONLY, 0, &how, &fault));
    CHECK(fault == 2);
    dbm_close(writer);
    WORKS(has(reader, "k", "2") && has(a, "k", "2"));
    WORKS(put(a, "k", "4") == 0 && has(reader, "k", "4") && dbm_error(reader) == 0);
    dbm_close(a);
    dbm_close(reader);
}

/* While another opening reads, shared handles read too. */
static void beside_a_reader(void) {
    DBM *a = shared_for("t", O_RDWR, 1), *reader = shared_for("t", O_RDONLY, 1), *old = exclusive(O_RDONLY);
    WORKS(has(old, "k", "4") && has(reader, "k", "4"));
    WAITS_IN_VAIN(1, put(a, "k", "5") == -1);
    DBM *another = shared_for("t", O_RDONLY, 1);
    WORKS(has(another, "k", "4") && dbmx_verify(another) == 0);
    dbm_close(another);
    dbm_close(old);
    WORKS(put(a, "k", "5") == 0 && has(reader, "k", "5"));
    /* and between two calls any opening has the file at once */
    DBM *writer = dbmx_open("t", O_RDWR, 0, &at_once, NULL);
    CHECK(writer && put(writer, "k", "6") == 0);
    dbm_close(writer);
    WORKS(has(reader, "k", "6") && has(a, "k", "6"));
    dbm_close(a);
    dbm_close(reader);
}

static struct flock turnstile(short type) {
    return (struct flock){.l_type = type, .l_whence = SEEK_SET, .l_start = (off_t)1 << 62, .l_len = 1};
}

static bool take(int fd, short type) {
    struct flock it = turnstile(type);
    return !fcntl(fd, F_OFD_SETLK, &it);
}

/* whether somebody is in the turnstile within five seconds */
static bool is_entered(int fd, short type) {
    for (int i = 0; i < 5000; i++) {
        struct flock it = turnstile(type);
        if (!fcntl(fd, F_OFD_GETLK, &it) && it.l_type != F_UNLCK) return true;
        sleep_for(1);
    }
    return false;
}

/* Who finds somebody in the turnstile that waits for the other kind of lock doesn't pass by. */
static void passing_by(void) {
    DBM *a = shared_for("t", O_RDWR, 1), *b = shared_for("t", O_RDWR, 1);
    int fd = open("t.db", O_RDWR | O_CLOEXEC);
    CHECK(put(a, "k", "7") == 0 && has(a, "k", "7") && take(fd, F_WRLCK));
    WORKS(has(a, "k", "7"));
    WAITS_IN_VAIN(1, !dbm_fetch(b, of("k")).dptr);
    WAITS_IN_VAIN(1, put(a, "k", "8") == -1);
    CHECK(take(fd, F_RDLCK));
    WORKS(has(b, "k", "7"));
    WAITS_IN_VAIN(1, put(a, "k", "8") == -1);
    DBM *writer = dbmx_open("t", O_RDWR, 0, &at_once, NULL);
    CHECK(writer != NULL);
    dbm_close(writer);
    CHECK(take(fd, F_UNLCK));
    WORKS(put(a, "k", "9") == 0 && has(b, "k", "9"));
    dbm_close(a);
    dbm_close(b);
    close(fd);
}

/* Who waits for the lock is in the turnstile, and lets others by now and then. */
static void waits_in_turnstile(int (*waiting)(void), short seen_by) {
    int fd = open("t.db", O_RDWR | O_CLOEXEC), status = 1;
    CHECK(!flock(fd, seen_by == F_RDLCK ? LOCK_SH : LOCK_EX));
    fflush(stdout);
    pid_t child = fork();
    if (!child) _exit(waiting());
    CHECK(is_entered(fd, seen_by));
    if (seen_by == F_RDLCK) {
        DBM *reader = shared("t", O_RDONLY);
        WORKS(dbm_fetch(reader, of("k")).dptr != NULL);
        dbm_close(reader);
    }
    CHECK(!flock(fd, LOCK_UN));
    CHECK(waitpid(child, &status, 0) == child && status == 0);
    close(fd);
}

static int stored_and_closed(DBM *db, const char *content) {
    int status = put(db, "k", content);
    dbm_close(db);
    return status;
}

static int fetched_and_closed(DBM *db, const char *content) {
    bool is_there = has(db, "k", content);
    dbm_close(db);
    return !is_there;
}

static int store_one(void) {
    return stored_and_closed(shared("t", O_RDWR), "10");
}

static int fetch_one(void) {
    return fetched_and_closed(shared("t", O_RDONLY), "10");
}

static int write_one(void) {
    return stored_and_closed(exclusive(O_RDWR), "11");
}

static int read_one(void) {
    return fetched_and_closed(exclusive(O_RDONLY), "11");
}

static void turnstiles(void) {
    passing_by();
    waits_in_turnstile(store_one, F_RDLCK);
    waits_in_turnstile(fetch_one, F_WRLCK);
    waits_in_turnstile(write_one, F_RDLCK);
    waits_in_turnstile(read_one, F_WRLCK);
}

/* The environment shares the files of programs that don't say how they are opened. */
static void environment(void) {
    static const char *const others[] = {"", "0", "11", "1 ", "yes"};
    setenv(WAITS, "1", 1);
    setenv(SHARES, "1", 1);
    DBM *a = dbm_open("t", O_RDWR, 0), *b = dbmx_open("t", O_RDWR, 0, NULL, NULL);
    CHECK(a && b && put(a, "k", "12") == 0 && put(b, "l", "13") == 0 && has(a, "l", "13") && has(b, "k", "12"));
    DBM *writer = dbmx_open("t", O_RDWR, 0, &at_once, NULL);
    CHECK(writer && put(writer, "k", "14") == 0);
    WAITS_IN_VAIN(1, put(a, "k", "15") == -1);
    WAITS_IN_VAIN(1, !dbm_open("t", O_RDONLY, 0));
    unsetenv(WAITS);
    WAITS_IN_VAIN(10, !dbm_open("t", O_RDONLY, 0));
    setenv(WAITS, "0", 1);
    WAITS_IN_VAIN(0, !dbm_open("t", O_RDONLY, 0));
    dbm_close(writer);
    dbm_close(a);
    dbm_close(b);
    for (size_t i = 0; i < sizeof others / sizeof *others; i++) {
        setenv(SHARES, others[i], 1);
        a = dbm_open("t", O_RDWR, 0);
        CHECK(a && !dbm_open("t", O_RDONLY, 0) && errno == EAGAIN);
        dbm_close(a);
    }
    unsetenv(WAITS);
    unsetenv(SHARES);
}

int main(void) {
    int before = open_descriptors();
    alarm(110);
    beside_a_writer();
    beside_a_reader();
    environment();
    if (is_near()) turnstiles();
    CHECK(open_descriptors() == before);
    return bad;
}
