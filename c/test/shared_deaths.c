/* A writer of a shared file dies at each of its writes and syncs, before it or behind half of it, and then another one on what it left; or
 * is stopped there; or the system refuses it one. Handles that were open all the time and new ones find the same content, the old one or
 * the new one, and it is synced before it is told. The calls of the system that write, sync and lock are those here. A file's times are
 * told as always the same, as by a system whose times are coarse, so that all hangs on the turn. */
#include <signal.h>
#include <sys/file.h>
#include <sys/mman.h>
#include <sys/syscall.h>

#include "shared.h"

enum { DEAD = 9, SMALL = 100, LARGE = 20000, FEW = 0, MANY = 40 };

/* what happens at a write or a sync, and how many come before it; -1: nothing happens */
enum event { DIES, DIES_HALFWAY, STOPS, IS_REFUSED };
static enum event event;
static long left = -1;

static unsigned syncs, locks;

/* whether reads go without a lock here */
static bool spares;

/* of all processes: writes of pairs that no sync came behind */
static volatile unsigned *unsynced;

/* Whether a write or a sync of so many bytes is refused. */
static bool happens(int fd, const void *from, size_t size, off_t at) {
    if (left < 0 || left--) return false;
    if (event == STOPS) raise(SIGSTOP);
    if (event == DIES || event == DIES_HALFWAY) {
        size_t half = event == DIES_HALFWAY ? size / 1024 * 512 : 0;
        if (half && syscall(SYS_pwrite64, fd, from, half, at) > 0) ++*unsynced;
        _exit(DEAD);
    }
    if (event == IS_REFUSED) errno = EIO;
    return event == IS_REFUSED;
}

ssize_t pwrite(int fd, const void *from, size_t size, off_t at) {
    if (happens(fd, from, size, at)) return -1;
    if (at != TURN_AT) ++*unsynced;
    return syscall(SYS_pwrite64, fd, from, size, at);
}

ssize_t pwrite64(int fd, const void *from, size_t size, off_t at) {
    return pwrite(fd, from, size, at);
}

/* It is answered without being made, which is faster. */
int fdatasync(int fd) {
    if (happens(fd, NULL, 0, 0)) return -1;
    syncs++;
    *unsynced = 0;
    return 0;
}

int flock(int fd, int operation) {
    locks++;
    return (int)syscall(SYS_flock, fd, operation);
}

int fstat(int fd, struct stat *it) {
    int status = (int)syscall(SYS_fstat, fd, it);
    it->st_mtim = it->st_ctim = (struct timespec){0, 0};
    return status;
}

int fstatat(int folder, const char *name, struct stat *it, int flags) {
    int status = (int)syscall(SYS_newfstatat, folder, name, it, flags);
    it->st_mtim = it->st_ctim = (struct timespec){0, 0};
    return status;
}

/* The content of number n, and which number the handle finds, or -1. */
static int put_number(DBM *db, int n, size_t size) {
    static char bytes[LARGE];
    memset(bytes, n, size);
    memcpy(bytes, &n, sizeof n);
    return dbm_store(db, of("key"), (datum){bytes, size}, DBM_REPLACE);
}

static int number_of(DBM *db) {
    datum content = dbm_fetch(db, of("key"));
    int n = -1;
    if (content.dptr && content.dsize >= sizeof n) memcpy(&n, content.dptr, sizeof n);
    return n;
}

/* A child stores with a handle of its parent's or of its own, up to the event: its status. */
static int child_puts(DBM *db, int n, size_t size, enum event what, long at) {
    int status = 0;
    fflush(stdout);
    pid_t child = fork();
    if (!child) {
        DBM *its = db ? db : shared("t", O_RDWR);
        event = what;
        left = at;
        int failed = put_number(its, n, size);
        left = -1;
        _exit(failed ? 1 : 0);
    }
    if (waitpid(child, &status, 0) != child || !WIFEXITED(status)) exit(2);
    return WEXITSTATUS(status);
}

/* a round: how many pairs there are besides, how long the content is, and whether the child has a handle of its own */
struct round {
    int others;
    size_t size;
    bool is_own;
};

/* A new file with number 1, and its writer and reader. */
static void begin(const struct round *round, DBM **writer, DBM **reader) {
    char text[32];
    unlink("t.db");
    *writer = shared("t", O_RDWR | O_CREAT);
    for (int i = 0; i < round->others; i++) {
        sprintf(text, "k%d", i);
        CHECK(put(*writer, text, "x") == 0);
    }
    CHECK(put_number(*writer, 1, SMALL) == 0);
    *reader = shared("t", O_RDONLY);
    CHECK(dbm_firstkey(*reader).dptr && number_of(*reader) == 1);
}

/* The number that the handle finds, which is on the disk by then. */
static int number_on_disk(DBM *db) {
    unsigned before = syncs;
    bool is_left = *unsynced > 0;
    int n = number_of(db);
    CHECK(!is_left || syncs > before);
    CHECK(*unsynced == 0);
    return n;
}

/* Another writer dies at each place, on what the first one left, which was `old`. */
static void second_deaths(const struct round *round, DBM *writer, DBM *reader, int old) {
    int status = DEAD;
    for (long at = 0; status == DEAD; at++) {
        int n = 4 + (int)at;
        status = child_puts(writer, n, round->size, DIES, at);
        int found = number_on_disk(reader);
        DBM *another = shared("t", O_RDONLY);
        CHECK(found == old || found == n);
        CHECK(number_of(another) == found && number_of(writer) == found);
        dbm_close(another);
        old = found;
    }
    CHECK(status == 0);
}

/* A writer dies at one place: whether there is such a place. */
static bool death(const struct round *round, enum event what, long at) {
    DBM *writer, *reader;
    begin(round, &writer, &reader);
    int status = child_puts(round->is_own ? NULL : writer, 2, round->size, what, at);
    CHECK(status == DEAD || status == 0);
    int found = number_on_disk(reader);
    unsigned before = syncs;
    CHECK(found == 2 || (found == 1 && status == DEAD));
    /* what is synced once isn't synced again */
    CHECK(number_of(reader) == found && syncs == before);
    CHECK(number_of(writer) == found);
    if (status == DEAD) {
        if (what == DIES) second_deaths(round, writer, reader, found);
        CHECK(put_number(writer, 3, SMALL) == 0 && number_of(reader) == 3 && dbmx_verify(reader) == 0);
        CHECK(turn_of("t.db") % 2 == 0 && (dbm_nextkey(reader).dptr != NULL) == (round->others > 0));
    }
    CHECK(dbm_error(reader) == 0 && dbm_error(writer) == 0);
    dbm_close(writer);
    dbm_close(reader);
    return status == DEAD;
}

/* The system refuses a writer one write or sync: the call fails, and the next one goes on; whether there is such a place. */
static bool refusal(const struct round *round, long at) {
    DBM *writer, *reader;
    begin(round, &writer, &reader);
    event = IS_REFUSED;
    left = at;
    errno = 0;
    int status = put_number(writer, 2, round->size), error = errno;
    bool was_refused = left < 0;
    left = -1;
    /* A turn that can't be made even is left, as that of a writer that died, and the change is made. */
    if (!was_refused) CHECK(status == 0);
    if (status) CHECK(status == -1 && error == EIO && dbm_error(writer) == 2);
    int found = number_on_disk(reader);
    CHECK(found == 2 || (found == 1 && status));
    CHECK(number_of(writer) == found && dbm_clearerr(writer) == 0);
    WORKS(put_number(writer, 3, SMALL) == 0);
    WORKS(number_of(reader) == 3 && number_of(writer) == 3 && dbmx_verify(reader) == 0);
    CHECK(turn_of("t.db") % 2 == 0 && dbm_error(writer) == 0 && dbm_error(reader) == 0);
    dbm_close(writer);
    dbm_close(reader);
    return was_refused;
}

/* A writer is stopped at a place: nobody is answered meanwhile, and behind it the new content; whether there is such a place. */
static bool stop(long at) {
    const struct round round = {FEW, SMALL, false};
    DBM *writer, *reader;
    int status = 0;
    begin(&round, &writer, &reader);
    DBM *hasty = shared_for("t", O_RDWR, 1);
    CHECK(number_of(hasty) == 1);
    fflush(stdout);
    pid_t child = fork();
    if (!child) {
        event = STOPS;
        left = at;
        /* the handle of the parent, which it uses too */
        _exit(put_number(hasty, 2, SMALL) ? 1 : 0);
    }
    if (waitpid(child, &status, WUNTRACED) != child) exit(2);
    bool was_stopped = WIFSTOPPED(status);
    if (was_stopped) {
        /* before the turn is odd a page that is kept is told, where reads go without a lock */
        if (at > 0) FAILS(EAGAIN, !dbm_fetch(hasty, of("key")).dptr);
        else CHECK(number_of(hasty) == (spares ? 1 : -1));
        FAILS(EAGAIN, put_number(hasty, 3, SMALL) == -1);
        CHECK(dbm_error(hasty) == 2 && dbm_clearerr(hasty) == 0);
        kill(child, SIGCONT);
        if (waitpid(child, &status, 0) != child) exit(2);
    }
    CHECK(status == 0 && number_of(hasty) == 2 && number_of(reader) == 2 && number_of(writer) == 2);
    CHECK(put_number(hasty, 3, SMALL) == 0 && number_of(reader) == 3 && dbm_error(reader) == 0);
    dbm_close(hasty);
    dbm_close(writer);
    dbm_close(reader);
    return was_stopped;
}

/* pages that are kept are told without a lock, and without one more call than a look at the name */
static void spared(void) {
    const struct round round = {MANY, SMALL, false};
    DBM *writer, *reader;
    begin(&round, &writer, &reader);
    unsigned before = locks;
    for (int i = 0; i < 1000; i++) CHECK(number_of(reader) == 1 && number_of(writer) == 1);
    CHECK(locks <= before + 2);
    CHECK(put_number(writer, 2, SMALL) == 0);
    before = locks;
    CHECK(number_of(reader) == 2 && locks == before + 2);
    dbm_close(writer);
    dbm_close(reader);
}

int main(void) {
    static const struct round rounds[] = {{FEW, SMALL, false}, {MANY, LARGE, false}, {FEW, SMALL, true}, {MANY, LARGE, true}};
    int before = open_descriptors();
    long at;
    unsynced = mmap(NULL, sizeof *unsynced, PROT_READ | PROT_WRITE, MAP_SHARED | MAP_ANONYMOUS, -1, 0);
    if (unsynced == MAP_FAILED) return 2;
    alarm(110);
    spares = is_near();
    if (spares) spared();
    for (size_t i = 0; i < sizeof rounds / sizeof *rounds; i++) {
        for (at = 0; death(&rounds[i], DIES, at); at++) continue;
        CHECK(at > 3);
        for (at = 0; death(&rounds[i], DIES_HALFWAY, at); at++) continue;
        CHECK(at > 3);
        for (at = 0; refusal(&rounds[i], at); at++) continue;
        CHECK(at > 3);
    }
    for (at = 0; at < 4 && stop(at); at++) continue;
    CHECK(at == 4);
    CHECK(open_descriptors() == before);
    return bad;
}
