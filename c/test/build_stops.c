/* A build that is killed at each of its calls of the system. One beside a file leaves the old pairs or the new ones, all of them, and the new
 * ones from the moment on when they got their name; one of a new file leaves the first of its pairs. The new file is synced before it gets its
 * name, and the folder behind that. */
#include <signal.h>
#include <sys/ptrace.h>
#include <sys/syscall.h>

#include "builds.h"

enum { OLD = 40, NEW = 60, MOST_CALLS = 3000 };

/* the calls of the system that were made, and what their first argument was */
struct call {
    uint64_t number, first;
};
static struct call calls[MOST_CALLS];
static int made;

static void store_all(DBM *db, uint32_t count, int fill) {
    for (uint32_t i = 0; i < count; i++) {
        if (put_filled(db, i, 30 + i * 31, fill, i % 2 ? DBM_INSERT : DBM_REPLACE)) _exit(4);
        /* one more commit between them */
        if (i == count / 2 && !is_filled(db, i, 30 + i * 31, fill)) _exit(5);
    }
}

/* What is traced. The first stop is before it. */
static void build(int flags) {
    ptrace(PTRACE_TRACEME, 0, NULL, NULL);
    raise(SIGSTOP);
    DBM *db = dbmx_open("t", flags, 0644, &building, NULL);
    if (!db) _exit(3);
    store_all(db, NEW, 'n');
    errno = 0;
    dbm_close(db);
    _exit(errno != 0);
}

/* Lets the child go on to its next stop. Whether it has one, and no end. */
static bool goes_on(pid_t child, int *status) {
    if (ptrace(PTRACE_SYSCALL, child, NULL, NULL) || waitpid(child, status, 0) != child) exit(2);
    return WIFSTOPPED(*status);
}

/* A call of the system stops the child at its beginning and at its end. The beginning is noted. */
static bool begins_call(pid_t child) {
    struct __ptrace_syscall_info it;
    if (ptrace(PTRACE_GET_SYSCALL_INFO, child, sizeof it, &it) <= 0) exit(2);
    if (it.op != PTRACE_SYSCALL_INFO_ENTRY) return false;
    if (made == MOST_CALLS) exit(2);
    calls[made++] = (struct call){it.entry.nr, it.entry.args[0]};
    return true;
}

/* Builds in a child that is killed at the beginning of its call of this number, from 0 on: whether it was, and didn't end before. */
static bool is_killed_at(int number, int flags) {
    int status;
    made = 0;
    pid_t child = fork();
    if (!child) build(flags);
    if (child < 0 || waitpid(child, &status, 0) != child || !WIFSTOPPED(status)) exit(2);
    ptrace(PTRACE_SETOPTIONS, child, NULL, PTRACE_O_TRACESYSGOOD | PTRACE_O_EXITKILL);
    while (goes_on(child, &status)) {
        if (!begins_call(child) || made <= number) continue;
        kill(child, SIGKILL);
        waitpid(child, &status, 0);
        return true;
    }
    CHECK(WIFEXITED(status) && WEXITSTATUS(status) == 0);
    return false;
}

/* Whether it has so many pairs, which are the first ones, with these contents. */
static bool has_first(DBM *db, uint32_t count, int fill) {
    if (pairs_of(db) != count) return false;
    for (uint32_t i = 0; i < count; i++) {
        if (!is_filled(db, i, 30 + i * 31, fill)) return false;
    }
    return true;
}

static bool is_rename(uint64_t number) {
#ifdef SYS_rename
    if (number == SYS_rename) return true;
#endif
#ifdef SYS_renameat
    if (number == SYS_renameat) return true;
#endif
    return number == SYS_renameat2;
}

/* the place of the last call of these numbers before a place, or -1 */
static int last_before(int place, uint64_t number, uint64_t another) {
    for (place--; place >= 0; place--) {
        if (calls[place].number == number || calls[place].number == another) return place;
    }
    return -1;
}

static int place_of_rename(void) {
    int place = made - 1;
    while (place >= 0 && !is_rename(calls[place].number)) place--;
    return place;
}

/* In the calls of a whole build the file is synced with nothing written behind that, then its lock lets others read, and then it is renamed, and
 * the folder synced. */
static void are_in_order(void) {
    int renamed = place_of_rename(), written = last_before(renamed, SYS_pwrite64, SYS_write);
    int synced = last_before(renamed, SYS_fsync, SYS_fsync), folder = last_before(made, SYS_fsync, SYS_fsync);
    int locked = last_before(renamed, SYS_flock, SYS_flock);
    CHECK(renamed > 0 && written > 0 && synced > written && calls[synced].first == calls[written].first);
    CHECK(locked > synced && calls[locked].first == calls[written].first);
    CHECK(folder > renamed && calls[folder].first == calls[renamed].first && last_before(made, SYS_pwrite64, SYS_write) == written);
}

static void make_old(void) {
    unlink("t.db");
    DBM *db = build_or_end("t", O_RDWR | O_CREAT | O_EXCL);
    store_all(db, OLD, 'o');
    dbm_close(db);
}

/* Each call of a build beside a file, from the first on. A file is left there each time, so that the calls are as many. */
static void beside(void) {
    int number = 0, news = 0, lefts = 0;
    make_old();
    for (bool is_killed = true; is_killed; number++) {
        write_file("t.db.new", "left", 4, 0600);
        is_killed = is_killed_at(number, O_RDWR | O_TRUNC);
        /* The call at which it was killed wasn't made. */
        int renamed = place_of_rename();
        bool is_new = renamed >= 0 && (!is_killed || renamed < made - 1);
        lefts += !access("t.db.new", F_OK);
        DBM *db = open_or_end("t", O_RDONLY);
        CHECK(has_first(db, is_new ? NEW : OLD, is_new ? 'n' : 'o') && dbmx_verify(db) == 0);
        dbm_close(db);
        news += is_new;
        if (is_new) make_old();
    }
    are_in_order();
    if (!CHECK(number > 40 && news > 1 && lefts > 30 && access("t.db.new", F_OK) != 0)) printf("%d calls, %d, %d\n", number, news, lefts);
}

/* Each call of a build of a new file. What was left is then built anew. */
static void in_place(void) {
    int number = 0, between = 0;
    for (bool is_killed = true; is_killed; number++) {
        unlink("t.db");
        is_killed = is_killed_at(number, O_RDWR | O_CREAT);
        DBM *db = dbm_open("t", O_RDONLY, 0);
        if (!db) db = open_or_end("t", O_RDWR | O_CREAT);
        uint32_t pairs = pairs_of(db);
        CHECK(has_first(db, pairs, 'n') && dbmx_verify(db) == 0);
        dbm_close(db);
        between += pairs > 0 && pairs < NEW;
        CHECK(is_killed || pairs == NEW);
    }
    if (!CHECK(number > 20 && between > 3)) printf("%d calls, %d\n", number, between);
}

int main(void) {
    pid_t child = fork();
    if (!child) _exit(ptrace(PTRACE_TRACEME, 0, NULL, NULL) != 0);
    int status = 1;
    if (child < 0 || waitpid(child, &status, 0) != child) return 2;
    if (status) {
        printf("left out: no process may be traced here\n");
        return 0;
    }
    beside();
    in_place();
    return bad;
}
