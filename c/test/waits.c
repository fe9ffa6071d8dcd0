/* How long an opening waits for a lock: what dbmx_open is asked for, or else 5 seconds, or what KUMQUATFEN_WAIT says. */
#include <sys/auxv.h>
#include <time.h>

#include "check.h"

enum { NOBODY = 65534, LEFT_OUT = 3 };

#define VARIABLE "KUMQUATFEN_WAIT"

static const dbmx_how at_once = {.wait = 0};

static double now(void) {
    struct timespec it;
    clock_gettime(CLOCK_MONOTONIC, &it);
    return (double)it.tv_sec + (double)it.tv_nsec / 1e9;
}

/* Opens a database that nobody else has, whatever the environment says. */
static DBM *opened_at_once(int flags) {
    DBM *db = dbmx_open("t", flags, 0644, &at_once, NULL);
    if (!db) exit(1);
    return db;
}

/* A child has the file open for so long. */
static pid_t held_for(long milliseconds) {
    int ready[2];
    char byte = 0;
    if (pipe(ready)) exit(2);
    fflush(stdout);
    pid_t child = fork();
    if (!child) {
        DBM *db = opened_at_once(O_RDWR);
        struct timespec time = {milliseconds / 1000, milliseconds % 1000 * 1000000};
        if (write(ready[1], &byte, 1) != 1) _exit(2);
        nanosleep(&time, NULL);
        dbm_close(db);
        _exit(0);
    }
    if (read(ready[0], &byte, 1) != 1) exit(2);
    close(ready[0]);
    close(ready[1]);
    return child;
}

/* by dbm_open, or by dbmx_open with this */
static DBM *open_so(bool is_plain, int flags, const dbmx_how *how, int *fault) {
    *fault = is_plain ? 2 : 99;
    return is_plain ? dbm_open("t", flags, 0) : dbmx_open("t", flags, 0, how, fault);
}

/* An opening beside one that has the file for so long waits for that, and gets it. */
static void gets_it(long milliseconds, bool is_plain, int flags, const dbmx_how *how) {
    int fault = 99;
    double began = now();
    pid_t child = held_for(milliseconds);
    DBM *db = NULL;
    WORKS((db = open_so(is_plain, flags, how, &fault)) != NULL);
    CHECK((now() - began) * 1000 >= 0.8 * (double)milliseconds);
    if (!is_plain) CHECK(fault == 0);
    if (db) dbm_close(db);
    waitpid(child, NULL, 0);
}

/* One beside a database that stays open is refused behind so many seconds. */
static void times_out(bool is_plain, int flags, const dbmx_how *how, double seconds) {
    DBM *db = opened_at_once(O_RDWR);
    int fault = 99;
    double began = now();
    FAILS(EAGAIN, !open_so(is_plain, flags, how, &fault));
    CHECK(fault == 2 && now() - began >= seconds * 0.9 && now() - began < (seconds < 5 ? 4.4 : 20));
    dbm_close(db);
}

/* where nobody says otherwise */
static void by_itself(void) {
    unsetenv(VARIABLE);
    gets_it(1000, true, O_RDWR, NULL);
    gets_it(1000, true, O_RDONLY, NULL);
    gets_it(1000, false, O_RDWR, NULL);
    times_out(true, O_RDONLY, NULL, 5);
    /* what a wait is not for */
    double began = now();
    FAILS(ENOENT, !dbm_open("none", O_RDONLY, 0));
    FAILS(EEXIST, !dbm_open("t", O_RDWR | O_CREAT | O_EXCL, 0));
    CHECK(now() - began < 4);
}

/* the environment says that nothing is waited for */
static void not_at_all(void) {
    static const char *const numbers[] = {"0", "00", "000000"};
    for (size_t i = 0; i < sizeof numbers / sizeof *numbers; i++) {
        setenv(VARIABLE, numbers[i], 1);
        times_out(true, O_RDWR, NULL, 0);
        times_out(false, O_RDONLY, NULL, 0);
    }
}

/* what is no number, of digits alone, or more than a day's seconds, is as if nobody said it */
static void by_no_number(void) {
    static const char *const others[] = {"", "-0", "+0", " 0", "0 ", "0s", "0x0", "0.0", "86401", "99999999999", "18446744073709551616"};
    for (size_t i = 0; i < sizeof others / sizeof *others; i++) {
        setenv(VARIABLE, others[i], 1);
        gets_it(300, i % 2, O_RDWR, NULL);
    }
    setenv(VARIABLE, "86401", 1);
    times_out(false, O_RDWR, NULL, 5);
}

static void by_the_environment(void) {
    not_at_all();
    setenv(VARIABLE, "2", 1);
    times_out(true, O_RDONLY, NULL, 2);
    times_out(false, O_RDWR, NULL, 2);
    setenv(VARIABLE, "86400", 1);
    gets_it(300, true, O_RDWR, NULL);
    by_no_number();
}

/* dbmx_open goes by what it is asked for alone */
static void by_its_argument(void) {
    dbmx_how how = {.wait = 0};
    unsetenv(VARIABLE);
    times_out(false, O_RDWR, &how, 0);
    setenv(VARIABLE, "30", 1);
    times_out(false, O_RDONLY, &how, 0);
    how.wait = 1;
    times_out(false, O_RDONLY, &how, 1);
    setenv(VARIABLE, "0", 1);
    times_out(false, O_RDWR, &how, 1);
    how.wait = 20;
    gets_it(300, false, O_RDWR, &how);
    how.wait = 30;
    int fault = 99;
    double began = now();
    FAILS(ENOENT, !dbmx_open("none", O_RDONLY, 0, &how, &fault));
    FAILS(EEXIST, !dbmx_open("t", O_RDWR | O_CREAT | O_EXCL, 0, &how, &fault));
    CHECK(now() - began < 20);
}

/* The same program as another user's, which it is by its file: the environment says that nothing is waited for, and isn't heeded. */
static int as_another_user(void) {
    if (!getauxval(AT_SECURE) || !getenv(VARIABLE)) return LEFT_OUT;
    pid_t child = held_for(1000);
    DBM *db = dbm_open("t", O_RDWR, 0);
    waitpid(child, NULL, 0);
    return !db;
}

/* Makes the program one that is run as another user, and runs it. */
static void with_other_rights(const char *name) {
    int status = 1;
    if (geteuid() != 0) return;
    CHECK(!chown("t.db", NOBODY, NOBODY) && !chmod(".", 0755) && !chown(name, NOBODY, NOBODY) && !chmod(name, 04755));
    setenv(VARIABLE, "0", 1);
    fflush(stdout);
    pid_t child = fork();
    if (!child) {
        execl(name, name, "another user", (char *)NULL);
        _exit(LEFT_OUT);
    }
    CHECK(waitpid(child, &status, 0) == child && WIFEXITED(status));
    if (WEXITSTATUS(status) == LEFT_OUT || WEXITSTATUS(status) == 127) {
        printf("left out: a program can't be run with other rights here\n");
    } else {
        CHECK(status == 0);
    }
}

int main(int count, char **words) {
    /* No sanitizer looks at a program with other rights at its end. */
    if (count == 2) _exit(as_another_user());
    int before = open_descriptors();
    dbm_close(open_or_end("t", O_RDWR | O_CREAT | O_EXCL));
    by_itself();
    by_the_environment();
    by_its_argument();
    with_other_rights(words[0]);
    CHECK(open_descriptors() == before);
    return bad;
}
