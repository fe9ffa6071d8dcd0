/* Shared handles by themselves and beside one another: how they are opened, what each call finds of the calls of others, passes, the turn
 * in the file, names that other files get, children and threads. */
#include <pthread.h>
#include <sys/file.h>

#include "shared.h"

enum { KEYS = 300, EACH = 100 };

static void openings(void) {
    int fault = 99;
    dbmx_how how = {.options = DBMX_SHARED | DBMX_UNLOCKED};
    FAILS(EINVAL, !dbmx_open("t", O_RDWR | O_CREAT, 0644, &how, &fault));
    CHECK(fault == 0);
    how.options = DBMX_SHARED | DBMX_VERSION_1;
    FAILS(EINVAL, !dbmx_open("t", O_RDWR | O_CREAT, 0644, &how, &fault));
    CHECK(fault == 0 && access("t.db", F_OK));
    how.options = DBMX_SHARED;
    FAILS(ENOENT, !dbmx_open("t", O_RDWR, 0644, &how, &fault));
    CHECK(fault == 14);
    DBM *db = NULL, *another = NULL;
    WORKS((db = dbmx_open("t", O_RDWR | O_CREAT | O_EXCL, 0640, &how, &fault)) != NULL);
    CHECK(fault == 0 && db);
    FAILS(EEXIST, !dbmx_open("t", O_RDWR | O_CREAT | O_EXCL, 0640, &how, &fault));
    CHECK(fault == 15);
    WORKS((another = dbmx_open("t", O_RDWR | O_CREAT, 0640, &how, &fault)) != NULL);
    WORKS(dbmx_version(another) == 2);
    WORKS(put(db, "a", "1") == 0);
    WORKS(has(another, "a", "1"));
    dbm_close(another);
    how.limit = 7;
    WORKS((another = dbmx_open("t", O_RDWR | O_TRUNC, 0, &how, &fault)) != NULL);
    WORKS(!dbm_fetch(db, of("a")).dptr);
    dbmx_numbers numbers;
    WORKS(dbmx_stat(db, &numbers) == 0 && numbers.limit == 7 && numbers.pairs == 0);
    FAILS(EPERM, !dbmx_open("t", O_RDONLY | O_TRUNC, 0, &how, &fault));
    CHECK(fault == 4);
    dbm_close(another);
    WORKS((dbm_close(db), true));
}

/* a file of the first kind is refused, also where it has taken the place of another one */
static void kinds(void) {
    int fault = 99;
    dbmx_how first = {.options = DBMX_VERSION_1}, how = {.options = DBMX_SHARED};
    DBM *db = dbmx_open("first", O_RDWR | O_CREAT | O_EXCL, 0644, &first, NULL);
    CHECK(db && put(db, "a", "1") == 0);
    dbm_close(db);
    for (int flags = O_RDONLY; flags <= O_RDWR; flags += O_RDWR - O_RDONLY) {
        FAILS(ENOTSUP, !dbmx_open("first", flags, 0, &how, &fault));
        CHECK(fault == 2);
    }
    FAILS(ENOTSUP, !dbmx_open("first", O_RDWR | O_TRUNC, 0, &how, &fault));
    CHECK(turn_of("first.db") == 0);
    db = shared("t", O_RDWR | O_CREAT);
    CHECK(put(db, "a", "2") == 0 && !rename("t.db", "kept.db") && !rename("first.db", "t.db"));
    FAILS(ENOTSUP, put(db, "a", "3") == -1);
    CHECK(dbm_error(db) == 2 && !rename("kept.db", "t.db"));
    WORKS(put(db, "a", "4") == 0);
    dbm_close(db);
    write_file("garbage.db", "no database at all", 18, 0644);
    FAILS(EINVAL, !dbmx_open("garbage", O_RDWR | O_CREAT, 0, &how, &fault));
    CHECK(fault == 10);
    write_file("blank.db", "", 0, 0644);
    FAILS(EINVAL, !dbmx_open("blank", O_RDWR, 0, &how, &fault));
    CHECK(fault == 10);
}

/* each call of the one finds what the other one left */
static void by_turns(void) {
    DBM *a = shared("t", O_RDWR | O_CREAT | O_TRUNC), *b = shared("t", O_RDWR), *reader = shared("t", O_RDONLY);
    dbmx_pair pairs[] = {{of("x"), of("1")}, {of("y"), of("2")}};
    size_t stored = 0;
    WORKS(dbm_rdonly(reader) == 1 && dbm_rdonly(a) == 0);
    for (int i = 0; i < 50; i++) {
        char text[32];
        sprintf(text, "%d", i);
        WORKS(put(i % 2 ? a : b, "k", text) == 0);
        WORKS(has(a, "k", text) && has(b, "k", text) && has(reader, "k", text));
        WORKS(dbm_store(i % 2 ? b : a, of(text), of("x"), DBM_INSERT) == 0);
        WORKS(dbm_store(i % 2 ? a : b, of(text), of("y"), DBM_INSERT) == 1);
        WORKS(has(reader, text, "x"));
    }
    WORKS(dbmx_store_many(a, pairs, 2, &stored) == 0 && stored == 2);
    WORKS(has(b, "y", "2") && dbm_delete(b, of("y")) == 0);
    FAILS(ENOENT, dbm_delete(a, of("y")) == -1);
    WORKS(dbmx_sync(a) == 0 && dbmx_upgrade(b) == 0 && dbmx_verify(reader) == 0);
    FAILS(EPERM, put(reader, "k", "no") == -1);
    CHECK(dbm_error(reader) == 4 && dbm_clearerr(reader) == 0 && dbm_error(reader) == 0);
    FAILS(EINVAL, dbm_store(a, (datum){"", 3000}, of(""), DBM_REPLACE) == -1);
    CHECK(dbm_error(a) == 5 && put(b, "k", "z") == 0 && has(a, "k", "z") && dbm_error(a) == 5);
    CHECK(dbm_error(b) == 0 && dbm_clearerr(a) == 0 && dbm_error(a) == 0);
    CHECK(dbm_pagfno(a) > 2 && dbm_dirfno(a) > 2 && !flock(dbm_dirfno(a), LOCK_EX | LOCK_NB));
    WORKS(put(b, "k", "w") == 0);
    WORKS((dbm_close(a), dbm_close(b), true));
    WORKS(has(reader, "k", "w"));
    dbm_close(reader);
}

/* whether pages of the last commit wait for their places in the file, by its commit sector */
static bool waits(DBM *db) {
    unsigned char head[12];
    CHECK(pread(dbm_pagfno(db), head, sizeof head, 0) == (ssize_t)sizeof head);
    return head[11] != 0;
}

/* A commit of many pairs leaves no pages that wait, which all others would read. */
static void groups(void) {
    enum { COUNT = 200 };
    static char texts[COUNT][16];
    static dbmx_pair pairs[COUNT];
    size_t stored = 0;
    DBM *db = shared("t", O_RDWR), *reader = shared("t", O_RDONLY);
    for (int i = 0; i < COUNT; i++) {
        sprintf(texts[i], "g%d", i);
        pairs[i] = (dbmx_pair){of(texts[i]), of(texts[i])};
    }
    WORKS(dbmx_store_many(db, pairs, COUNT, &stored) == 0 && stored == COUNT && !waits(db));
    for (int i = 0; i < COUNT; i++) WORKS(has(reader, texts[i], texts[i]));
    WORKS(dbmx_store_many(db, pairs, 2, &stored) == 0 && stored == 2 && waits(db));
    WORKS(dbmx_sync(db) == 0 && !waits(db) && dbmx_verify(reader) == 0);
    dbm_close(db);
    dbm_close(reader);
}

/* which number the key of a pass has, and -1 for another one */
static int number_of(datum key) {
    char text[32] = {0};
    if (key.dsize < 2 || key.dsize >= sizeof text || *(char *)key.dptr != 'p') return -1;
    memcpy(text, (char *)key.dptr + 1, key.dsize - 1);
    return atoi(text);
}

/* A pass gives each key once that stays, whatever others store and delete between two of its calls. */
static void passes(void) {
    DBM *reader = shared("t", O_RDWR | O_CREAT | O_TRUNC), *writer = shared("t", O_RDWR);
    unsigned char seen[KEYS] = {0};
    char text[32];
    FAILS(EINVAL, !dbm_nextkey(reader).dptr);
    CHECK(dbm_error(reader) == 7 && dbm_clearerr(reader) == 0);
    WORKS(!dbm_firstkey(reader).dptr);
    CHECK(put(writer, "only", "") == 0);
    /* a pass that found nothing stands before all keys */
    WORKS(is(dbm_nextkey(reader), "only"));
    WORKS(!dbm_nextkey(reader).dptr);
    CHECK(dbm_delete(writer, of("only")) == 0);
    for (int i = 0; i < KEYS; i++) {
        sprintf(text, "p%d", i);
        CHECK(put(writer, text, "1") == 0);
    }
    int count = 0, other = 0;
    for (datum key = dbm_firstkey(reader); key.dptr; key = dbm_nextkey(reader)) {
        int i = number_of(key);
        if (i >= 0 && CHECK(i < KEYS && !seen[i]++)) count++;
        sprintf(text, "other %d", other++);
        CHECK(put(writer, text, "") == 0);
        if (other > 2) sprintf(text, "other %d", other - 3);
        if (other > 2) CHECK(dbm_delete(writer, of(text)) == 0);
    }
    CHECK(count == KEYS && dbm_error(reader) == 0);
    dbm_close(reader);
    dbm_close(writer);
}

/* the number in the file: it is even between the calls of shared handles, and odd while another one has written */
static void turns(void) {
    DBM *a = shared("t", O_RDWR | O_CREAT | O_TRUNC), *reader = shared("t", O_RDONLY);
    uint64_t turn = turn_of("t.db");
    CHECK(turn % 2 == 0 && turn > 0);
    WORKS(!dbm_fetch(reader, of("a")).dptr);
    CHECK(turn_of("t.db") == turn);
    for (int i = 0; i < 5; i++) {
        WORKS(put(a, "a", "1") == 0);
        CHECK(turn_of("t.db") == turn + 2);
        turn += 2;
    }
    WORKS(dbm_store(a, of("a"), of("2"), DBM_INSERT) == 1);
    CHECK(turn_of("t.db") == turn);
    dbm_close(a);
    CHECK(turn_of("t.db") == turn);
    DBM *exclusive = open_or_end("t", O_RDWR);
    CHECK(turn_of("t.db") == turn + 1 && put(exclusive, "a", "3") == 0 && turn_of("t.db") == turn + 1);
    dbm_close(exclusive);
    CHECK(turn_of("t.db") == turn + 2 && has(reader, "a", "3"));
    exclusive = open_or_end("t", O_RDONLY);
    CHECK(turn_of("t.db") == turn + 2 && has(reader, "a", "3"));
    dbm_close(exclusive);
    dbm_close(reader);
    exclusive = open_or_end("new", O_RDWR | O_CREAT | O_EXCL);
    CHECK(turn_of("new.db") == 1);
    dbm_close(exclusive);
    CHECK(turn_of("new.db") == 2);
}

/* A writer that knows no turn: what it stores is found at once under the lock, and within some seconds without. */
static void without_turn(void) {
    DBM *reader = shared("t", O_RDONLY), *writer = shared("t", O_RDWR);
    CHECK(put(writer, "a", "1") == 0 && has(reader, "a", "1"));
    uint64_t turn = turn_of("t.db");
    sleep_for(30);
    DBM *exclusive = open_or_end("t", O_RDWR);
    CHECK(put(exclusive, "a", "2") == 0);
    dbm_close(exclusive);
    set_turn("t.db", turn);
    CHECK(dbm_store(writer, of("a"), of("x"), DBM_INSERT) == 1 && has(writer, "a", "2"));
    sleep_for(2100);
    CHECK(has(reader, "a", "2") && dbm_error(reader) == 0);
    dbm_close(reader);
    dbm_close(writer);
}

/* Another file gets the name: whoever has the lock finds it at once, and others where its writer made the turn odd, or within some
 * seconds. */
static void names(void) {
    DBM *reader = shared("t", O_RDONLY), *writer = shared("t", O_RDWR);
    int file = dbm_pagfno(reader);
    CHECK(put(writer, "k", "old") == 0 && has(reader, "k", "old"));
    make("next", "k", "new");
    CHECK(!rename("next.db", "t.db"));
    WORKS(put(writer, "more", "1") == 0);
    WORKS(has(writer, "k", "new"));
    sleep_for(2100);
    WORKS(has(reader, "k", "new") && has(reader, "more", "1"));
    CHECK(dbm_pagfno(reader) == file && fcntl(file, F_GETFD) == FD_CLOEXEC);
    make("next", "k", "newer");
    set_turn("t.db", turn_of("t.db") + 1);
    /* who looks between the two doesn't go by that turn */
    WORKS(has(reader, "k", "new"));
    CHECK(!rename("next.db", "t.db"));
    WORKS(has(reader, "k", "newer") && !dbm_fetch(reader, of("more")).dptr);
    CHECK(!rename("t.db", "away.db"));
    FAILS(ENOENT, put(writer, "k", "x") == -1);
    CHECK(dbm_error(writer) == 14 && dbm_clearerr(writer) == 0);
    sleep_for(2100);
    for (int i = 0; i < 3; i++) FAILS(ENOENT, !dbm_fetch(reader, of("k")).dptr);
    CHECK(dbm_error(reader) == 14 && dbm_clearerr(reader) == 0);
    CHECK(!rename("away.db", "t.db"));
    WORKS(put(writer, "k", "back") == 0 && has(reader, "k", "back"));
    dbm_close(reader);
    dbm_close(writer);
}

/* a pass goes on in the file that has the name then */
static void passes_of_two(void) {
    DBM *reader = shared("t", O_RDONLY), *copy = open_or_end("copy", O_RDWR | O_CREAT | O_TRUNC);
    DBM *writer = shared("t", O_RDWR | O_TRUNC);
    unsigned char seen[KEYS] = {0};
    char text[32];
    int count = 0;
    for (int i = 0; i < KEYS; i++) {
        sprintf(text, "p%d", i);
        CHECK(put(writer, text, "1") == 0 && put(copy, text, "2") == 0);
    }
    dbm_close(copy);
    dbm_close(writer);
    for (datum key = dbm_firstkey(reader); key.dptr; key = dbm_nextkey(reader)) {
        int i = number_of(key);
        CHECK(i >= 0 && i < KEYS && !seen[i]++);
        if (++count != KEYS / 2) continue;
        set_turn("t.db", turn_of("t.db") + 1);
        CHECK(!rename("copy.db", "t.db") && has(reader, "p0", "2"));
    }
    CHECK(count == KEYS && dbm_error(reader) == 0);
    dbm_close(reader);
}

/* A database that was opened before the process got another root, which has no way to the file, and a child of that process. */
static void behind_root(void) {
    DBM *db = shared("t", O_RDWR), *writer = shared("t", O_RDWR);
    CHECK(put(writer, "k", "1") == 0 && !chroot("below") && !chdir("/"));
    WORKS(put(db, "k", "2") == 0 && has(writer, "k", "2"));
    int status = 1;
    fflush(stdout);
    pid_t child = fork();
    if (!child) {
        int failed = put(db, "k", "3");
        dbm_close(db);
        dbm_close(writer);
        _exit(failed);
    }
    CHECK(waitpid(child, &status, 0) == child && status == 0);
    WORKS(has(writer, "k", "3") && has(db, "k", "3"));
    dbm_close(db);
    dbm_close(writer);
}

/* the file is found behind chdir, and through a link that leads to another one */
static void folders(void) {
    make("first", "k", "1");
    make("second", "k", "2");
    CHECK(!symlink("first.db", "link.db") && !mkdir("below", 0755));
    DBM *db = shared("link", O_RDWR);
    CHECK(has(db, "k", "1") && !chdir("below"));
    WORKS(put(db, "k", "3") == 0);
    CHECK(!chdir("..") && !symlink("second.db", "link.next") && !rename("link.next", "link.db"));
    WORKS(put(db, "more", "4") == 0 && has(db, "k", "2"));
    dbm_close(db);
    if (geteuid() == 0) apart(behind_root);
}

/* stores pairs of its own, and finds each */
static void many(DBM *db, int who) {
    for (int i = 0; i < EACH; i++) {
        char text[32];
        sprintf(text, "%d of %d", i, who);
        if (!CHECK(put(db, text, text) == 0) || !CHECK(has(db, text, text))) return;
    }
}

static void all_there(DBM *db, int from, int to) {
    for (int who = from; who < to; who++) {
        for (int i = 0; i < EACH; i++) {
            char text[32];
            sprintf(text, "%d of %d", i, who);
            CHECK(has(db, text, text));
        }
    }
}

/* one handle, used by a process and its children at once */
static void children(void) {
    DBM *db = shared("t", O_RDWR | O_TRUNC), *reader = shared("t", O_RDONLY);
    CHECK(put(db, "k", "1") == 0 && has(reader, "k", "1"));
    fflush(stdout);
    for (int who = 1; who < 4; who++) {
        if (fork()) continue;
        many(db, who);
        if (who == 1) WORKS((dbm_close(db), true));
        fflush(stdout);
        _exit(bad);
    }
    many(db, 0);
    for (int status = 0; wait(&status) > 0;) CHECK(status == 0);
    all_there(reader, 0, 4);
    WORKS(dbmx_verify(db) == 0 && dbm_error(db) == 0);
    dbm_close(db);
    dbm_close(reader);
}

static void *thread(void *who) {
    DBM *db = shared("t", O_RDWR);
    many(db, *(int *)who);
    dbm_close(db);
    return NULL;
}

/* threads with a small stack and a handle each, at once */
static void threads(void) {
    enum { COUNT = 4, STACK = 768 * 1024 };
    pthread_t them[COUNT];
    pthread_attr_t how;
    int numbers[COUNT];
    DBM *reader = shared("t", O_RDONLY);
    if (pthread_attr_init(&how) || pthread_attr_setstacksize(&how, STACK)) exit(2);
    for (int i = 0; i < COUNT; i++) {
        numbers[i] = 4 + i;
        if (pthread_create(&them[i], &how, thread, &numbers[i])) exit(2);
    }
    pthread_attr_destroy(&how);
    for (int i = 0; i < COUNT; i++) CHECK(!pthread_join(them[i], NULL));
    all_there(reader, 0, 4 + COUNT);
    WORKS(dbmx_verify(reader) == 0 && dbm_error(reader) == 0);
    dbm_close(reader);
}

int main(void) {
    int before = open_descriptors();
    alarm(110);
    openings();
    kinds();
    by_turns();
    groups();
    passes();
    turns();
    without_turn();
    names();
    passes_of_two();
    folders();
    children();
    threads();
    CHECK(open_descriptors() == before);
    return bad;
}
