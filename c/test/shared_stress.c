/* Readers and writers side by side over one file, killed at random, beside openings that aren't shared and a table that is replaced now and
 * then. Each reply is compared with what may be there. Each writer has two registers that it counts up, the first one before the second. A
 * fetch of one has to tell at least what was acknowledged, or told to anybody, before it began, and at most what was begun before it ended;
 * and never more of the second one than of the first. SHARED_SECONDS in the environment says for how long, and else it is 3 seconds. */
#include <signal.h>
#include <stdatomic.h>
#include <sys/file.h>
#include <sys/mman.h>

#include "shared.h"

enum { READERS = 4, WRITERS = 3, VISITORS = 1, REGISTERS = WRITERS + VISITORS, PROCESSES = READERS + REGISTERS + 1 };
enum { STAYING = 400, TICKETS = 1 << 16, LONGEST = 12016, LISTED = 20, COPIED = 20000, COPY = 1 << 25 };

struct number {
    _Atomic uint64_t begun, acknowledged, seen;
};

/* what all processes have */
static struct all {
    struct number numbers[REGISTERS][2];
    _Atomic unsigned char won[TICKETS];
    _Atomic uint64_t fetches, stores, visits, passes, tickets, lists, replaced, kills;
    _Atomic uint64_t ticket;
    _Atomic unsigned wrong;
    _Atomic bool ends;
} *all;

static void wrong(const char *what, uint64_t a, uint64_t b, uint64_t c) {
    int error = errno;
    if (all->wrong++ >= 20) return;
    printf("%s: %llu %llu %llu (errno %d)\n", what, (unsigned long long)a, (unsigned long long)b, (unsigned long long)c, error);
    fflush(stdout);
}

static uint32_t seed;

static uint32_t random_below(uint32_t bound) {
    seed ^= seed << 13;
    seed ^= seed >> 17;
    seed ^= seed << 5;
    return seed % bound;
}

/* The content of number n: the number, and then bytes that follow from it. Some have pages of their own. */
static size_t size_for(uint64_t n) {
    return n % 23 == 7 ? 3000 + n * 37 % 9000 : 8 + n * 31 % 200;
}

static datum content_for(uint64_t n, unsigned char *bytes) {
    size_t size = size_for(n);
    memset(bytes, (int)(n * 7 % 251), size);
    memcpy(bytes, &n, sizeof n);
    return (datum){bytes, size};
}

static bool number_in(datum content, uint64_t *n) {
    unsigned char wanted[LONGEST];
    if (content.dsize < sizeof *n) return false;
    memcpy(n, content.dptr, sizeof *n);
    return content.dsize == size_for(*n) && !memcmp(content.dptr, content_for(*n, wanted).dptr, content.dsize);
}

static datum key_of(char *text, unsigned which, unsigned side) {
    return (datum){text, (size_t)sprintf(text, "register %u.%u", which, side)};
}

/* Fetches a register, and looks at what is told. */
static uint64_t look(DBM *db, unsigned which, unsigned side) {
    char text[32];
    struct number *it = &all->numbers[which][side];
    uint64_t least = it->acknowledged, seen = it->seen, n = 0;
    if (seen > least) least = seen;
    datum content = dbm_fetch(db, key_of(text, which, side));
    uint64_t most = it->begun;
    if (!content.dptr) {
        wrong("a fetch gave none", which, side, least);
        return least;
    }
    if (!number_in(content, &n)) {
        wrong("a content is spoilt", which, side, content.dsize);
        return least;
    }
    if (n < least || n > most) wrong("what is told isn't between", n, least, most);
    for (seen = it->seen; seen < n && !atomic_compare_exchange_weak(&it->seen, &seen, n);) continue;
    all->fetches++;
    return n;
}

/* Notes a key of a pass: whether it stays, and isn't noted yet. */
static bool note(datum key, unsigned char *noted) {
    char text[16] = {0};
    if (key.dsize < 6 || key.dsize >= sizeof text || memcmp(key.dptr, "stay ", 5)) return false;
    memcpy(text, (char *)key.dptr + 5, key.dsize - 5);
    int i = atoi(text);
    if (i < 0 || i >= STAYING || noted[i]) {
        wrong("a key that stays comes twice", (uint64_t)i, 0, 0);
        return false;
    }
    noted[i] = 1;
    return true;
}

static void pass(DBM *db) {
    unsigned char noted[STAYING] = {0};
    unsigned count = 0;
    for (datum key = dbm_firstkey(db); key.dptr; key = dbm_nextkey(db)) {
        count += note(key, noted);
        if (random_below(8) == 0) look(db, random_below(REGISTERS), random_below(2));
    }
    if (dbm_error(db)) wrong("a pass ended by a fault", (uint64_t)dbm_error(db), 0, 0);
    dbm_clearerr(db);
    if (count != STAYING) wrong("keys that stay are missing", count, STAYING, 0);
    all->passes++;
}

static void read_on(unsigned who) {
    DBM *db = shared("t", who % 3 == 2 ? O_RDWR : O_RDONLY);
    while (!all->ends) {
        unsigned which = random_below(REGISTERS);
        uint64_t second = look(db, which, 1), first = look(db, which, 0), again = look(db, which, 1);
        if (first < second) wrong("the second register is before the first", first, second, 0);
        if (again + 1 < first) wrong("the first register is two before the second", first, again, 0);
        if (random_below(400) == 0) pass(db);
    }
    dbm_close(db);
}

/* Stores a register. */
static bool count_up(DBM *db, unsigned which, unsigned side, uint64_t n) {
    static unsigned char bytes[LONGEST];
    char text[32];
    struct number *it = &all->numbers[which][side];
    it->begun = n;
    if (dbm_store(db, key_of(text, which, side), content_for(n, bytes), DBM_REPLACE)) {
        wrong("a store failed", which, n, (uint64_t)dbm_error(db));
        return false;
    }
    it->acknowledged = n;
    all->stores++;
    return true;
}

/* The number of the first register, behind which the second one is put where a writer was killed between them. */
static uint64_t begin_at(DBM *db, unsigned which) {
    uint64_t n = look(db, which, 0), second = look(db, which, 1);
    if (second > n || second + 1 < n) wrong("registers of one's own", n, second, 0);
    if (n == second + 1) count_up(db, which, 1, n);
    return n;
}

static void come_and_go(DBM *db, unsigned which) {
    static unsigned char bytes[LONGEST];
    char text[32];
    datum key = {text, (size_t)sprintf(text, "other %u.%u", which, random_below(300))};
    if (random_below(2)) {
        if (dbm_store(db, key, content_for(random_below(1000), bytes), DBM_REPLACE)) wrong("a store failed", which, 0, 0);
    } else if (dbm_delete(db, key) && errno != ENOENT) {
        wrong("a delete failed", which, 0, 0);
    }
}

/* All insert one key: one of them is told that it wasn't there. */
static void race(DBM *db) {
    static unsigned char bytes[LONGEST];
    char text[32];
    uint64_t n = all->ticket;
    datum key = {text, (size_t)sprintf(text, "ticket %llu", (unsigned long long)n)};
    int status = dbm_store(db, key, content_for(n, bytes), DBM_INSERT);
    if (status < 0) wrong("an insert failed", n, 0, 0);
    if (status == 0 && all->won[n % TICKETS]++) wrong("a key was inserted twice", n, 0, 0);
    all->tickets++;
    if (random_below(2)) atomic_compare_exchange_strong(&all->ticket, &n, n + 1);
}

static void list(DBM *db, unsigned which) {
    static unsigned char bytes[LISTED][LONGEST];
    static char texts[LISTED][32];
    dbmx_pair pairs[LISTED];
    size_t stored = 0;
    for (int i = 0; i < LISTED; i++) {
        pairs[i].key = (datum){texts[i], (size_t)sprintf(texts[i], "list %u.%u", which, random_below(100))};
        pairs[i].content = content_for(random_below(1000), bytes[i]);
    }
    if (dbmx_store_many(db, pairs, LISTED, &stored) || stored != LISTED) wrong("a list isn't stored", stored, 0, 0);
    all->lists++;
}

static void write_on(unsigned which) {
    DBM *db = shared("t", O_RDWR);
    uint64_t n = begin_at(db, which);
    while (!all->ends) {
        n++;
        if (!count_up(db, which, 0, n) || !count_up(db, which, 1, n)) break;
        come_and_go(db, which);
        if (random_below(6) == 0) race(db);
        if (random_below(20) == 0) list(db, which);
        if (random_below(16) == 0) look(db, random_below(REGISTERS), random_below(2));
        if (random_below(400) == 0) pass(db);
        if (random_below(64)) continue;
        dbm_close(db);
        db = shared("t", O_RDWR);
    }
    dbm_close(db);
}

/* Opens the file for itself now and then, as a program does that knows of no sharing. */
static void visit(unsigned which) {
    const dbmx_how how = {.wait = 20};
    while (!all->ends) {
        DBM *db = dbmx_open("t", O_RDWR, 0, &how, NULL);
        if (!db) {
            wrong("an opening failed", which, 0, 0);
            return;
        }
        uint64_t n = begin_at(db, which);
        for (int i = 0; i < 3; i++) {
            n++;
            if (!count_up(db, which, 0, n) || !count_up(db, which, 1, n)) break;
        }
        dbm_close(db);
        all->visits++;
        sleep_for(20 + random_below(200));
    }
}

/* Stores the pairs of a database in another one. */
static bool copy(DBM *from, DBM *to) {
    static unsigned char bytes[COPY];
    static dbmx_pair pairs[COPIED];
    size_t count = 0, at = 0, stored = 0;
    for (datum key = dbm_firstkey(from); key.dptr; key = dbm_nextkey(from)) {
        datum content = dbm_fetch(from, key);
        if (!content.dptr || count == COPIED || at + key.dsize + content.dsize > COPY) return false;
        pairs[count].key = (datum){memcpy(bytes + at, key.dptr, key.dsize), key.dsize};
        at += key.dsize;
        pairs[count++].content = (datum){memcpy(bytes + at, content.dptr, content.dsize), content.dsize};
        at += content.dsize;
    }
    return !dbm_error(from) && !dbmx_store_many(to, pairs, count, &stored) && stored == count;
}

/* Makes the table anew beside it, while it is locked as by a reader, makes its turn odd, and gives the new one its name. */
static void replace(void) {
    const dbmx_how unlocked = {.options = DBMX_UNLOCKED}, how = {.limit = 100000};
    while (!all->ends) {
        sleep_for(700);
        unlink("next.db");
        int fd = open("t.db", O_RDONLY | O_CLOEXEC);
        if (fd < 0 || flock(fd, LOCK_SH)) exit(2);
        DBM *old = dbmx_open("t", O_RDONLY, 0, &unlocked, NULL);
        DBM *new = dbmx_open("next", O_RDWR | O_CREAT | O_EXCL, 0644, &how, NULL);
        if (!old || !new || !copy(old, new)) wrong("a table isn't copied", !old, !new, 0);
        dbm_close(old);
        dbm_close(new);
        uint64_t turn = turn_of("t.db");
        set_turn("t.db", turn + (turn & 1 ? 2 : 1));
        if (rename("next.db", "t.db")) exit(2);
        close(fd);
        all->replaced++;
    }
}

static pid_t processes[PROCESSES];

/* Begins process i: writers, visitors, readers, and one that replaces the table. */
static void begin(unsigned i) {
    fflush(stdout);
    pid_t child = fork();
    if (child < 0) exit(2);
    if (!child) {
        seed = (uint32_t)getpid() * 2654435761u | 1;
        if (i < WRITERS) write_on(i);
        else if (i < REGISTERS) visit(i);
        else if (i < REGISTERS + READERS) read_on(i - REGISTERS);
        else replace();
        fflush(stdout);
        _exit(0);
    }
    processes[i] = child;
}

static void end(unsigned i, int signal) {
    int status = 0;
    if (signal) kill(processes[i], signal);
    if (waitpid(processes[i], &status, 0) != processes[i]) exit(2);
    if (WIFSIGNALED(status) ? WTERMSIG(status) != signal : status) wrong("a process ended", i, (uint64_t)status, 0);
}

static void fill(void) {
    static unsigned char bytes[LONGEST];
    char text[32];
    DBM *db = shared("t", O_RDWR | O_CREAT | O_EXCL);
    for (unsigned i = 0; i < STAYING; i++) {
        datum key = {text, (size_t)sprintf(text, "stay %u", i)};
        CHECK(dbm_store(db, key, content_for(i, bytes), DBM_INSERT) == 0);
    }
    for (unsigned i = 0; i < REGISTERS; i++) CHECK(count_up(db, i, 0, 1) && count_up(db, i, 1, 1));
    dbm_close(db);
}

/* what is there at last */
static void look_through(void) {
    DBM *db = shared("t", O_RDWR);
    for (unsigned i = 0; i < REGISTERS; i++) {
        look(db, i, 0);
        look(db, i, 1);
    }
    pass(db);
    WORKS(dbmx_verify(db) == 0);
    dbm_close(db);
}

int main(void) {
    const char *seconds = getenv("SHARED_SECONDS");
    all = mmap(NULL, sizeof *all, PROT_READ | PROT_WRITE, MAP_SHARED | MAP_ANONYMOUS, -1, 0);
    if (all == MAP_FAILED) return 2;
    seed = (uint32_t)getpid() | 1;
    fill();
    double until = now() + (seconds ? atof(seconds) : 3);
    for (unsigned i = 0; i < PROCESSES; i++) begin(i);
    while (now() < until) {
        sleep_for(50 + random_below(100));
        unsigned i = random_below(PROCESSES - 1);
        end(i, SIGKILL);
        all->kills++;
        begin(i);
    }
    all->ends = true;
    for (unsigned i = 0; i < PROCESSES; i++) end(i, 0);
    look_through();
    CHECK(all->fetches > 100 && all->stores > 20 && all->kills > 3);
    if (seconds) {
        printf("%llu fetches, %llu stores, %llu visits, %llu passes, %llu tickets, %llu lists, %llu replacements, %llu kills, %u wrong\n",
               (unsigned long long)all->fetches, (unsigned long long)all->stores, (unsigned long long)all->visits,
               (unsigned long long)all->passes, (unsigned long long)all->tickets, (unsigned long long)all->lists,
               (unsigned long long)all->replaced, (unsigned long long)all->kills, all->wrong);
    }
    return bad || all->wrong;
}
