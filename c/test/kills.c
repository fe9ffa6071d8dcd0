/* A child that changes a file is killed at some moment, a hundred times. Each call that it acknowledged is there afterwards,
 * and of the others at most the one that was under way; of a list, which is one call, the first pairs of it may be there. Some
 * contents are so long that they have pages of their own. */
#include <signal.h>
#include <time.h>

#include "check.h"

enum { ROUNDS = 100, MOST = 1 << 18, LONGEST = 40000, LIST = 64, REOPENED = 150, FEW = 15, MANY = 150, LEAST_ACKNOWLEDGED = 500 };

/* what change n is, from 1 on: the content of a key, which are both numbers, or a delete */
struct change {
    uint32_t key, content;
    bool deletes;
};

/* the content of each key by the changes up to some number, and as the file has it; 0: none */
static uint32_t wanted[MOST], found[MOST];

/* whether the change is one of a list; a list has those whose numbers are the same up to its size */
static bool is_listed(uint32_t n) {
    return n / (8 * LIST) % 3 == 2;
}

/* Each change makes another map than the one before it. */
static struct change change_of(uint32_t n) {
    uint32_t first = n / 8 * 8;
    if (is_listed(n)) return (struct change){n, n, false};
    switch (n % 8) {
        case 4: return (struct change){first + 1, n, false};
        case 6: return (struct change){first + 2, n, true};
        case 7: return (struct change){first / 2 / 8 * 8 + 1, n, false};
        default: return (struct change){n, n, false};
    }
}

static size_t size_of_content(uint32_t n) {
    return n % 9 == 4 ? 2000 + n * 37 % (LONGEST - 2000) : sizeof n + n * 37 % 300;
}

static datum key_of(uint32_t n, char *text) {
    return (datum){text, (size_t)sprintf(text, "key %u", n)};
}

static datum content_of(uint32_t n, unsigned char *bytes) {
    memset(bytes, (int)(n % 251), size_of_content(n));
    memcpy(bytes, &n, sizeof n);
    return (datum){bytes, size_of_content(n)};
}

static bool make_one(DBM *db, uint32_t n) {
    char text[32];
    static unsigned char bytes[LONGEST];
    struct change it = change_of(n);
    datum key = key_of(it.key, text);
    if (it.deletes) return !dbm_delete(db, key);
    return !dbm_store(db, key, content_of(it.content, bytes), it.key == n ? DBM_INSERT : DBM_REPLACE);
}

/* Makes the changes from n on that are a list with it, and answers the number of the last one, or 0. */
static uint32_t make_list(DBM *db, uint32_t n) {
    static char texts[LIST][32];
    static unsigned char bytes[LIST][LONGEST];
    dbmx_pair pairs[LIST];
    size_t count = 0, stored = 0;
    do {
        pairs[count] = (dbmx_pair){key_of(n + (uint32_t)count, texts[count]), content_of(n + (uint32_t)count, bytes[count])};
        count++;
    } while ((n + count) % LIST);
    return dbmx_store_many(db, pairs, count, &stored) || stored != count ? 0 : n + (uint32_t)count - 1;
}

/* Makes the changes from n on, writes the number of each that was answered, and ends only by what is wrong. */
static void change_on(uint32_t n, int to) {
    DBM *db = dbm_open("t", O_RDWR, 0);
    for (unsigned calls = 1; db; calls++) {
        uint32_t last = is_listed(n) ? make_list(db, n) : make_one(db, n) ? n : 0;
        if (!last || write(to, &last, sizeof last) != (ssize_t)sizeof last) break;
        n = last + 1;
        if (calls % REOPENED) continue;
        dbm_close(db);
        db = dbm_open("t", O_RDWR, 0);
    }
    _exit(3);
}

/* Has a child change the file for so many microseconds, and answers the number that it wrote last. */
static uint32_t killed_behind(uint32_t begun, long microseconds) {
    int ends[2], status = 0;
    uint32_t last = begun, number;
    if (pipe(ends)) exit(2);
    pid_t child = fork();
    if (child < 0) exit(2);
    if (!child) {
        close(ends[0]);
        /* Nobody reads before the kill, so the pipe has to hold all numbers. */
        fcntl(ends[1], F_SETPIPE_SZ, 1 << 20);
        change_on(begun + 1, ends[1]);
    }
    close(ends[1]);
    nanosleep(&(struct timespec){microseconds / 1000000, microseconds % 1000000 * 1000}, NULL);
    kill(child, SIGKILL);
    while (read(ends[0], &number, sizeof number) == (ssize_t)sizeof number) last = number;
    close(ends[0]);
    CHECK(waitpid(child, &status, 0) == child && WIFSIGNALED(status) && WTERMSIG(status) == SIGKILL);
    return last;
}

static void make_in_map(uint32_t n) {
    struct change it = change_of(n);
    if (n >= MOST) exit(2);
    wanted[it.key] = it.deletes ? 0 : it.content;
}

/* Reads all pairs, each of which has to be one that was stored. */
static void read_all(DBM *db) {
    static unsigned char bytes[LONGEST];
    memset(found, 0, sizeof found);
    for (datum key = dbm_firstkey(db); key.dptr; key = dbm_nextkey(db)) {
        char text[32] = {0}, again[32];
        unsigned number = 0;
        uint32_t n = 0;
        if (!CHECK(key.dsize < sizeof text)) return;
        memcpy(text, key.dptr, key.dsize);
        datum content = dbm_fetch(db, key);
        if (!CHECK(sscanf(text, "key %u", &number) == 1 && number < MOST && content.dsize >= sizeof n)) return;
        memcpy(&n, content.dptr, sizeof n);
        CHECK(key_of(number, again).dsize == key.dsize && !strcmp(text, again) && !found[number]);
        CHECK(content.dsize == size_of_content(n) && !memcmp(content_of(n, bytes).dptr, content.dptr, content.dsize));
        found[number] = n;
    }
    CHECK(dbm_error(db) == 0);
}

/* How many changes the file has. They are the acknowledged ones, and of the others at most the one call that was under way. */
static uint32_t changes_found(uint32_t begun, uint32_t acknowledged) {
    uint32_t under_way = acknowledged + 1, last = under_way, n = begun;
    if (is_listed(under_way)) last = under_way / LIST * LIST + LIST - 1;
    DBM *db = open_or_end("t", O_RDWR);
    WORKS(dbmx_verify(db) == 0);
    read_all(db);
    dbm_close(db);
    while (n < acknowledged) make_in_map(++n);
    while (n < last && memcmp(wanted, found, sizeof wanted)) make_in_map(++n);
    if (memcmp(wanted, found, sizeof wanted)) {
        printf("of the changes from %u on, of which %u were acknowledged, the file has others\n", begun + 1, acknowledged);
        exit(1);
    }
    return n;
}

int main(void) {
    uint32_t done = 0, acknowledged = 0, random = 1;
    /* The longest time before a kill, in microseconds. It follows how many changes the rounds acknowledge. */
    long most = 10000;
    dbm_close(open_or_end("t", O_RDWR | O_CREAT | O_EXCL));
    for (int round = 0; round < ROUNDS; round++) {
        random = random * 1103515245 + 12345;
        uint32_t last = killed_behind(done, 500 + (long)(random >> 8) % most);
        acknowledged += last - done;
        if (last - done < FEW && most < 400000) most += most / 4;
        if (last - done > MANY && most > 2000) most -= most / 4;
        done = changes_found(done, last);
    }
    if (!CHECK(acknowledged >= LEAST_ACKNOWLEDGED)) printf("%u acknowledged changes are too few\n", acknowledged);
    return bad;
}
