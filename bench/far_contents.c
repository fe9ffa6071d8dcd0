// Contents of 60,000 bytes, which lie in pages of their own: the times of calls by the C library, and of bare calls of the system
// on the same bytes. It prints the nanoseconds of each part. The words:
//   store NAME COUNT ROUND   stores the contents of this round in a row; the time has the opening and the closing
//   single NAME COUNT ROUND  the same with an opening and a closing for each store
//   fetch NAME COUNT ROUND   fetches them in no order; reads their pages from the file, one by one; reads them by runs of pages
//                            that lie side by side
//   cold NAME COUNT ROUND    the same, where the system is asked before each part to keep nothing of the file in memory
//   carry FILE               makes the writes and syncs that standard input tells: lines `W SIZE PLACE` and `S`
//   text NAME COUNT ROUND    prints the stores as a script for dbmtool, and no time
// The contents of round 0 and of round 1 are under the same keys.
#include <errno.h>
#include <fcntl.h>
#include <stdbool.h>
#include <stdint.h>
#include <stdio.h>
#include <stdlib.h>
#include <string.h>
#include <sys/stat.h>
#include <time.h>
#include <unistd.h>

#include "ndbm.h"

enum { KEY = 16, CONTENT = 60000, MOST = 2048 };

// docs/FORMAT.md: a page, its header, what a content page has of a content, the kinds of the pages of a bucket, and the bit of a
// slot's key length that says the content has pages of its own
enum { PAGE = 2048, HEADER = 16, PART = PAGE - HEADER, SLOT = 6, HEAD = 3, OVERFLOW = 4, FAR = 0x8000 };
enum { PAGES = (CONTENT + PART - 1) / PART };

enum { LONGEST = 1 << 20 };

struct change {
    size_t size;  // 0: a sync
    off_t place;
};

static char key_bytes[KEY + 1];
static unsigned char content_bytes[CONTENT + 2 * MOST], room[LONGEST];
static unsigned order[MOST];
static uint32_t pages_of[MOST][PAGES];

static void fail(const char *what) {
    perror(what);
    exit(1);
}

static void stop(const char *what) {
    fprintf(stderr, "far_contents: %s\n", what);
    exit(1);
}

static uint64_t now(void) {
    struct timespec it;
    if (clock_gettime(CLOCK_MONOTONIC, &it) != 0) fail("clock_gettime");
    return (uint64_t)it.tv_sec * 1000000000 + (uint64_t)it.tv_nsec;
}

static void tell(uint64_t from) {
    printf("%llu\n", (unsigned long long)(now() - from));
}

static uint32_t next_random(uint32_t *state) {
    *state ^= *state << 13;
    *state ^= *state >> 17;
    *state ^= *state << 5;
    return *state;
}

static void make_contents(void) {
    uint32_t state = 1;
    for (size_t i = 0; i < sizeof content_bytes; i++) content_bytes[i] = (unsigned char)(next_random(&state) >> 8);
    memcpy(room, content_bytes, sizeof content_bytes);
}

static void make_order(unsigned count, uint32_t seed) {
    uint32_t state = seed;
    for (unsigned i = 0; i < count; i++) {
        unsigned other = next_random(&state) % (i + 1);
        order[i] = order[other];
        order[other] = i;
    }
}

// Neighbors have keys far from one another.
static datum key_of(unsigned n) {
    snprintf(key_bytes, sizeof key_bytes, "%08x%08x", n * 2654435761u, n);
    return (datum){key_bytes, KEY};
}

// Each content is at a place of its own in the same bytes, so that making one takes no time.
static datum content_of(unsigned n, unsigned round) {
    return (datum){content_bytes + n + round * MOST, CONTENT};
}

static DBM *open_database(const char *name, int flags) {
    DBM *db = dbm_open(name, flags, 0644);
    if (!db) fail("dbm_open");
    return db;
}

static void close_database(DBM *db) {
    errno = 0;
    dbm_close(db);
    if (errno) fail("dbm_close");
}

static void store(DBM *db, unsigned n, unsigned round) {
    if (dbm_store(db, key_of(n), content_of(n, round), DBM_REPLACE) != 0) fail("dbm_store");
}

static void store_in_a_row(const char *name, unsigned count, unsigned round) {
    make_order(count, 1 + round);
    uint64_t from = now();
    DBM *db = open_database(name, O_RDWR | O_CREAT);
    for (unsigned i = 0; i < count; i++) store(db, order[i], round);
    close_database(db);
    tell(from);
}

static void store_singly(const char *name, unsigned count, unsigned round) {
    make_order(count, 1 + round);
    uint64_t from = now();
    for (unsigned i = 0; i < count; i++) {
        DBM *db = open_database(name, O_RDWR | O_CREAT);
        store(db, order[i], round);
        close_database(db);
    }
    tell(from);
}

static uint32_t number_at(const unsigned char *at, int size) {
    uint32_t number = 0;
    while (size--) number = number << 8 | *at++;
    return number;
}

// Keeps which pages a content has, and sees to it that they have its bytes.
static void note_pages(const unsigned char *file, size_t end, uint32_t page, unsigned n, const unsigned char *content) {
    for (size_t i = 0; i < PAGES; i++) {
        size_t left = CONTENT - PART * i;
        const unsigned char *at = file + (size_t)PAGE * page;
        if (page >= end || memcmp(at + HEADER, content + PART * i, left < PART ? left : PART) != 0) stop("the pages of a content");
        pages_of[n][i] = page;
        page = number_at(at + 8, 4);
    }
}

// Looks through a page of a bucket for pairs with pages of their own, and answers how many they are.
static unsigned note_pairs(const unsigned char *file, size_t end, const unsigned char *page, unsigned count, unsigned round) {
    unsigned found = 0, slots = number_at(page + 6, 2);
    for (unsigned i = 0; i < slots && HEADER + SLOT * (i + 1) <= PAGE; i++) {
        const unsigned char *slot = page + HEADER + SLOT * i;
        uint32_t record = number_at(slot, 2);
        if (number_at(slot + 2, 2) != (FAR | KEY) || number_at(slot + 4, 2) != CONTENT || record + KEY + 4 > PAGE) continue;
        char hex[9] = {0};
        memcpy(hex, page + record + 8, 8);
        unsigned long n = strtoul(hex, NULL, 16);
        if (n >= count || memcmp(page + record, key_of((unsigned)n).dptr, KEY) != 0) stop("a key");
        note_pages(file, end, number_at(page + record + KEY, 4), (unsigned)n, content_of((unsigned)n, round).dptr);
        found++;
    }
    return found;
}

static size_t size_of(int file) {
    struct stat it;
    if (fstat(file, &it) != 0) fail("fstat");
    return (size_t)it.st_size;
}

// Finds the pages of all contents in the file of a closed database.
static void find_pages(int file, unsigned count, unsigned round) {
    size_t size = size_of(file), end = size / PAGE, done = 0;
    unsigned found = 0;
    unsigned char *bytes = malloc(size);
    if (!bytes) fail("malloc");
    while (done < size) {
        ssize_t some = pread(file, bytes + done, size - done, (off_t)done);
        if (some <= 0) fail("pread");
        done += (size_t)some;
    }
    for (size_t n = 1; n < end; n++) {
        const unsigned char *page = bytes + PAGE * n;
        // what stands behind the last page of the file is left of redo images
        if (number_at(bytes + 12, 4) > n && (page[4] == HEAD || page[4] == OVERFLOW)) {
            found += note_pairs(bytes, end, page, count, round);
        }
    }
    free(bytes);
    if (found != count) stop("not all contents are in the file");
}

static void fetch_all(DBM *db, unsigned count, unsigned round, size_t compared) {
    for (unsigned i = 0; i < count; i++) {
        datum found = dbm_fetch(db, key_of(order[i]));
        if (!found.dptr || found.dsize != CONTENT) fail("dbm_fetch");
        if (memcmp(found.dptr, content_of(order[i], round).dptr, compared) != 0) stop("a fetch gives another content");
    }
}

static void read_at(int file, uint32_t page, size_t count) {
    if (pread(file, room, PAGE * count, (off_t)page * PAGE) != (ssize_t)(PAGE * count)) fail("pread");
}

static void read_pages(int file, unsigned count) {
    for (unsigned i = 0; i < count; i++) {
        for (size_t j = 0; j < PAGES; j++) read_at(file, pages_of[order[i]][j], 1);
    }
}

// How many pages from the first one on lie side by side, in either order.
static size_t run_of(const uint32_t *pages, size_t left) {
    size_t count = 1;
    int64_t step = left > 1 ? (int64_t)pages[1] - pages[0] : 0;
    if (step != 1 && step != -1) return 1;
    while (count < left && (int64_t)pages[count] - pages[count - 1] == step) count++;
    return count;
}

static void read_runs(int file, unsigned count) {
    for (unsigned i = 0; i < count; i++) {
        const uint32_t *pages = pages_of[order[i]];
        for (size_t j = 0, run; j < PAGES; j += run) {
            run = run_of(pages + j, PAGES - j);
            read_at(file, pages[j] < pages[j + run - 1] ? pages[j] : pages[j + run - 1], run);
        }
    }
}

static int open_file(const char *name) {
    char path[4096];
    if (snprintf(path, sizeof path, "%s.db", name) >= (int)sizeof path) stop("the name is too long");
    int file = open(path, O_RDONLY);
    if (file < 0) fail(path);
    return file;
}

static uint64_t begin(int file, bool is_cold) {
    if (is_cold && (fdatasync(file) != 0 || posix_fadvise(file, 0, 0, POSIX_FADV_DONTNEED) != 0)) stop("posix_fadvise");
    return now();
}

static void read_contents(const char *name, unsigned count, unsigned round, bool is_cold) {
    int file = open_file(name);
    find_pages(file, count, round);
    make_order(count, 3);
    DBM *db = open_database(name, O_RDONLY);
    uint64_t from = begin(file, is_cold);
    fetch_all(db, count, round, 16);
    tell(from);
    from = begin(file, is_cold);
    read_pages(file, count);
    tell(from);
    from = begin(file, is_cold);
    read_runs(file, count);
    tell(from);
    fetch_all(db, count, round, CONTENT);
    close_database(db);
    if (close(file) != 0) fail("close");
}

static void fetch(const char *name, unsigned count, unsigned round) {
    read_contents(name, count, round, false);
}

static void fetch_cold(const char *name, unsigned count, unsigned round) {
    read_contents(name, count, round, true);
}

// The changes that standard input tells.
static struct change *read_changes(size_t *count) {
    static struct change changes[1 << 18];
    char what[2];
    for (*count = 0; scanf(" %1s", what) == 1; ++*count) {
        struct change *it = changes + *count;
        long long place;
        if (*count == sizeof changes / sizeof *changes) stop("too many changes");
        if (*what == 'S') continue;
        if (*what != 'W' || scanf("%zu %lld", &it->size, &place) != 2 || !it->size || it->size > sizeof room) stop("no change");
        it->place = (off_t)place;
    }
    return changes;
}

static void carry(const char *path) {
    size_t count;
    const struct change *changes = read_changes(&count);
    uint64_t from = now();
    int file = open(path, O_RDWR | O_CREAT, 0644);
    if (file < 0) fail(path);
    for (size_t i = 0; i < count; i++) {
        const struct change *it = changes + i;
        if (!it->size && fdatasync(file) != 0) fail("fdatasync");
        if (it->size && pwrite(file, room, it->size, it->place) != (ssize_t)it->size) fail("pwrite");
    }
    if (close(file) != 0) fail("close");
    tell(from);
}

static void print_hex(datum it) {
    const unsigned char *at = it.dptr;
    for (size_t i = 0; i < it.dsize; i++) printf("%02x", at[i]);
}

static void print_stores(const char *name, unsigned count, unsigned round) {
    (void)name;
    make_order(count, 1 + round);
    for (unsigned i = 0; i < count; i++) {
        printf("S ");
        print_hex(key_of(order[i]));
        printf(" ");
        print_hex(content_of(order[i], round));
        printf("\n");
    }
}

int main(int words, char **word) {
    static const struct {
        const char *name;
        void (*run)(const char *, unsigned, unsigned);
    } parts[] = {{"store", store_in_a_row}, {"single", store_singly}, {"fetch", fetch},
                 {"cold", fetch_cold},      {"text", print_stores}};
    make_contents();
    if (words == 3 && !strcmp(word[1], "carry")) {
        carry(word[2]);
        return 0;
    }
    unsigned long count = words == 5 ? strtoul(word[3], NULL, 10) : 0, round = words == 5 ? strtoul(word[4], NULL, 10) : 0;
    for (size_t i = 0; i < sizeof parts / sizeof *parts && count >= 1 && count <= MOST && round <= 1; i++) {
        if (strcmp(word[1], parts[i].name) != 0) continue;
        parts[i].run(word[2], (unsigned)count, (unsigned)round);
        return fflush(stdout) != 0;
    }
    return 2;
}
