/* Random calls beside a plain map, on a file of version 1 that is made one of version 2 meanwhile. Compared are each answer,
 * errno, the fault that is kept, and the bytes that were given. */
#include "check.h"

enum { CALLS = 20000, UPGRADED = 7000, LIMIT = 900, KNOWN = 1 << 16, KEY_MOST = 60, LIST = 40, UNTOUCHED = 77 };

/* A pair that was stored once. It stays here when it is deleted, so that a key which comes twice in a pass is seen. */
struct pair {
    size_t key_size, content_size;
    unsigned char *key, *content;
    bool is_there, is_throughout, was_given;
};

/* what the library gave last by a pass or by a fetch, and a copy of it */
struct kept {
    datum it;
    unsigned char bytes[DBMX_CONTENT_MAX];
};

static DBM *db;
/* those that were ever stored, in order of their keys, and how many of them are there */
static struct pair *known[KNOWN];
static size_t known_count, there_count;
static struct kept kept_key, kept_content;
static bool is_reader, is_passing;
/* Whether RANDOM_BUILDS is 1: the file is built by one opening then, and the fault is asked for now and then alone, since that has the pairs
 * stored that wait. */
static bool builds;
static int fault, call_number, version = 1;
/* the seed */
static uint64_t state = 88172645463325252;

static uint32_t below(uint32_t count) {
    state ^= state << 13;
    state ^= state >> 7;
    state ^= state << 17;
    return (uint32_t)(state >> 32) % count;
}

/* Ends the program where something isn't as the map has it. */
static void demand(bool right, const char *what) {
    if (right) return;
    printf("call %d: %s (errno %d, fault %d, and not %d)\n", call_number, what, errno, db ? dbm_error(db) : 0, fault);
    exit(1);
}

static void *copy_of(const void *bytes, size_t size) {
    void *copy = malloc(size + 1);
    if (!copy) exit(2);
    return size ? memcpy(copy, bytes, size) : copy;
}

static int compared(const struct pair *it, datum key) {
    size_t least = it->key_size < key.dsize ? it->key_size : key.dsize;
    int order = least ? memcmp(it->key, key.dptr, least) : 0;
    return order ? order : (it->key_size > key.dsize) - (it->key_size < key.dsize);
}

/* the place of the first pair whose key isn't below this one */
static size_t place_of(datum key) {
    size_t from = 0, to = known_count;
    while (from < to) {
        size_t middle = from + (to - from) / 2;
        if (compared(known[middle], key) < 0) {
            from = middle + 1;
        } else {
            to = middle;
        }
    }
    return from;
}

/* the pair of a key that is there, or null */
static struct pair *found_of(datum key) {
    size_t at = place_of(key);
    return at < known_count && !compared(known[at], key) && known[at]->is_there ? known[at] : NULL;
}

static void put(datum key, datum content) {
    size_t at = place_of(key);
    if (at == known_count || compared(known[at], key)) {
        if (known_count == KNOWN) exit(2);
        memmove(known + at + 1, known + at, (known_count++ - at) * sizeof *known);
        known[at] = calloc(1, sizeof **known);
        if (!known[at]) exit(2);
        known[at]->key = copy_of(key.dptr, key.dsize);
        known[at]->key_size = key.dsize;
    }
    struct pair *it = known[at];
    unsigned char *was = it->content;
    it->content = copy_of(content.dptr, content.dsize);
    it->content_size = content.dsize;
    free(was);
    there_count += !it->is_there;
    it->is_there = true;
}

static void forget(struct kept *kept) {
    kept->it = (datum){NULL, 0};
}

static void keep(struct kept *kept, datum it) {
    kept->it = it;
    if (it.dptr) demand(it.dsize <= (version == 1 ? DBMX_PAIR_MAX : DBMX_CONTENT_MAX), "too many bytes are given");
    if (it.dptr) memcpy(kept->bytes, it.dptr, it.dsize);
}

static bool stands(const struct kept *kept) {
    return !kept->it.dptr || !memcmp(kept->bytes, kept->it.dptr, kept->it.dsize);
}

/* What holds behind each call. A number of 0 is that of a call that succeeds, and the fault is the call's own, or 0. */
static void ended(int number, int own, const char *what) {
    demand(errno == (number ? number : UNTOUCHED), what);
    if (!fault) fault = own;
    demand((builds && below(20)) || dbm_error(db) == fault, "another fault is told");
    demand(stands(&kept_key), "the bytes of a key have changed");
    demand(stands(&kept_content), "the bytes of a content have changed");
}

static datum drawn_bytes(unsigned char *bytes, size_t size) {
    static const unsigned char few[] = {0, 'a', 'b', 255};
    bool are_few = below(2);
    for (size_t i = 0; i < size; i++) bytes[i] = are_few ? few[below(4)] : (unsigned char)below(256);
    return (datum){size || below(2) ? bytes : NULL, size};
}

/* a key of the library's own bytes, one that was stored once, or a new one, which is short as often */
static datum drawn_key(unsigned char *bytes) {
    uint32_t kind = below(8);
    if (kind == 0 && kept_key.it.dptr) return kept_key.it;
    if (kind == 1 && kept_content.it.dptr) return kept_content.it;
    if (kind < 5 && known_count) {
        const struct pair *it = known[below((uint32_t)known_count)];
        return (datum){it->key, it->key_size};
    }
    return drawn_bytes(bytes, below(below(2) ? 5 : KEY_MOST + 1));
}

/* the most bytes of a content under a key of so many bytes, or none where no content is allowed */
static size_t most_under(size_t key_size) {
    if (version == 2 && key_size <= DBMX_KEY_MAX) return DBMX_CONTENT_MAX;
    return key_size <= DBMX_PAIR_MAX ? DBMX_PAIR_MAX - key_size : 0;
}

static bool is_allowed(datum key, datum content) {
    return key.dsize <= DBMX_PAIR_MAX && content.dsize <= most_under(key.dsize);
}

/* a content; now and then it is as long as it may be, and one byte longer */
static datum drawn_content(unsigned char *bytes, datum key) {
    size_t most = most_under(key.dsize), size = below(120);
    uint32_t kind = below(32);
    if (kind == 0 && kept_key.it.dptr) return kept_key.it;
    if (kind == 1 && kept_content.it.dptr) return kept_content.it;
    if (kind == 2) size = 0;
    if (kind == 3) size = most;
    if (kind == 4) size = most + 1;
    if (kind == 5) size = below((uint32_t)most + 1);
    return drawn_bytes(bytes, size);
}

/* The number of errno for a store, or 0, by the map; own gets its fault. The map has the pair then. */
static int store_in_map(datum key, datum content, bool replaces, int *answer, int *own) {
    const struct pair *it = found_of(key);
    *answer = -1;
    *own = is_reader ? 4 : is_allowed(key, content) ? 0 : 5;
    if (!*own && it && !replaces) {
        *answer = 1;
        return 0;
    }
    if (!*own && !it && there_count == LIMIT) *own = 6;
    if (*own) return *own == 4 ? EPERM : *own == 5 ? EINVAL : ENOSPC;
    put(key, content);
    *answer = 0;
    return 0;
}

static void store(void) {
    unsigned char key_bytes[KEY_MOST + 1];
    static unsigned char bytes[DBMX_CONTENT_MAX + 1];
    datum key = drawn_key(key_bytes), content = drawn_content(bytes, key);
    bool replaces = below(2);
    int answer, own, number = store_in_map(key, content, replaces, &answer, &own);
    errno = UNTOUCHED;
    demand(dbm_store(db, key, content, replaces ? DBM_REPLACE : DBM_INSERT) == answer, "a store's answer");
    ended(number, own, "errno of a store");
}

/* Fetches a key, and compares the content. The key may lie in the bytes of the last content. */
static void fetch(datum key) {
    const struct pair *it = found_of(key);
    forget(&kept_content);
    errno = UNTOUCHED;
    datum content = dbm_fetch(db, key);
    demand(!content.dptr == !it, "a fetch finds a key that isn't there, or none that is");
    demand(content.dsize == (it ? it->content_size : 0), "the size of a content");
    demand(!it || !memcmp(content.dptr, it->content, it->content_size), "a content");
    ended(0, 0, "errno of a fetch");
    keep(&kept_content, content);
}

static void fetch_any(void) {
    unsigned char bytes[KEY_MOST + 1];
    fetch(drawn_key(bytes));
}

static void delete_any(void) {
    unsigned char bytes[KEY_MOST + 1];
    datum key = drawn_key(bytes);
    struct pair *it = found_of(key);
    errno = UNTOUCHED;
    demand(dbm_delete(db, key) == (it && !is_reader ? 0 : -1), "a delete's answer");
    if (it && !is_reader) {
        it->is_there = it->is_throughout = false;
        there_count--;
    }
    ended(is_reader ? EPERM : it ? 0 : ENOENT, is_reader ? 4 : 0, "errno of a delete");
}

/* Compares what a pass gives: a key that is there and came not yet, or none, once all that were there throughout came. */
static void take(datum key) {
    forget(&kept_key);
    ended(0, 0, "errno of a pass");
    if (key.dptr) {
        struct pair *it = found_of(key);
        demand(it != NULL, "a pass gives a key that isn't there");
        demand(!it->was_given, "a pass gives a key twice");
        it->was_given = true;
    }
    for (size_t i = 0; !key.dptr && i < known_count; i++) {
        demand(!known[i]->is_throughout || known[i]->was_given, "a pass leaves out a key");
    }
    keep(&kept_key, key);
}

static void first(void) {
    for (size_t i = 0; i < known_count; i++) {
        known[i]->is_throughout = known[i]->is_there;
        known[i]->was_given = false;
    }
    is_passing = true;
    errno = UNTOUCHED;
    take(dbm_firstkey(db));
}

static void next(void) {
    errno = UNTOUCHED;
    datum key = dbm_nextkey(db);
    if (is_passing) {
        take(key);
        return;
    }
    demand(!key.dptr && !key.dsize, "a key comes with no pass begun");
    forget(&kept_key);
    ended(EINVAL, 7, "errno with no pass begun");
}

/* A pass without a change gives each key exactly once. */
static void whole_pass(void) {
    size_t keys = 0;
    for (first(); kept_key.it.dptr; next()) {
        keys++;
        fetch(kept_key.it);
    }
    demand(keys == there_count, "a pass without a change gives another number of keys");
    next();
    demand(!kept_key.it.dptr, "a key comes behind the last");
}

/* Stores a list. The map has those of it that come before the first one that is refused. */
static void store_list(void) {
    static unsigned char keys[LIST][KEY_MOST + 1], contents[LIST][DBMX_CONTENT_MAX + 1];
    dbmx_pair pairs[LIST];
    size_t count = below(LIST + 1), wanted = 0, stored = LIST + 1;
    int answer, own = 0, number = 0;
    for (size_t i = 0; i < count; i++) {
        pairs[i].key = drawn_key(keys[i]);
        pairs[i].content = drawn_content(contents[i], pairs[i].key);
        if (below(8) && !is_allowed(pairs[i].key, pairs[i].content)) pairs[i].content.dsize = 0;
    }
    for (; wanted < count; wanted++) {
        number = store_in_map(pairs[wanted].key, pairs[wanted].content, true, &answer, &own);
        if (number) break;
    }
    errno = UNTOUCHED;
    demand(dbmx_store_many(db, pairs, count, &stored) == (number ? -1 : 0), "the answer of a list");
    demand(stored == wanted, "how many of a list are stored");
    ended(number, own, "errno of a list");
}

static void open_again(void) {
    if (builds && db && call_number <= CALLS) return;
    if (db) {
        errno = UNTOUCHED;
        dbm_close(db);
        demand(errno == UNTOUCHED, "errno of a close");
    }
    dbmx_how how = {.limit = LIMIT, .options = DBMX_VERSION_1 | (builds ? DBMX_BUILD : 0)};
    is_reader = db && !below(3);
    is_passing = false;
    forget(&kept_key);
    forget(&kept_content);
    fault = 0;
    errno = UNTOUCHED;
    db = dbmx_open("t", is_reader ? O_RDONLY : O_RDWR | O_CREAT, 0644, &how, NULL);
    demand(db != NULL, "the file isn't opened");
    ended(0, 0, "errno of an opening");
    demand(dbm_rdonly(db) == is_reader, "whether it is opened for reading");
}

static void look(void) {
    dbmx_numbers numbers;
    errno = UNTOUCHED;
    demand(dbmx_stat(db, &numbers) == 0 && numbers.pairs == there_count && numbers.limit == LIMIT, "the numbers");
    ended(0, 0, "errno of the numbers");
    demand(dbmx_version(db) == version, "the version");
    ended(0, 0, "errno of the version");
    demand(dbmx_verify(db) == 0, "the structure of the file");
    ended(0, 0, "errno of a look at the structure");
}

static void sync_all(void) {
    errno = UNTOUCHED;
    demand(dbmx_sync(db) == 0, "a sync's answer");
    ended(0, 0, "errno of a sync");
}

static void clear(void) {
    errno = UNTOUCHED;
    demand(dbm_clearerr(db) == 0, "the answer of a clearing");
    fault = 0;
    ended(0, 0, "errno of a clearing");
}

static void upgrade(void) {
    errno = UNTOUCHED;
    demand(dbmx_upgrade(db) == (is_reader ? -1 : 0), "an upgrade's answer");
    if (!is_reader) version = 2;
    ended(is_reader ? EPERM : 0, is_reader ? 4 : 0, "errno of an upgrade");
}

/* The calls, and how often out of 1,000 each is made where none deletes. A reader is closed more often. */
static const struct {
    uint32_t times;
    void (*call)(void);
} calls[] = {{470, store},     {270, fetch_any}, {204, next}, {10, first},     {10, sync_all},
             {10, store_list}, {14, clear},      {3, look},   {3, whole_pass}, {6, open_again}};

static void call(void) {
    uint32_t kind = below(1000);
    size_t i = 0;
    /* By turns the map grows and shrinks. */
    if (below(1000) < (call_number / 2500 % 2 ? 700 : 80)) {
        delete_any();
        return;
    }
    if (is_reader && below(1000) < 30) {
        open_again();
        return;
    }
    if (call_number >= UPGRADED && below(1000) < (version == 1 ? 100 : 2)) {
        upgrade();
        return;
    }
    for (; kind >= calls[i].times; i++) kind -= calls[i].times;
    calls[i].call();
}

/* Syncs take no time on a memory file system, and nothing here depends on them. */
static char folder[] = "/dev/shm/random.XXXXXX";

static void leave(void) {
    unlink("t.db");
    rmdir(folder);
}

int main(void) {
    int before = open_descriptors();
    builds = getenv("RANDOM_BUILDS");
    if (mkdtemp(folder) && (chdir(folder) || atexit(leave))) exit(2);
    open_again();
    for (call_number = 1; call_number <= CALLS; call_number++) call();
    demand(version == 2, "no upgrade was made");
    whole_pass();
    look();
    open_again();
    whole_pass();
    dbm_close(db);
    db = NULL;
    CHECK(open_descriptors() == before);
    return bad;
}
