/* A build whose first request for memory is refused, then its second one, and so on, up to the first time that it needs no more. A pair that
 * is refused is so by its own call. Where a commit is refused, all calls behind it are, and the file has the first of the pairs. */
#include "refusing.h"

#include "builds.h"

enum { PAIRS = 60, MOST = 4000 };

/* which pairs were answered as stored, in order */
static uint32_t answered[2 * PAIRS];
static uint32_t count;

static void store_pairs(DBM *db, uint32_t from) {
    for (uint32_t i = from; i < from + PAIRS; i++) {
        int status;
        errno = 77;
        status = put_filled(db, i, i % 9 == 4 ? 3000 : 30, 'a', i % 2 ? DBM_INSERT : DBM_REPLACE);
        if (status == 0 && CHECK(errno == 77)) answered[count++] = i;
        CHECK(status == 0 || errno == ENOMEM || errno == EIO);
    }
}

/* The file has the first of the pairs that were answered: how many. */
static uint32_t first_of(const char *file) {
    DBM *db = open_or_end(file, O_RDONLY);
    uint32_t pairs = pairs_of(db);
    CHECK(dbmx_verify(db) == 0 && pairs <= count);
    for (uint32_t i = 0; i < pairs; i++) CHECK(is_filled(db, answered[i], answered[i] % 9 == 4 ? 3000 : 30, 'a'));
    dbm_close(db);
    return pairs;
}

/* Builds with the request of this number refused: whether there was one. */
static bool is_built_without(long number) {
    unlink("t.db");
    DBM *db = build_or_end("t", O_RDWR | O_CREAT | O_EXCL);
    count = 0;
    refuse(number);
    store_pairs(db, 0);
    int status = dbmx_sync(db), error = errno;
    bool is_met = was_refused;
    refuse(0);
    if (status) {
        CHECK((error == ENOMEM || error == EIO) && (dbm_error(db) == 1 || dbm_error(db) == 2));
        FAILS(EIO, put_filled(db, PAIRS, 1, 'a', DBM_REPLACE) == -1);
        FAILS(EIO, put_filled(db, PAIRS, 1, 'a', DBM_INSERT) == -1);
        FAILS(EIO, dbm_fetch(db, of("none")).dptr == NULL);
        FAILS(EIO, (dbm_close(db), true));
        first_of("t");
        return is_met;
    }
    store_pairs(db, PAIRS);
    WORKS((dbm_close(db), true));
    CHECK(first_of("t") == count && count >= 2 * PAIRS - 1);
    return is_met;
}

int main(void) {
    long number = 1;
    while (number < MOST && is_built_without(number)) number++;
    CHECK(number > 20 && number < MOST);
    return bad;
}
