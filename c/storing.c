/* Stores pairs: one alone, and a list of them in groups, each in one commit. */
#define _GNU_SOURCE
#include <errno.h>

#include "parts.h"

int ndbm_store_one(struct served *served, const dbmx_pair *pair, bool replace) {
    datum key = pair->key, content = pair->content;
    int32_t status;
    if (!is_datum(key) || !is_datum(content)) {
        errno = EINVAL;
        return -1;
    }
    if (!ndbm_served_begins(served, OF_PAIR, true)) return -1;
    do {
        status = ndbm_c_store(&served->handle, bytes_of(key), key.dsize, bytes_of(content), content.dsize, replace);
    } while (ndbm_served_again(served, status));
    status = ndbm_served_ends(served, status);
    return status < 0 ? -1 : status;
}

/* Stores the first of the pairs, in one commit, and adds how many to `done`. */
static int store_some(struct served *served, const dbmx_pair *pairs, size_t count, size_t *done) {
    size_t n = ndbm_group_size(pairs, count), stored = 0;
    if (n) {
        if (!ndbm_served_begins(served, OF_PAIR, true)) return -1;
        if (ndbm_served_ends(served, ndbm_group_store(served, pairs, n, &stored))) return -1;
    }
    *done += stored;
    if (stored) return 0;
    int status = ndbm_store_one(served, pairs, true);
    *done += !status;
    return status;
}

int ndbm_store_list(struct served *served, const dbmx_pair *pairs, size_t count, size_t *done) {
    int status = 0;
    *done = 0;
    while (!status && *done < count) status = store_some(served, pairs + *done, count - *done, done);
    return status ? -1 : 0;
}
