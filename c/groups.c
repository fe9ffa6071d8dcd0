/* Stores pairs in groups, each in one commit. */
#define _GNU_SOURCE
#include <stdlib.h>

#include "parts.h"

enum { FAR_SHARE = 4 };

/* how many pairs of a group may wait for their places where others share the file */
enum { WAITING = 64 };

static bool is_near(size_t key, size_t content) {
    return key <= DBMX_PAIR_MAX && content <= DBMX_PAIR_MAX - key;
}

/* Whether a database of version 2 may have a pair of such sizes. Where one of version 1 may not, the crate ends a group there. */
static bool is_allowed(size_t key, size_t content) {
    return is_near(key, content) || (key <= DBMX_KEY_MAX && content <= DBMX_CONTENT_MAX);
}

/* How much of a group a pair takes. A content with pages of its own takes free pages, each of which the group may lack. */
static size_t share_of(size_t key, size_t content) {
    return is_near(key, content) ? key + content : FAR_SHARE * (key + content);
}

bool ndbm_group_is_near(const dbmx_pair *pair) {
    return is_near(pair->key.dsize, pair->content.dsize);
}

/* One that is too long to be stored isn't taken. */
bool ndbm_group_takes(struct extent *it, const dbmx_pair *pair) {
    datum key = pair->key, content = pair->content;
    if (it->count == GROUP_PAIRS || !is_datum(key) || !is_datum(content)) return false;
    if (!is_allowed(key.dsize, content.dsize)) return false;
    size_t share = share_of(key.dsize, content.dsize);
    if (share > GROUP_BYTES - it->size) return false;
    it->count++;
    it->size += share;
    return true;
}

size_t ndbm_group_size(const dbmx_pair *pairs, size_t count) {
    struct extent it = {0, 0};
    while (it.count < count && ndbm_group_takes(&it, &pairs[it.count])) continue;
    return it.count;
}

/* Looks keys up, so that the device is given the pages where they and their contents are, up to the content that makes them more
 * than GROUP_BYTES together. It answers 0, and in `count` how many were looked up, or a status where there is no memory for a
 * content or the system refused to read a page. */
static int32_t look_up(struct served *served, const dbmx_pair *pairs, size_t *count) {
    unsigned char *content = malloc(CONTENT_ROOM);
    size_t n = 0, size = 0;
    int32_t status = 0;
    if (!content) return -MEMORY;
    for (; n < *count && size <= GROUP_BYTES && !served->system; n++) {
        size_t length = 0;
        status = ndbm_served_fetch(served, pairs[n].key, content, &length);
        if (status < 0 && !served->system) ndbm_served_forgets(served);
        size += length;
    }
    free(content);
    *count = n;
    return served->system ? status : 0;
}

/* Keeps the pairs, up to the first that there is no memory for, and stores them in one commit. */
static int32_t store_kept(struct served *served, const dbmx_pair *pairs, size_t count, size_t *stored) {
    size_t n = 0;
    for (; n < count; n++) {
        datum key = pairs[n].key, content = pairs[n].content;
        if (ndbm_c_add(&served->handle, bytes_of(key), key.dsize, bytes_of(content), content.dsize)) break;
    }
    *stored = 0;
    return ndbm_c_store_added(&served->handle, stored);
}

/* Puts the pages of a large group in their places where others share the file, since each opening else reads all that wait. */
static int32_t settle(struct served *served, int32_t status, size_t stored) {
    if (status || !served->shared || stored <= WAITING) return status;
    do {
        status = ndbm_c_sync(&served->handle);
    } while (ndbm_served_again(served, status));
    return status;
}

int32_t ndbm_group_store(struct served *served, const dbmx_pair *pairs, size_t count, size_t *stored) {
    int32_t status = look_up(served, pairs, &count);
    if (status) return status;
    served->reading = OF_GROUP;
    do {
        status = store_kept(served, pairs, count, stored);
    } while (ndbm_served_again(served, status));
    return settle(served, status, *stored);
}
