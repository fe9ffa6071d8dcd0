/* Stores of a database that is built share commits.
 *
 * A database that an opening has made or emptied may be built: its pairs are kept in memory, and each commit stores many of them.
 *
 *                    a pair is kept             the group is full; another call asks for what is there; dbm_close
 *     nothing kept  ---------------->  kept  ------------------------------------------------------------------->  nothing kept
 *                                                                        |
 *                                                                        | the commit is refused
 *                                                                        v
 *                                                      the handle is dead: nothing is stored behind a pair that is lost
 *
 * Pairs are stored in the order in which they were given. A pair that may be refused for its own sake isn't kept but stored by itself, so
 * its own call tells that. */
#define _GNU_SOURCE
#include <errno.h>
#include <search.h>
#include <stdlib.h>
#include <string.h>

#include "parts.h"

/* The pairs that are kept, in a room of which the system has to have memory for what was written alone. */
struct kept {
    struct extent extent;
    /* how many pairs may be kept up to the next commit, so that the database isn't full by them */
    size_t most;
    /* the keys of the first pairs, so many of them */
    void *keys;
    size_t known;
    /* how many bytes the pairs have together */
    size_t used;
    dbmx_pair pairs[GROUP_PAIRS];
    unsigned char bytes[GROUP_BYTES];
    /* where a content is read whose key alone is asked for */
    unsigned char content[CONTENT_ROOM];
};

void ndbm_building_begins(struct building *it, const struct how *how) {
    *it = (struct building){.is_under_way = true, .is_first_version = how->first_version, .kept = NULL};
}

static void keep_key(void *key) {
    (void)key;
}

/* The pairs that are kept are so no more. errno stays. */
static void forget(struct kept *kept) {
    int before = errno;
    if (kept->keys) tdestroy(kept->keys, keep_key);
    kept->keys = NULL;
    kept->known = kept->used = kept->most = 0;
    kept->extent = (struct extent){0, 0};
    errno = before;
}

void ndbm_building_ends(struct building *it) {
    int before = errno;
    if (it->kept) forget(it->kept);
    free(it->kept);
    *it = (struct building){.is_under_way = false, .kept = NULL};
    errno = before;
}

int ndbm_building_commits(struct building *it, struct served *served) {
    struct kept *kept = it->kept;
    size_t done;
    if (!kept || !kept->extent.count) return 0;
    int status = ndbm_store_list(served, kept->pairs, kept->extent.count, &done);
    forget(kept);
    if (status) ndbm_served_dies(served);
    return status;
}

/* how many pairs there may be more: 0, or -1 with errno */
static int ask_for_room(struct served *served, size_t *most) {
    dbmx_numbers numbers = {0};
    int32_t status;
    if (!ndbm_served_begins(served, OF_FILE, false)) return -1;
    do {
        status = ndbm_c_stat(&served->handle, &numbers);
    } while (ndbm_served_again(served, status));
    *most = numbers.limit - numbers.pairs;
    return ndbm_served_ends(served, status) ? -1 : 0;
}

/* Whether pairs may be kept: there is memory for them, and the database isn't full. */
static bool begins_group(struct building *it, struct served *served) {
    int before = errno;
    if (!it->kept) {
        it->kept = malloc(sizeof *it->kept);
        errno = before;
        if (!it->kept) return false;
        it->kept->keys = NULL;
        forget(it->kept);
    }
    if (it->kept->extent.count) return true;
    if (ask_for_room(served, &it->kept->most)) it->kept->most = 0;
    errno = before;
    return it->kept->most;
}

/* whether one is put with those that are kept */
static bool is_taken(struct kept *kept, const dbmx_pair *pair) {
    return kept->extent.count < kept->most && ndbm_group_takes(&kept->extent, pair);
}

static datum copy_of(struct kept *kept, datum it) {
    unsigned char *bytes = kept->bytes + kept->used;
    memcpy(bytes, bytes_of(it), it.dsize);
    kept->used += it.dsize;
    return (datum){bytes, it.dsize};
}

/* Keeps one that was taken. The bytes of a group aren't more than its size. */
static void keep(struct kept *kept, const dbmx_pair *pair) {
    dbmx_pair *last = &kept->pairs[kept->extent.count - 1];
    last->key = copy_of(kept, pair->key);
    last->content = copy_of(kept, pair->content);
}

static int by_bytes(const void *one, const void *another) {
    const datum *a = one, *b = another;
    if (a->dsize != b->dsize) return a->dsize < b->dsize ? -1 : 1;
    return a->dsize ? memcmp(a->dptr, b->dptr, a->dsize) : 0;
}

/* Has all keys that are kept in the tree of them, and answers whether there was memory for it. */
static bool know_keys(struct kept *kept) {
    int before = errno;
    while (kept->known < kept->extent.count) {
        if (!tsearch(&kept->pairs[kept->known].key, &kept->keys, by_bytes)) break;
        kept->known++;
    }
    errno = before;
    return kept->known == kept->extent.count;
}

/* Whether the key has a content, in the database or among those that are kept: 0 or 1, or -1 with errno. */
static int has_key(struct building *it, struct served *served, datum key) {
    struct kept *kept = it->kept;
    size_t length = 0;
    if (!know_keys(kept) && ndbm_building_commits(it, served)) return -1;
    if (tfind(&key, &kept->keys, by_bytes)) return 1;
    if (!ndbm_served_begins(served, OF_PAIR, false)) return -1;
    int32_t status = ndbm_served_ends(served, ndbm_served_fetch(served, key, kept->content, &length));
    return status < 0 ? -1 : !status;
}

/* Whether a pair may wait for the commit of others: it isn't refused for its size, and the handle isn't dead. */
static bool may_wait(const struct building *it, const struct served *served, const dbmx_pair *pair) {
    struct extent none = {0, 0};
    if (served->is_dead || !ndbm_group_takes(&none, pair)) return false;
    return !it->is_first_version || ndbm_group_is_near(pair);
}

/* Stores a pair by itself, behind those that are kept. */
static int store_by_itself(struct building *it, struct served *served, const dbmx_pair *pair, bool replace) {
    return ndbm_building_commits(it, served) ? -1 : ndbm_store_one(served, pair, replace);
}

int ndbm_building_store(struct building *it, struct served *served, const dbmx_pair *pair, bool replace) {
    if (!may_wait(it, served, pair) || !begins_group(it, served)) return store_by_itself(it, served, pair, replace);
    int status = replace ? 0 : has_key(it, served, pair->key);
    if (status) return status;
    if (!is_taken(it->kept, pair)) {
        if (ndbm_building_commits(it, served)) return -1;
        if (!begins_group(it, served) || !is_taken(it->kept, pair)) return ndbm_store_one(served, pair, replace);
    }
    keep(it->kept, pair);
    return 0;
}
