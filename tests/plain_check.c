#include "plain_check.h"
#include <stdint.h>
#include <stdlib.h>
#include <string.h>

enum { PAGE = 2048, CAPACITY = 273001992 / 4, META = 1, SEGMENT = 2, HEAD = 3, OVERFLOW = 4, FREE = 5, CONTENT = 6 };
enum { FAR = 0x8000, MOST_NEAR = 2026, MOST_FAR_KEY = 1023, PART = PAGE - 16 };
enum { SECTOR = 512, SLOT = 64 * SECTOR, LOG_PAGES = 32, MOST_LOGGED = 15 };
enum { CLEAR = 0, ARMED = 1, LOGGING = 2 };

typedef struct { const unsigned char *bytes; size_t size; } Key;

// The file as an opening finds it, and which of its pages were met.
typedef struct {
    unsigned char *pages;
    uint32_t end, version, buckets, level, split;
    unsigned char *met;
    Key *keys;
    size_t key_count;
} File;

static uint32_t two(const unsigned char *at) { return at[0] << 8 | at[1]; }
static uint32_t four(const unsigned char *at) { return (uint32_t)at[0] << 24 | at[1] << 16 | at[2] << 8 | at[3]; }

static int are_zero(const unsigned char *page, size_t from, size_t to) {
    for (size_t at = from; at < to; at++) if (page[at]) return 0;
    return 1;
}

// Page n, the first time that it is asked for, if it is of this kind and has this number.
static const unsigned char *page_of(File *file, uint32_t n, int kind) {
    if (n < 1 || n >= file->end || file->met[n]) return NULL;
    file->met[n] = 1;
    const unsigned char *page = file->pages + (size_t)n * PAGE;
    int has_pairs = kind == HEAD || kind == OVERFLOW;
    if (four(page) != n || page[4] != kind || page[5] || page[14] || page[15]) return NULL;
    if (!has_pairs && (two(page + 6) || two(page + 12))) return NULL;
    if ((kind == META || kind == SEGMENT) && four(page + 8)) return NULL;
    return page;
}

static uint32_t bucket_of(const File *file, Key key) {
    uint32_t hash = 2166136261u;
    for (size_t i = 0; i < key.size; i++) hash = (hash ^ key.bytes[i]) * 16777619u;
    uint32_t low = hash % (1u << file->level);
    return low < file->split ? hash % (1u << (file->level + 1)) : low;
}

// Whether a content of so many bytes stands on pages from this one on, of which each names the next, with zeros behind it.
static int is_good_content(File *file, uint32_t n, size_t size) {
    for (size_t at = 0; at < size; at += PART) {
        const unsigned char *page = page_of(file, n, CONTENT);
        if (!page || (size - at < PART && !are_zero(page, 16 + size - at, PAGE))) return 0;
        n = four(page + 8);
    }
    return n == 0;
}

// Whether the slots and records are spelled as they should be, and each key is of the bucket. The keys are kept.
static int has_good_pairs(File *file, const unsigned char *page, uint32_t bucket) {
    size_t count = two(page + 6), end = PAGE;
    if (16 + 6 * count > PAGE) return 0;
    for (size_t i = 0; i < count; i++) {
        const unsigned char *slot = page + 16 + 6 * i;
        size_t offset = two(slot), key_size = two(slot + 2), content_size = two(slot + 4);
        int is_far = file->version == 2 && key_size >= FAR;
        if (is_far) key_size -= FAR;
        if (offset + key_size + (is_far ? 4 : content_size) != end || offset < 16 + 6 * count) return 0;
        if (is_far && (key_size > MOST_FAR_KEY || key_size + content_size <= MOST_NEAR)) return 0;
        if (is_far && !is_good_content(file, four(page + offset + key_size), content_size)) return 0;
        Key key = {page + offset, key_size};
        if (bucket_of(file, key) != bucket) return 0;
        file->keys[file->key_count++] = key;
        end = offset;
    }
    return two(page + 12) == end && are_zero(page, 16 + 6 * count, end);
}

static int is_good_chain(File *file, uint32_t head, uint32_t bucket) {
    const unsigned char *page = page_of(file, head, HEAD);
    while (page && has_good_pairs(file, page, bucket)) {
        uint32_t next = four(page + 8);
        if (next == 0) return 1;
        page = page_of(file, next, OVERFLOW);
        if (page && two(page + 6) == 0) return 0;
    }
    return 0;
}

static int by_bytes(const void *one, const void *other) {
    const Key *a = one, *b = other;
    size_t shorter = a->size < b->size ? a->size : b->size;
    int order = memcmp(a->bytes, b->bytes, shorter);
    return order ? order : (a->size > b->size) - (a->size < b->size);
}

static int has_a_key_twice(File *file) {
    qsort(file->keys, file->key_count, sizeof(Key), by_bytes);
    for (size_t i = 1; i < file->key_count; i++) if (!by_bytes(file->keys + i - 1, file->keys + i)) return 1;
    return 0;
}

static uint32_t parts(uint32_t all, uint32_t each) { return (all + each - 1) / each; }

static int is_good(File *file) {
    const unsigned char *meta = page_of(file, 1, META);
    if (!meta || !are_zero(meta, 48, 64)) return 0;
    file->version = four(meta + 16);
    if (file->version != 1 && file->version != 2) return 0;
    uint32_t limit = four(meta + 20), pairs = four(meta + 24), segments = four(meta + 44), free = four(meta + 36), count = four(meta + 40);
    file->level = four(meta + 28);
    file->split = four(meta + 32);
    if (limit < 1 || limit > 1000000 || file->level > 16 || file->split >= 1u << file->level) return 0;
    file->buckets = (1u << file->level) + file->split;
    if (file->buckets > parts(limit, 8) || pairs > limit || pairs > 8 * file->buckets) return 0;
    if (segments != parts(file->buckets, 508) || !are_zero(meta, 64 + 4 * segments, PAGE)) return 0;
    if (file->end > 2 + parts(parts(limit, 8), 508) + parts(limit, 8) + (file->version == 1 ? 1 : 34) * limit) return 0;
    for (uint32_t s = 0; s < segments; s++) {
        const unsigned char *segment = page_of(file, four(meta + 64 + 4 * s), SEGMENT);
        if (!segment) return 0;
        for (uint32_t i = 0; i < 508; i++) {
            uint32_t bucket = 508 * s + i, head = four(segment + 16 + 4 * i);
            if (bucket < file->buckets ? !is_good_chain(file, head, bucket) : head != 0) return 0;
        }
    }
    if (file->key_count != pairs || has_a_key_twice(file)) return 0;
    for (; count > 0; count--) {
        const unsigned char *page = page_of(file, free, FREE);
        if (!page || !are_zero(page, 16, PAGE)) return 0;
        free = four(page + 8);
    }
    if (free != 0) return 0;
    for (uint32_t n = 1; n < file->end; n++) if (!file->met[n]) return 0;
    return 1;
}

// So many of the bytes, with zeros behind their end.
static void copy_part(unsigned char *into, const unsigned char *bytes, size_t size, size_t from, size_t wanted) {
    size_t there = from >= size ? 0 : size - from < wanted ? size - from : wanted;
    memset(into, 0, wanted);
    if (there > 0) memcpy(into, bytes + from, there);
}

static void copy_page(unsigned char *into, const unsigned char *bytes, size_t size, uint32_t n) {
    copy_part(into, bytes, size, (size_t)n * PAGE, PAGE);
}

// The commit that a slot of a log says, of which the number is 0 where it says none.
typedef struct { uint32_t number, count, end; unsigned char pages[MOST_LOGGED * PAGE]; } Commit;

static int is_whole(Commit *commit, const unsigned char *slot, uint32_t start) {
    commit->number = four(slot), commit->count = four(slot + 4), commit->end = four(slot + 8);
    if (commit->number < 1 || commit->count < 1 || commit->count > MOST_LOGGED || commit->end < 4 || commit->end > start) return 0;
    for (uint32_t k = 0; k < 4 * commit->count; k++) {
        const unsigned char *sector = slot + SECTOR * (1 + k);
        if (four(sector) != commit->number) return 0;
        memcpy(commit->pages + SECTOR * k, sector, SECTOR);
        memcpy(commit->pages + SECTOR * k, slot + 16 + 4 * k, 4);
    }
    return 1;
}

static int is_in_order(const Commit *commit) {
    uint32_t least = 1;
    for (uint32_t i = 0; i < commit->count; i++) {
        uint32_t own = four(commit->pages + PAGE * i);
        if (own < least || own >= commit->end) return 0;
        least = own + 1;
    }
    return 1;
}

// Whether a slot says a commit or none; a whole one whose pages are out of order says neither.
static int is_slot(Commit *commit, const unsigned char *bytes, size_t size, uint32_t start, int which) {
    unsigned char slot[SLOT];
    copy_part(slot, bytes, size, (size_t)start * PAGE + (size_t)which * SLOT, SLOT);
    if (is_whole(commit, slot, start)) return is_in_order(commit);
    memset(commit, 0, sizeof *commit);
    return 1;
}

// The pages of the file in their own places.
static int has_pages(File *file, const unsigned char *bytes, size_t size) {
    if (file->end > size / PAGE + 2) return 0; // a page of zeros is none
    file->pages = calloc(file->end, PAGE);
    for (uint32_t n = 1; n < file->end; n++) copy_page(file->pages + (size_t)n * PAGE, bytes, size, n);
    return 1;
}

static void put_page(File *file, const unsigned char *page) {
    if (four(page) < file->end) memcpy(file->pages + (size_t)four(page) * PAGE, page, PAGE);
}

// The pages of the file, with those of a log over them: of the older commit, and then of the newer one.
static int is_logged(File *file, const unsigned char *bytes, size_t size, uint32_t start) {
    Commit slots[2];
    for (int which = 0; which < 2; which++)
        if (!is_slot(&slots[which], bytes, size, start, which)) return 0;
    int newer = slots[0].number > slots[1].number ? 0 : 1;
    file->end = slots[newer].end;
    if (slots[newer].number == 0 || !has_pages(file, bytes, size)) return 0;
    const Commit *in_order[2] = {&slots[1 - newer], &slots[newer]};
    for (int at = 0; at < 2; at++)
        for (uint32_t i = 0; i < in_order[at]->count; i++) put_page(file, in_order[at]->pages + PAGE * i);
    return 1;
}

// The pages of the file, with so many redo images in their places.
static int is_redone(File *file, const unsigned char *bytes, size_t size, uint32_t start, uint32_t count) {
    unsigned char image[PAGE];
    uint32_t least = 1;
    if (!has_pages(file, bytes, size)) return 0;
    for (uint32_t i = 0; i < count; i++) {
        copy_page(image, bytes, size, start + i);
        uint32_t own = four(image);
        if (own < least || own >= file->end) return 0;
        put_page(file, image);
        least = own + 1;
    }
    return 1;
}

// The pages of the file, with those of the last commits in their places.
static int is_settled(File *file, const unsigned char *bytes, size_t size) {
    unsigned char first[SECTOR];
    copy_part(first, bytes, size, 0, SECTOR);
    int may_log = !memcmp(first, "DBMREDO2", 8);
    uint32_t state = four(first + 8), start = four(first + 16), count = four(first + 20);
    file->end = four(first + 12);
    if ((!may_log && memcmp(first, "DBMREDO1", 8)) || file->end < 4 || file->end > CAPACITY || !are_zero(first, 24, SECTOR)) return 0;
    if (state == CLEAR) return start == 0 && count == 0 && has_pages(file, bytes, size);
    if (start < file->end) return 0;
    if (state == ARMED) return count >= 1 && (uint64_t)start + count <= CAPACITY && is_redone(file, bytes, size, start, count);
    if (state != LOGGING || !may_log || count != 0 || (uint64_t)start + LOG_PAGES > CAPACITY) return 0;
    return is_logged(file, bytes, size, start);
}

long plain_pairs(const unsigned char *bytes, size_t size) {
    File file = {0};
    long pairs = -1;
    if (is_settled(&file, bytes, size)) {
        file.met = calloc(file.end, 1);
        file.keys = calloc((size_t)file.end * 339, sizeof(Key));
        if (is_good(&file)) pairs = (long)file.key_count;
    }
    free(file.pages);
    free(file.met);
    free(file.keys);
    return pairs;
}
