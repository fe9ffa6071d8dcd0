/* Reads the sectors that a call of the crate ndbm_c lacks from the file. */
#define _GNU_SOURCE
#include <errno.h>
#include <string.h>

#include "parts.h"

/* the sectors of a page */
enum { PAGE = 4 };

/* A miss reads a run of sectors. For the first misses of an export that is the page, and then the block of pages that has it,
 * since those of a content mostly lie side by side, in either order. An opening reads the first page alone, since a log is read whole. Behind more misses each reads twice as many sectors as the
 * one before it, up to the longest run. */
enum { FIRST_ALONE = 4, OPENING_ALONE = 1, BLOCK = 16 * PAGE, LONGEST = 1 << 18 };

/* Behind how many misses runs get longer than a block, and up to how many sectors that were given in the call. A content has up
 * to 33 pages, and a store reads those of the old content and as many free ones for the new one. To make a group again takes
 * longer than to read 32 MB that it may not need. */
static const struct {
    unsigned misses;
    uint32_t given;
} bounds[] = {
    [OF_PAIR] = {128, 1 << 16}, [OF_GROUP] = {8, 1 << 16}, [OF_FILE] = {8, UINT32_MAX}, [OF_OPENING] = {8, UINT32_MAX}};

/* Puts what is listed, and isn't in the file yet, over sectors that were read there. */
static void put_listed(struct handle *handle, uint32_t first, uint32_t count, unsigned char *bytes) {
    unsigned char content[SECTOR];
    uint32_t sector = 0;
    int32_t change;
    for (size_t i = 0; (change = ndbm_c_listed(handle, i, &sector, content)) > 0; i++) {
        if (change != WRITE || sector < first || sector - first >= count) continue;
        memcpy(bytes + (size_t)SECTOR * (sector - first), content, SECTOR);
    }
}

/* how many of the sectors from here on stand in pages that have bytes of the file */
static uint32_t sectors_of(ssize_t size) {
    const ssize_t page = PAGE * SECTOR;
    return (uint32_t)((size + page - 1) / page * PAGE);
}

/* Gives sectors from the first one of a page on, up to the page in which the file ends, and the least ones wherever it ends. Both
 * counts are of whole pages. It answers 0, or the system's number. */
static int give(struct served *it, uint32_t first, uint32_t count, uint32_t least) {
    unsigned char bytes[MOVED * SECTOR];
    for (uint32_t done = 0; done < count; done += MOVED) {
        uint32_t at = first + done, wanted = count - done < MOVED ? count - done : MOVED;
        ssize_t size = ndbm_bytes_read(it->fd, bytes, (size_t)SECTOR * wanted, (off_t)at * SECTOR);
        if (size < 0) return ndbm_system_number();
        uint32_t given = sectors_of(size);
        if (done + given < least) given = least - done < wanted ? least - done : wanted;
        it->given += given;
        put_listed(&it->handle, at, given, bytes);
        for (uint32_t i = 0; i < given; i++) {
            if (ndbm_c_give(&it->handle, at + i, bytes + (size_t)SECTOR * i)) return ENOMEM;
        }
        if (given < wanted) break;
    }
    return 0;
}

/* how many sectors the run of the latest miss has */
static uint32_t run_for(const struct served *it) {
    unsigned alone = it->reading == OF_OPENING ? OPENING_ALONE : FIRST_ALONE;
    uint32_t count = it->misses > alone ? BLOCK : PAGE;
    if (it->given > bounds[it->reading].given) return count;
    for (unsigned i = bounds[it->reading].misses; i < it->misses && count < LONGEST; i++) count *= 2;
    return count;
}

int ndbm_give_lacked(struct served *it, uint32_t sector) {
    it->misses++;
    uint32_t run = run_for(it), page = sector - sector % PAGE, first = run < BLOCK ? page : page - page % BLOCK;
    uint32_t left = ndbm_c_file_sectors() - first;
    return give(it, first, run < left ? run : left, page + PAGE - first);
}
