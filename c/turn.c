/* The turn number of a file of the second kind: 64 bits, the highest byte first, in the second sector. By it programs that have the file
 * open at once tell whether anybody has written since they looked.
 *
 *            before the first write of a period                 behind its last sync
 *     even  ------------------------------------>  odd, n + 1  ----------------------->  even, n + 2
 *                                                      |
 *                                                      |  the writer dies, or the system refuses it a write or a sync
 *                                                      v
 *                                             left odd, with no writer  ---->  odd, n + 3, by the next writer, before its first write
 *
 * A period is a call of a shared handle, or the life of one that isn't shared. Its writer has the lock alone. The number is never synced
 * for its own sake, and no opening goes by it: it is compared only with what the same system showed before. An odd number that nobody
 * has the lock of may stand over bytes that no sync came behind. */
#define _GNU_SOURCE
#include <errno.h>
#include <string.h>

#include "parts.h"

/* where the number stands, and its bytes */
enum { AT = SECTOR, SIZE = HEAD - AT };

struct head ndbm_turn_of(const unsigned char *bytes) {
    static const char first[] = "DBMREDO1", second[] = "DBMREDO2";
    struct head it = {NO_KIND, 0};
    if (!memcmp(bytes, first, sizeof first - 1)) it.kind = FIRST_KIND;
    if (!memcmp(bytes, second, sizeof second - 1)) it.kind = SECOND_KIND;
    for (unsigned i = 0; i < SIZE; i++) it.turn = it.turn << 8 | bytes[AT + i];
    return it;
}

int ndbm_turn_look(int fd, struct head *it) {
    unsigned char bytes[HEAD];
    if (ndbm_bytes_read(fd, bytes, sizeof bytes, 0) < 0) return -1;
    *it = ndbm_turn_of(bytes);
    return 0;
}

bool ndbm_turn_is_made(int fd, const struct how *how) {
    struct head head;
    if (!how->writable || how->truncate) return how->writable;
    return how->create && (how->exclusive || (!ndbm_turn_look(fd, &head) && head.kind == NO_KIND));
}

static int write_turn(int fd, uint64_t number) {
    unsigned char bytes[SIZE];
    for (unsigned i = SIZE; i > 0; number >>= 8) bytes[--i] = (unsigned char)number;
    return ndbm_bytes_write(fd, bytes, sizeof bytes, AT);
}

int ndbm_turn_begins(struct turn *it, int fd, bool makes_second_kind) {
    struct head head;
    if (it->is_odd) return 0;
    if (ndbm_turn_look(fd, &head)) return ndbm_system_number();
    if (head.kind != SECOND_KIND && !makes_second_kind) return 0;
    it->number = head.turn + (head.turn & 1 ? 2 : 1);
    int error = write_turn(fd, it->number);
    it->is_odd = !error;
    return error;
}

void ndbm_turn_ends(struct turn *it, int fd) {
    if (it->is_odd && !write_turn(fd, it->number + 1)) it->number++;
    it->is_odd = false;
}

void ndbm_turn_is_left(struct turn *it) {
    it->is_odd = false;
}
