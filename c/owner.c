/* Tells whose an open database is: that of the process which opened it, and no child's. */
#define _GNU_SOURCE
#include <errno.h>
#include <sys/mman.h>
#include <unistd.h>

#include "parts.h"

/* MADV_WIPEONFORK clears whole pages; the system rounds this up to one. */
enum { MARK = 1 };

/* a byte that is 1, and that a child which fork made finds to be 0; null where the system has none */
static const volatile unsigned char *made_mark(void) {
    unsigned char *mark = mmap(NULL, MARK, PROT_READ | PROT_WRITE, MAP_PRIVATE | MAP_ANONYMOUS, -1, 0);
    if (mark == MAP_FAILED) return NULL;
    if (madvise(mark, MARK, MADV_WIPEONFORK)) {
        munmap(mark, MARK);
        return NULL;
    }
    *mark = 1;
    return mark;
}

void ndbm_owner_begins(struct owner *it) {
    int before = errno;
    *it = (struct owner){getpid(), made_mark()};
    errno = before;
}

bool ndbm_owner_is_here(const struct owner *it) {
    return it->mark ? *it->mark : it->process == getpid();
}

void ndbm_owner_ends(struct owner *it) {
    if (it->mark) munmap((void *)it->mark, MARK);
}
