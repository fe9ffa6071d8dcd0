/* The same as forks.c, on a system that can't clear a page for the children of a program, as Linux before 4.14. */
#include <errno.h>
#include <sys/mman.h>

int madvise(void *at, size_t size, int advice) {
    (void)at, (void)size, (void)advice;
    errno = EINVAL;
    return -1;
}

#include "forks.c"
