// A call of flock to preload: before the first one a file of the name that REPLACE_BY gives takes the place of the one that REPLACE names.
#define _GNU_SOURCE
#include <dlfcn.h>
#include <stdio.h>
#include <stdlib.h>

int flock(int fd, int operation) {
    static int (*next)(int, int);
    static int replaced;
    const char *by = getenv("REPLACE_BY"), *name = getenv("REPLACE");
    if (!next) next = (int (*)(int, int))dlsym(RTLD_NEXT, "flock");
    if (!replaced && by && name) {
        replaced = 1;
        if (rename(by, name)) abort();
    }
    return next(fd, operation);
}
