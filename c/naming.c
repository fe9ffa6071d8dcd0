/* The names of the files of a database: FILE.db, or FILE.pag beside FILE.dir, which is an empty file that programs lock. */
#define _GNU_SOURCE
#include <errno.h>
#include <fcntl.h>
#include <stdlib.h>
#include <string.h>

#include "parts.h"

char *ndbm_naming_joined(const char *text, const char *behind) {
    size_t length = strlen(text), more = strlen(behind);
    char *joined = malloc(length + more + 1);
    if (!joined) return NULL;
    memcpy(joined, text, length);
    memcpy(joined + length, behind, more + 1);
    return joined;
}

char *ndbm_naming_path(const char *file) {
    return ndbm_naming_joined(file, ndbm_environment_has_two_names() ? ".pag" : DBM_SUFFIX);
}

/* whether there is none, and none was to be made */
static bool is_missing(int flags) {
    return errno == ENOENT && !(ndbm_file_is_written(flags) && (flags & O_CREAT));
}

int ndbm_naming_open_dir(const char *file, int flags, mode_t mode, int *dir) {
    int before = errno;
    *dir = -1;
    if (!ndbm_environment_has_two_names()) return 0;
    char *path = ndbm_naming_joined(file, ".dir");
    if (!path) return -1;
    *dir = ndbm_file_open_empty(path, flags, mode);
    bool is_good = *dir >= 0 || is_missing(flags);
    int error = is_good ? before : errno;
    free(path);
    errno = error;
    return is_good ? 0 : -1;
}
