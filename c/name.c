/* The name under which a shared handle finds its file: another file may get it, as by `dbmtool load --replace`. */
#define _GNU_SOURCE
#include <errno.h>
#include <fcntl.h>
#include <stdlib.h>
#include <string.h>
#include <unistd.h>

#include "parts.h"

static bool is_same_time(struct timespec a, struct timespec b) {
    return a.tv_sec == b.tv_sec && a.tv_nsec == b.tv_nsec;
}

/* The folder is kept open, so that the name is found also behind chdir and chroot. */
int ndbm_name_begins(struct name *it, const char *path, const struct stat *file) {
    const char *slash = strrchr(path, '/');
    it->folder = ndbm_file_open_folder(path, O_PATH);
    if (it->folder < 0) return -1;
    it->text = strdup(slash ? slash + 1 : path);
    ndbm_name_notes(it, file);
    return it->text ? 0 : ndbm_give_up(it->folder);
}

void ndbm_name_ends(struct name *it) {
    close(it->folder);
    free(it->text);
}

bool ndbm_name_is_of(const struct name *it, const struct stat *file) {
    return it->device == file->st_dev && it->number == file->st_ino;
}

bool ndbm_name_is_unwritten(const struct name *it, const struct stat *file) {
    return it->size == file->st_size && is_same_time(it->written, file->st_mtim) && is_same_time(it->changed, file->st_ctim);
}

void ndbm_name_notes(struct name *it, const struct stat *file) {
    it->device = file->st_dev;
    it->number = file->st_ino;
    it->written = file->st_mtim;
    it->changed = file->st_ctim;
    it->size = file->st_size;
}
