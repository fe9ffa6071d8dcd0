// Calls of the system to preload. Each fsync and each fdatasync is appended to the file that SYNCS_LOG names, as a line: `fsync` or `fdatasync`,
// `folder` or `file`, and the number of its inode. With SYNCS_MADE=no it is answered without being made, which is faster; a fsync of a folder fails
// with EIO where SYNCS_FAILS=folder says so.
#define _GNU_SOURCE
#include <dlfcn.h>
#include <errno.h>
#include <stdio.h>
#include <stdlib.h>
#include <string.h>
#include <sys/stat.h>

static int is_set(const char *name, const char *word) {
    const char *value = getenv(name);
    return value && !strcmp(value, word);
}

static int synced(const char *call, int file) {
    struct stat now;
    const char *name = getenv("SYNCS_LOG");
    if (fstat(file, &now) < 0) abort();
    if (name) {
        FILE *log = fopen(name, "a");
        if (!log) abort();
        fprintf(log, "%s %s %llu\n", call, S_ISDIR(now.st_mode) ? "folder" : "file", (unsigned long long)now.st_ino);
        fclose(log);
    }
    if (S_ISDIR(now.st_mode) && is_set("SYNCS_FAILS", "folder")) {
        errno = EIO;
        return -1;
    }
    if (is_set("SYNCS_MADE", "no")) return 0;
    int (*next)(int) = dlsym(RTLD_NEXT, call);
    return next(file);
}

int fsync(int file) { return synced("fsync", file); }

int fdatasync(int file) { return synced("fdatasync", file); }
