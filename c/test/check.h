/* What the programs that try the library share. Each runs in a folder of its own, and tells what is wrong by its status 1. */
#ifndef CHECK_H
#define CHECK_H

#include <errno.h>
#include <fcntl.h>
#include <stdbool.h>
#include <stdio.h>
#include <stdlib.h>
#include <string.h>
#include <sys/stat.h>
#include <sys/wait.h>
#include <unistd.h>

#include "ndbm.h"

static int bad, told;

#define CHECK(what) check((what), __FILE__, __LINE__, #what)
/* the call fails, and errno is this one */
#define FAILS(number, what) (errno = 0, check((what) && errno == (number), __FILE__, __LINE__, #what " with " #number))
/* the call succeeds, and errno isn't touched */
#define WORKS(what) (errno = 77, check((what) && errno == 77, __FILE__, __LINE__, #what))

static inline bool check(bool right, const char *file, int line, const char *what) {
    if (right) return true;
    printf("%s:%d: %s (errno %d, %s)\n", file, line, what, errno, strerror(errno));
    bad = 1;
    if (++told == 20) exit(1);
    return false;
}

static inline datum of(const char *text) {
    return (datum){(void *)text, strlen(text)};
}

static inline bool is(datum it, const char *text) {
    return it.dptr && it.dsize == strlen(text) && !memcmp(it.dptr, text, it.dsize);
}

/* Opens a database that has to open. */
static inline DBM *open_or_end(const char *file, int flags) {
    DBM *db = dbm_open(file, flags, 0644);
    if (db) return db;
    printf("%s isn't opened: %s\n", file, strerror(errno));
    exit(1);
}

/* A new database with one pair, closed. */
static inline void make(const char *file, const char *key, const char *content) {
    DBM *db = open_or_end(file, O_RDWR | O_CREAT | O_EXCL);
    CHECK(dbm_store(db, of(key), of(content), DBM_REPLACE) == 0);
    dbm_close(db);
}

static inline void write_file(const char *path, const void *bytes, size_t size, mode_t mode) {
    int fd = open(path, O_WRONLY | O_CREAT | O_TRUNC, mode);
    if (fd < 0 || write(fd, bytes, size) != (ssize_t)size || close(fd)) exit(2);
}

static inline off_t size_of(const char *path) {
    struct stat it;
    return stat(path, &it) ? -1 : it.st_size;
}

static inline int open_descriptors(void) {
    int count = 0;
    for (int fd = 0; fd < 256; fd++) count += fcntl(fd, F_GETFD) != -1;
    return count;
}

/* Runs a part in a child, for what can't be undone, and takes over whether something was wrong there. */
static inline void apart(void (*part)(void)) {
    fflush(stdout);
    pid_t child = fork();
    if (!child) {
        part();
        fflush(stdout);
        _exit(bad);
    }
    int status;
    if (child < 0 || waitpid(child, &status, 0) != child || status) bad = 1;
}

#endif
