// Makes calls of the C library by lines: line_calls FILE. A line is `S KEY CONTENT`, `D KEY` or `F KEY`, in hexadecimal digits, or `Y` for
// dbmx_sync. A reply is 0, a content, none, `-1 absent` or `-1 fault n`. The status is 2 where the file isn't opened, or isn't closed well.
// Each read of standard input has to give a line, or a part of one.
#include <errno.h>
#include <fcntl.h>
#include <stdio.h>
#include <stdlib.h>
#include <string.h>
#include <unistd.h>
#include "ndbm.h"

enum { LONGEST = 1 << 18 };

// A line without its end, or NULL.
static char *next_line(void) {
    static char line[LONGEST];
    size_t size = 0;
    ssize_t some = 1;
    while (size < sizeof line && some > 0 && (size == 0 || line[size - 1] != '\n')) {
        some = read(STDIN_FILENO, line + size, sizeof line - size);
        if (some > 0) size += (size_t)some;
    }
    if (size == 0 || line[size - 1] != '\n') return NULL;
    line[size - 1] = 0;
    return line;
}

static int digit(char it) { return it <= '9' ? it - '0' : it - 'a' + 10; }

// The bytes of a word, in its place.
static datum bytes_of(char *word) {
    size_t size = strlen(word) / 2;
    for (size_t at = 0; at < size; at++) word[at] = (char)(digit(word[2 * at]) << 4 | digit(word[2 * at + 1]));
    return (datum){word, size};
}

static void tell(const char *reply, size_t size) {
    if (write(STDOUT_FILENO, reply, size) != (ssize_t)size) exit(2);
}

static void tell_content(datum content) {
    static char reply[LONGEST];
    size_t size = content.dsize;
    if (!content.dptr) {
        tell("none\n", 5);
        return;
    }
    for (size_t at = 0; at < size; at++) snprintf(reply + 2 * at, 3, "%02x", ((unsigned char *)content.dptr)[at]);
    reply[2 * size] = '\n';
    tell(reply, 2 * size + 1);
}

// Makes the call of a line, and answers whether it failed.
static int call(DBM *db, char *line, datum *content) {
    dbm_clearerr(db);
    if (*line == 'Y') return dbmx_sync(db) < 0;
    char *key = line + 2, *rest = strchr(key, ' ');
    if (rest) *rest++ = 0;
    if (*line == 'S') return dbm_store(db, bytes_of(key), bytes_of(rest), DBM_REPLACE) < 0;
    if (*line == 'D') return dbm_delete(db, bytes_of(key)) < 0;
    *content = dbm_fetch(db, bytes_of(key));
    return !content->dptr && dbm_error(db);
}

static void answer(DBM *db, char *line) {
    char reply[40];
    datum content = {NULL, 0};
    if (call(db, line, &content)) {
        int size = snprintf(reply, sizeof reply, dbm_error(db) ? "-1 fault %d\n" : "-1 absent\n", dbm_error(db));
        tell(reply, (size_t)size);
    } else if (*line == 'F') {
        tell_content(content);
    } else {
        tell("0\n", 2);
    }
}

int main(int words, char **word) {
    DBM *db = words == 2 ? dbm_open(word[1], O_RDWR, 0) : NULL;
    char *line;
    if (!db) return 2;
    while ((line = next_line())) answer(db, line);
    errno = 0;
    dbm_close(db);
    return errno ? 2 : 0;
}
