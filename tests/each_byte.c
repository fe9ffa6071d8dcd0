// Runs a program on copies of a file in which one byte is changed: each byte, to 00 and to ff. Its words are the program, the name of
// the copy without .db, the good file, the first of its bytes to change and the one behind the last, and the lines of a script, which is
// run after a dump and a `verify`. It prints how many files there were, and how many of the scripts were refused at opening.
#define _GNU_SOURCE
#include "plain_check.h"
#include <fcntl.h>
#include <signal.h>
#include <spawn.h>
#include <stdio.h>
#include <stdlib.h>
#include <string.h>
#include <sys/wait.h>
#include <time.h>
#include <unistd.h>

enum { SIZE = 1 << 20, SECONDS = 20 };

static char good[SIZE], left[SIZE], text[SIZE];

static size_t slurp(const char *name, char *into) {
    FILE *file = fopen(name, "r");
    if (!file) { perror(name); exit(1); }
    size_t size = fread(into, 1, SIZE - 1, file);
    fclose(file);
    into[size] = 0;
    return size;
}

static void spill(const char *name, const char *from, size_t size) {
    FILE *file = fopen(name, "w");
    if (!file || fwrite(from, 1, size, file) != size || fclose(file)) { perror(name); exit(1); }
}

// The exit status, or -1 where it was killed by a signal or didn't end.
static int run(const char *program, const char *command, const char *name, const char *input) {
    posix_spawn_file_actions_t files;
    posix_spawn_file_actions_init(&files);
    posix_spawn_file_actions_addopen(&files, 0, input, O_RDONLY, 0);
    posix_spawn_file_actions_addopen(&files, 1, "out", O_WRONLY | O_CREAT | O_TRUNC, 0600);
    posix_spawn_file_actions_addopen(&files, 2, "err", O_WRONLY | O_CREAT | O_TRUNC, 0600);
    char *words[] = {(char *)program, (char *)command, (char *)name, NULL};
    pid_t child;
    int status, failed = posix_spawn(&child, program, &files, NULL, words, environ);
    posix_spawn_file_actions_destroy(&files);
    if (failed) { fprintf(stderr, "no program\n"); exit(1); }
    time_t began = time(NULL);
    while (waitpid(child, &status, WNOHANG) == 0) {
        if (time(NULL) - began > SECONDS) kill(child, SIGKILL);
        usleep(50);
    }
    return WIFEXITED(status) ? WEXITSTATUS(status) : -1;
}

// Whether standard error has nothing, or else the one line of a fault of what is in the file.
static int is_told(int status) {
    slurp("err", text);
    if (status == 0) return text[0] == 0;
    return status == 2 && (!strcmp(text, "dbmtool: fault 9\n") || !strcmp(text, "dbmtool: fault 10\n") || !strcmp(text, "dbmtool: fault 11\n"));
}

static int lines_of(const char *name) {
    int lines = 0;
    slurp(name, text);
    for (char *at = text; *at; at++) lines += *at == '\n';
    return lines;
}

// Whether `verify` says of the file what a plain look at it says.
static int is_verified(const char *program, const char *name, size_t size) {
    long is = plain_pairs((unsigned char *)good, size);
    int status = run(program, "verify", name, "/dev/null");
    if (!is_told(status)) return 0;
    slurp("out", text);
    return status == 0 ? text[0] && strtol(text, NULL, 10) == is : is < 0 && !text[0];
}

int main(int count, char **words) {
    if (count != 7) return 2;
    const char *program = words[1], *name = words[2], *script = words[6];
    size_t size = slurp(words[3], good), first = strtoul(words[4], NULL, 10), end = strtoul(words[5], NULL, 10);
    int asked = lines_of(script), files = 0, refused = 0;
    char file[256];
    snprintf(file, sizeof file, "%s.db", name);
    for (size_t at = first; at < end && at < size; at++) {
        char before = good[at], values[] = {0, (char)0xff};
        for (int i = 0; i < 2; i++) {
            if (values[i] == before) continue;
            good[at] = values[i];
            spill(file, good, size);
            files++;
            int status = run(program, "dump", name, "/dev/null");
            int is_same = slurp(file, left) == size && !memcmp(good, left, size);
            if (!is_told(status) || !is_same) {
                printf("byte %zu is %02x: a dump has status %d, or changes the file, and says %s\n", at, values[i] & 255, status, text);
                return 1;
            }
            if (!is_verified(program, name, size)) {
                printf("byte %zu is %02x: verify says %s\n", at, values[i] & 255, text);
                return 1;
            }
            status = run(program, "script", name, script);
            is_same = slurp(file, left) == size && !memcmp(good, left, size);
            if (!is_told(status) || lines_of("out") != (status == 0 ? asked : 0) || (status != 0 && !is_same)) {
                printf("byte %zu is %02x: a script has status %d, %d replies, or is refused and changes the file\n", at, values[i] & 255, status, lines_of("out"));
                return 1;
            }
            refused += status != 0;
        }
        good[at] = before;
    }
    printf("%d %d\n", files, refused);
    return 0;
}
