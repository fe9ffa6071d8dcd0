// Runs `verify` on copies of a file that were damaged at random, and compares its answer with that of a plain look at the file. Its words
// are the program, the name of the copy without .db, the good file, how many copies there are to be, and a number that draws them.
#define _GNU_SOURCE
#include "plain_check.h"
#include <fcntl.h>
#include <stdint.h>
#include <stdio.h>
#include <stdlib.h>
#include <string.h>
#include <sys/wait.h>
#include <unistd.h>

enum { PAGE = 2048, WAYS = 10, SECONDS = 60 };

static unsigned char *good, *bad;
static size_t size, left;
static uint32_t end;
static uint64_t state;

static uint32_t drawn(uint32_t below) {
    state ^= state << 13;
    state ^= state >> 7;
    state ^= state << 17;
    return (uint32_t)(state >> 32) % below;
}

static unsigned char *page(uint32_t n) { return bad + (size_t)n * PAGE; }

static uint32_t a_page(void) { return 1 + drawn(end - 1); }

static void put(unsigned char *at, uint32_t number) {
    for (int i = 0; i < 4; i++) at[i] = number >> (24 - 8 * i);
}

static uint32_t two(const unsigned char *at) { return at[0] << 8 | at[1]; }

// Changes a slot of a bucket page, if one is found soon: whether it is far, the key's length, the content's, or of a far one its first page.
static void change_slot(void) {
    for (int tries = 0; tries < 200; tries++) {
        unsigned char *from = page(a_page());
        if ((from[4] != 3 && from[4] != 4) || two(from + 6) == 0 || two(from + 6) > 338) continue;
        unsigned char *slot = from + 16 + 6 * drawn(two(from + 6));
        int is_far = slot[2] >> 7;
        uint32_t behind_key = two(slot) + (two(slot + 2) & 0x7fff);
        switch (drawn(is_far ? 8 : 4)) {
        case 0: slot[2] ^= 0x80; return;
        case 1: slot[3] += drawn(2) ? 1 : -1; return;
        case 2: slot[4] += drawn(2) ? 8 : -8; return;
        case 3: slot[5] += drawn(2) ? 1 : -1; return;
        default: if (behind_key + 4 <= PAGE) put(from + behind_key, drawn(8) ? a_page() : 0); return;
        }
    }
}

static void exchange(uint32_t n, uint32_t m, size_t from) {
    unsigned char held[PAGE];
    memcpy(held, page(n) + from, PAGE - from);
    memcpy(page(n) + from, page(m) + from, PAGE - from);
    memcpy(page(m) + from, held, PAGE - from);
}

// An armed commit of a few pages that stand behind the file.
static void arm(void) {
    uint32_t count = 1 + drawn(3), own = 1;
    put(bad + 8, 1);
    put(bad + 16, end);
    put(bad + 20, count);
    for (uint32_t i = 0; i < count && own < end; i++) {
        own += drawn(end - own);
        memcpy(page(end + i), page(a_page()), PAGE);
        if (drawn(4)) put(page(end + i), own);
        own++;
    }
    if ((size_t)(end + count) * PAGE > left) left = (size_t)(end + count) * PAGE;
}

static void damage(int way) {
    static const int fields[] = {3, 4, 7, 11, 13, 17, 19, 21, 23, 24, 27, 31, 35, 39, 43, 47, 67};
    uint32_t n = a_page();
    switch (way) {
    case 0: page(n)[drawn(PAGE)] = drawn(256); break;
    case 1: page(n)[fields[drawn(sizeof fields / sizeof *fields)]] += drawn(2) ? 1 : -1; break;
    case 2: exchange(n, a_page(), 0); break;
    case 3: exchange(n, a_page(), 4); break;
    case 4: put(page(n) + 8, drawn(4) ? a_page() : 0); break;
    case 5: put(page(2 + drawn(2)) + 16 + 4 * drawn(508), a_page()); break;
    case 6: left = drawn(size); break;
    case 7: arm(); break;
    case 8: put(page(1) + 20 + 4 * drawn(7), drawn(2) ? drawn(64) : a_page()); break;
    case 9: if (drawn(8)) change_slot(); else put(page(1) + 16, drawn(4)); break;
    }
}

static void spill(const char *name) {
    int file = open(name, O_WRONLY | O_CREAT | O_TRUNC, 0600);
    if (file < 0 || write(file, bad, left) != (ssize_t)left || close(file)) { perror(name); exit(1); }
}

// What the program says, the number of pairs or -1.
static long told(const char *program, const char *name) {
    char text[64] = "";
    int ends[2], status;
    if (pipe(ends)) { perror("pipe"); exit(1); }
    pid_t child = fork();
    if (child == 0) {
        dup2(ends[1], 1);
        dup2(ends[1], 2);
        close(ends[0]);
        alarm(SECONDS);
        execl(program, program, "verify", name, (char *)NULL);
        _exit(99);
    }
    close(ends[1]);
    for (size_t had = 0; had < sizeof text - 1;) {
        ssize_t more = read(ends[0], text + had, sizeof text - 1 - had);
        if (more <= 0) break;
        had += more;
    }
    close(ends[0]);
    waitpid(child, &status, 0);
    if (WIFEXITED(status) && WEXITSTATUS(status) == 0) return strtol(text, NULL, 10);
    if (WIFEXITED(status) && WEXITSTATUS(status) == 2
        && (!strcmp(text, "dbmtool: fault 9\n") || !strcmp(text, "dbmtool: fault 10\n") || !strcmp(text, "dbmtool: fault 11\n"))) return -1;
    printf("verify has status %x and says %s\n", status, text);
    exit(1);
}

int main(int count, char **words) {
    if (count != 6) return 2;
    FILE *file = fopen(words[3], "r");
    char name[256];
    int copies = atoi(words[4]), refused = 0, accepted = 0;
    state = strtoull(words[5], NULL, 10) * 2654435761u + 88172645463325252u;
    snprintf(name, sizeof name, "%s.db", words[2]);
    if (!file || fseek(file, 0, SEEK_END)) { perror(words[3]); return 1; }
    size = ftell(file);
    good = calloc(size + 64 * PAGE, 1);
    bad = calloc(size + 64 * PAGE, 1);
    rewind(file);
    if (fread(good, 1, size, file) != size) { perror(words[3]); return 1; }
    end = (uint32_t)good[12] << 24 | good[13] << 16 | good[14] << 8 | good[15];
    for (int i = 0; i < copies; i++) {
        memcpy(bad, good, size + 64 * PAGE);
        left = size;
        for (int times = i == 0 ? 0 : 1 + drawn(2); times > 0; times--) damage(drawn(WAYS));
        spill(name);
        long says = told(words[1], words[2]), is = plain_pairs(bad, left);
        if (says != is) {
            printf("copy %d of %s, left in %s: verify says %ld, and a plain look %ld\n", i, words[3], name, says, is);
            return 1;
        }
        if (is < 0) refused++; else accepted++;
    }
    printf("%d damaged files: %d refused, %d good\n", copies, refused, accepted);
    return refused > copies / 2 && accepted > 1 ? 0 : 1;
}
