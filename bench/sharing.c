// Processes that fetch in a loop, and others that store in a loop, over one table of 10,000 pairs: calls a second of all of each kind, and the
// longest call of each. Arguments: how many that fetch, how many that store, for how many seconds, how many microseconds each writer rests
// between two stores, and 1 where the only process has the table alone.
#define _GNU_SOURCE
#include "sharing.h"

#include <stdatomic.h>
#include <stdint.h>
#include <stdio.h>
#include <stdlib.h>
#include <string.h>
#include <sys/mman.h>
#include <sys/wait.h>
#include <time.h>
#include <unistd.h>

enum { MOST_PROCESSES = 16 };

struct counts {
    uint64_t calls, longest;
};

static struct common {
    struct counts of[MOST_PROCESSES];
    _Atomic int ready, goes, ends;
} *common;

static struct asked {
    int readers, writers, rest;
    double seconds;
    bool alone;
} asked;

void fail(const char *call) {
    perror(call);
    _exit(1);
}

size_t key_of(unsigned pair, char *key) {
    return (size_t)snprintf(key, KEY_ROOM, "key %u", pair);
}

static uint64_t nanoseconds(void) {
    struct timespec now;
    clock_gettime(CLOCK_MONOTONIC, &now);
    return (uint64_t)now.tv_sec * 1000000000u + (uint64_t)now.tv_nsec;
}

static unsigned drawn(uint32_t *state) {
    *state ^= *state << 13;
    *state ^= *state >> 17;
    *state ^= *state << 5;
    return *state % PAIRS;
}

static void call_once(bool writes, uint32_t *state, const char *content, struct counts *counts) {
    char key[KEY_ROOM];
    size_t size = key_of(drawn(state), key);
    uint64_t took = nanoseconds();
    if (writes) table_store(key, size, content);
    else if (table_fetch(key, size) != CONTENT) fail("a content of another length");
    took = nanoseconds() - took;
    counts->calls++;
    if (took > counts->longest) counts->longest = took;
}

static void play(int number, bool writes) {
    uint32_t state = 12345u + (uint32_t)number * 7919u;
    char content[CONTENT];
    memset(content, 'v', sizeof content);
    table_open(writes, asked.alone);
    common->ready++;
    while (!common->goes) usleep(100);
    while (!common->ends) {
        call_once(writes, &state, content, &common->of[number]);
        if (writes && asked.rest) usleep((unsigned)asked.rest);
    }
    table_close();
    _exit(0);
}

static void tell(const char *what, int from, int to) {
    uint64_t calls = 0, longest = 0;
    for (int i = from; i < to; i++) {
        calls += common->of[i].calls;
        if (common->of[i].longest > longest) longest = common->of[i].longest;
    }
    if (from < to) printf("  %10.0f %s a second, the longest %.1f ms", (double)calls / asked.seconds, what, (double)longest / 1e6);
}

static void run(void) {
    int all = asked.readers + asked.writers, status, bad = 0;
    for (int i = 0; i < all; i++)
        if (!fork()) play(i, i >= asked.readers);
    while (common->ready < all) usleep(1000);
    common->goes = 1;
    usleep((unsigned)(asked.seconds * 1e6));
    common->ends = 1;
    while (wait(&status) > 0) bad |= status;
    if (bad) exit(1);
    tell("fetches", 0, asked.readers);
    tell("stores", asked.readers, all);
    printf("\n");
}

int main(int count, char **words) {
    char content[CONTENT];
    if (count != 6) return 2;
    asked = (struct asked){atoi(words[1]), atoi(words[2]), atoi(words[4]), atof(words[3]), atoi(words[5]) == 1};
    if (asked.readers + asked.writers > MOST_PROCESSES) return 2;
    common = mmap(NULL, sizeof *common, PROT_READ | PROT_WRITE, MAP_SHARED | MAP_ANONYMOUS, -1, 0);
    if (common == MAP_FAILED) fail("mmap");
    memset(content, 'v', sizeof content);
    table_make(content);
    run();
    return 0;
}
