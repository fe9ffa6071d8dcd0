// Another database driven as dbmtool is: `script NAME` answers the calls on standard input and
// syncs each change; `load NAME` stores the pairs on standard input and syncs once, at the end.
// Calls other than `S`, `F`, `D`, `1` and `N` and the word `.` are not read, since peers.sh has
// none.
#include "peer.h"

#include <stdio.h>
#include <stdlib.h>
#include <string.h>

static const char DIGITS[] = "0123456789abcdef";

void fail(const char *call) {
    fprintf(stderr, "peer: %s\n", call);
    exit(1);
}

static int digit(char character) {
    if (character >= '0' && character <= '9') return character - '0';
    if (character >= 'a' && character <= 'f') return character - 'a' + 10;
    fail("not hex");
    return 0;
}

// The word at the place, which then is behind the word and the byte that ends it. Its bytes are
// written over its digits.
static struct word take_word(char **place, char end) {
    struct word word = {*place, 0};
    char *digits = *place;
    for (; *digits != end; digits += 2)
        word.bytes[word.length++] = (char)(digit(digits[0]) << 4 | digit(digits[1]));
    *place = digits + 1;
    return word;
}

static void print_word(struct word word) {
    for (size_t i = 0; i < word.length; i++) {
        unsigned char byte = (unsigned char)word.bytes[i];
        putchar_unlocked(DIGITS[byte >> 4]);
        putchar_unlocked(DIGITS[byte & 15]);
    }
    putchar_unlocked('\n');
}

static void print_found(bool found, struct word word, const char *otherwise) {
    if (found) print_word(word);
    else puts(otherwise);
}

static void store_pair(char *place) {
    struct word key = take_word(&place, ' ');
    peer_store(key, take_word(&place, '\n'));
}

static void answer_store(char *place) {
    store_pair(place);
    peer_sync();
    puts("0");
}

static void answer_fetch(char *place) {
    struct word content;
    bool found = peer_fetch(take_word(&place, '\n'), &content);
    print_found(found, content, "none");
}

static void answer_delete(char *place) {
    bool there = peer_delete(take_word(&place, '\n'));
    peer_sync();
    puts(there ? "0" : "-1 absent");
}

static void answer_pass(bool (*step)(struct word *)) {
    struct word key;
    bool found = step(&key);
    print_found(found, key, "end");
}

static void answer(char *line) {
    switch (line[0]) {
    case 'S': answer_store(line + 2); break;
    case 'F': answer_fetch(line + 2); break;
    case 'D': answer_delete(line + 2); break;
    case '1': answer_pass(peer_first); break;
    case 'N': answer_pass(peer_next); break;
    default: fail("no such call");
    }
}

static void each_line(void (*act)(char *)) {
    char *line = NULL;
    size_t room = 0;
    while (getline(&line, &room, stdin) > 0) act(line);
    free(line);
}

int main(int count, char **words) {
    if (count != 3) fail("usage: script NAME or load NAME");
    peer_open(words[2]);
    if (strcmp(words[1], "load") == 0) {
        each_line(store_pair);
        peer_sync();
    } else {
        each_line(answer);
    }
    peer_close();
    if (ferror(stdin) || fflush(stdout) != 0) fail("a stream");
    return 0;
}
