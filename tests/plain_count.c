// Prints how many pairs a file has for a reader that shares no code with the program, or -1 where it is no good file.
#include "plain_check.h"
#include <stdio.h>

static unsigned char file[1 << 20];

int main(int words, char **word) {
    FILE *it = words == 2 ? fopen(word[1], "rb") : NULL;
    if (!it) return 2;
    printf("%ld\n", plain_pairs(file, fread(file, 1, sizeof file, it)));
    return 0;
}
