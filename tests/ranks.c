// For each line of hexadecimal digits, or `.` for no bytes: the 32 bits of the key's hash (FNV-1a) in reverse order, in hexadecimal, and
// the line. Sorted by bytes, the lines are in the order in which a pass gives the keys.
#include <stdint.h>
#include <stdio.h>
#include <string.h>

static unsigned digit(char c) { return c <= '9' ? c - '0' : c - 'a' + 10; }

int main(void) {
    static char line[8192];
    while (fgets(line, sizeof line, stdin)) {
        line[strcspn(line, "\n")] = 0;
        uint32_t hash = 2166136261u, rank = 0;
        for (char *c = line; c[0] != '.' && c[0] && c[1]; c += 2) hash = (hash ^ (digit(c[0]) * 16 + digit(c[1]))) * 16777619u;
        for (int i = 0; i < 32; i++) rank |= (hash >> i & 1) << (31 - i);
        printf("%08x %s\n", (unsigned)rank, line);
    }
}
