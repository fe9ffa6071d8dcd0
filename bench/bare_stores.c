// The writes and syncs of stores in a row as bare system calls: for each store of two pages their images, at two places in turn, and
// those of the store before at home, with one sync, and then the armed sector, with another (redo_area). Arguments: the file, and how
// many stores.
#define _GNU_SOURCE
#include <fcntl.h>
#include <stdlib.h>
#include <unistd.h>

static char bytes[2048];

static void put(int file, long first, int count) {
    if (pwrite(file, bytes, count * 512, first * 512) != count * 512) exit(1);
}

static void settle(int file) {
    if (fdatasync(file) != 0) exit(1);
}

int main(int count, char **words) {
    if (count != 3) return 2;
    int file = open(words[1], O_RDWR | O_CREAT, 0666);
    if (file < 0) return 1;
    for (long n = atol(words[2]); n > 0; n--) {
        bytes[0] = (char)n;
        long place = 1300 + 2 * (n % 2);
        put(file, 4 * place, 4);
        put(file, 4 * (place + 1), 4);
        put(file, 4, 4);
        put(file, 4 * (3 + n % 1200), 4);
        settle(file);
        put(file, 0, 1);
        settle(file);
    }
    return close(file) != 0;
}
