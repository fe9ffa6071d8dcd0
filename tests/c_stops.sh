#!/usr/bin/env bash
# Calls of the C library in a row, cut short behind each call of the system, where the sectors that no sync came behind are
# kept or lost, or each second one is: the file then has the pairs by the calls that were acknowledged, and of the others at
# most by the one that was on its way. A list of pairs that goes into one commit is there whole or not at all. The opening
# behind it finds the same pairs. The file is of version 1; behind an upgrade some contents have pages of their own.
. "$(dirname "$0")/common"
has_library
preloadable fail

# user FILE: carries out lines 'S KEY CONTENT', 'D KEY', 'L KEY CONTENT KEY CONTENT..', 'upgrade', 'sync' and 'again', which
# closes and opens, and prints ok behind each. A word '=3000x' stands for 3,000 times an x.
cat > user.c <<'END'
#include <fcntl.h>
#include <stdio.h>
#include <stdlib.h>
#include <string.h>
#include "ndbm.h"

static datum of(char *word) {
    static char rooms[16][65535];
    static size_t next;
    if (*word != '=') return (datum){word, strlen(word)};
    char *room = rooms[next++ % 16], *letter;
    size_t size = strtoul(word + 1, &letter, 10);
    memset(room, *letter, size);
    return (datum){room, size};
}

static int list(DBM *db, char **word, size_t count) {
    dbmx_pair pairs[8];
    for (size_t i = 0; i < count; i++) pairs[i] = (dbmx_pair){of(word[2 * i]), of(word[2 * i + 1])};
    return dbmx_store_many(db, pairs, count, NULL);
}

static int carry_out(DBM **db, const char *file, char **word, size_t count) {
    if (*word[0] == 'S') return dbm_store(*db, of(word[1]), of(word[2]), DBM_REPLACE);
    if (*word[0] == 'D') return dbm_delete(*db, of(word[1]));
    if (*word[0] == 'L') return list(*db, word + 1, count / 2);
    if (*word[0] == 's') return dbmx_sync(*db);
    if (*word[0] == 'u') return dbmx_upgrade(*db);
    dbm_close(*db);
    *db = dbm_open(file, O_RDWR, 0);
    return !*db;
}

int main(int words, char **word) {
    char line[400], *parts[20];
    DBM *db = words == 2 ? dbm_open(word[1], O_RDWR, 0) : NULL;
    if (!db) return 1;
    while (fgets(line, sizeof line, stdin)) {
        size_t count = 0;
        for (char *it = strtok(line, " \n"); it && count < 20; it = strtok(NULL, " \n")) parts[count++] = it;
        if (carry_out(&db, word[1], parts, count)) return 1;
        puts("ok");
        fflush(stdout);
    }
    dbm_close(db);
    return 0;
}
END
cc -std=c11 -D_GNU_SOURCE "${strict[@]}" -O1 -I"$top/c" -o user user.c "$library/libndbm.a" || exit 1

# Eight pairs, so that one more opens a bucket.
"$program" create first --limit 100 || exit 1
for key in a b c d e f g h; do "$program" store first $key before || exit 1; done
cat > lines <<'END'
S i 1
S j 2
S a changed
upgrade
S p =3000x
D b
sync
S a =9000y
D c
again
L k 3 l =2100z m 5
S n 6
D p
L d new o =65535w
S a last
END
count=$(wc -l < lines)

# the pairs behind so many lines, as the library by itself leaves them
cp first.db t.db && "$program" dump t > 0.text || exit 1
for ((n = 1; n <= count; n++)); do
  sed -n "${n}p" lines | ./user t > out || { echo "line $n isn't carried out"; exit 1; }
  "$program" dump --text t > $n.people && "$program" dump t > $n.text || exit 1
done
# times COUNT LETTER
times() { head -c "$1" /dev/zero | tr '\0' "$2"; }
printf '%s\t%s\n' a last d new e before f before g before h before i 1 j 2 k 3 l "$(times 2100 z)" m 5 n 6 o "$(times 65535 w)" |
  cmp - "$count.people" || exit 1

# is_one_of FILE LINES: it has the pairs behind so many lines, or behind one more
is_one_of() { "$program" dump "$1" > seen 2> err && { cmp -s seen "$2.text" || cmp -s seen "$(($2 + 1)).text"; }; }

more=0
for ((stop = 0; stop < 600; stop++)); do
  ended=
  for lose in kept lost odd even; do
    cp first.db t.db
    status=0
    FAIL_CALL=$((stop + 1)) FAIL_HOW=from FAIL_LOSE=$lose LD_PRELOAD=./fail.so ./user t < lines > out 2> err || status=$?
    answered=$(grep -cx ok out)
    [ "$answered $status" != "$count 0" ] || ended=1
    is_one_of t "$answered" || wrong "behind $stop calls, $lose, there are other pairs than by the $answered lines told"
    cmp -s seen "$answered.text" || more=$((more + 1))
    cp seen wanted
    echo 'S z 9' | ./user t > out || wrong "behind $stop calls, $lose, the file can't be changed"
    "$program" verify t > /dev/null && "$program" dump t | sed '/^7a /d' | cmp -s - wanted ||
      wrong "behind $stop calls, $lose, an opening by the library leaves other pairs"
  done
  [ -z "$ended" ] || break
  [ "$bad" = 0 ] || exit 1
done
[ "$answered" = "$count" ] && ((stop > 50)) || wrong "only $stop calls were cut short, and $answered lines are answered then"
((more > 0)) || wrong "no call happened that wasn't acknowledged"
[ "$bad" = 0 ]
