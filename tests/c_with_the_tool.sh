#!/usr/bin/env bash
# The command line and the C library on one file in turn: each reads what the other one stored, byte for byte, also where a
# program ended without closing, and where contents have pages of their own; and where one of them has the file open for
# writing the other one is refused at once.
. "$(dirname "$0")/common"
has_library
pid=
trap '[ -z "$pid" ] || kill -9 "$pid" 2> /dev/null; rm -rf "$work"' EXIT

# user change FILE: lines 'S KEY CONTENT', 'D KEY' and 'end', which ends without closing, in the words of a dump
# user list FILE: the pairs, in the words of a dump
# user open FILE HOW SECONDS: opens the file, waits so long for it, or as dbm_open does for '-', says 'open' or why not, and has it
# open to the end of the input
cat > user.c <<'END'
#include <errno.h>
#include <fcntl.h>
#include <stdio.h>
#include <stdlib.h>
#include <string.h>
#include <unistd.h>
#include "ndbm.h"

static int fail(const char *what) {
    fprintf(stderr, "%s: %s\n", what, strerror(errno));
    return 1;
}

static datum bytes_of(const char *word, unsigned char *bytes) {
    size_t size = 0;
    for (unsigned byte; word[0] != '.' && sscanf(word + 2 * size, "%2x", &byte) == 1; size++) bytes[size] = (unsigned char)byte;
    return (datum){bytes, size};
}

static int change(DBM *db) {
    static char line[140000], words[3][140000];
    static unsigned char key[70000], content[70000];
    while (fgets(line, sizeof line, stdin)) {
        int count = sscanf(line, "%139999s %139999s %139999s", words[0], words[1], words[2]);
        if (count == 1 && !strcmp(words[0], "end")) _exit(0);
        if (count == 3 && dbm_store(db, bytes_of(words[1], key), bytes_of(words[2], content), DBM_REPLACE)) return fail(line);
        if (count == 2 && dbm_delete(db, bytes_of(words[1], key))) return fail(line);
    }
    return 0;
}

static void print(datum it, char behind) {
    for (size_t i = 0; i < it.dsize; i++) printf("%02x", ((unsigned char *)it.dptr)[i]);
    printf("%s%c", it.dsize ? "" : ".", behind);
}

static int list(DBM *db) {
    for (datum key = dbm_firstkey(db); key.dptr; key = dbm_nextkey(db)) {
        print(key, ' ');
        print(dbm_fetch(db, key), '\n');
    }
    return dbm_error(db) || dbmx_verify(db);
}

static int hold(const char *file, int flags, const char *seconds) {
    dbmx_how how = {.wait = (unsigned)atoi(seconds)};
    DBM *db = *seconds == '-' ? dbm_open(file, flags, 0) : dbmx_open(file, flags, 0, &how, NULL);
    puts(db ? "open" : errno == EAGAIN && errno == EWOULDBLOCK ? "locked" : strerror(errno));
    fflush(stdout);
    while (db && getchar() != EOF) continue;
    if (db) dbm_close(db);
    return !db;
}

int main(int count, char **word) {
    if (count < 3) return 2;
    if (!strcmp(word[1], "open")) return hold(word[2], *word[3] == 'w' ? O_RDWR : O_RDONLY, word[4]);
    int lists = !strcmp(word[1], "list");
    DBM *db = dbm_open(word[2], lists ? O_RDONLY : O_RDWR | O_CREAT, 0644);
    if (!db) return fail(word[2]);
    int status = lists ? list(db) : change(db);
    errno = 0;
    dbm_close(db);
    return status || errno;
}
END
cc -std=c11 -D_GNU_SOURCE "${strict[@]}" -O1 -I"$top/c" -o user user.c "$library/libndbm.a" || exit 1

# The pairs that there have to be, in `map`, are changed by lines as `user change` takes them.
: > map
put() {
  awk 'FILENAME == "map" { map[$1] = $2; next } $1 == "S" { map[$2] = $3 } $1 == "D" { delete map[$2] }
       END { for (key in map) print key, map[key] }' map - | LC_ALL=C sort > next
  mv next map
}

# by_library FILE, by_tool FILE: lines are carried out, and the map is changed so
by_library() { tee lines | ./user change "$1" 2> err || wrong "the library doesn't carry out: $(cat err)"; put < lines; }
by_tool() {
  tee lines | "$program" script "$1" > out 2> err || wrong "the tool doesn't carry out: $(cat err)"
  [ "$(grep -cx 0 out)" = "$(wc -l < lines)" ] || wrong "the tool answers $(sort out | uniq -c | xargs)"
  put < lines
}

# are_there FILE WHEN: both find the pairs of the map, and the tool finds the file whole
are_there() {
  "$program" dump "$1" > found 2> err || wrong "$2, the tool's dump: $(cat err)"
  cmp -s found map || wrong "$2, the tool finds other pairs: $(diff found map | cut -c 1-80 | head -n 4)"
  [ "$("$program" verify "$1")" = "$(wc -l < map)" ] || wrong "$2, the tool's verify says $("$program" verify "$1" 2>&1)"
  ./user list "$1" > listed 2> err || wrong "$2, the library doesn't list: $(cat err)"
  LC_ALL=C sort listed | cmp -s - map || wrong "$2, the library finds other pairs"
}

# bytes COUNT BYTE: a word of so many of these bytes
bytes() { printf "%0$1d" 0 | sed "s/0/$2/g"; }
all=$(printf '%02x' $(seq 0 255))
some() { seq "$1" "$2" | awk '{ printf "S %06d 00%06d\n", $1, $1 }'; }
odd() { printf '%s\n' 'S . 01' 'S 00 .' 'S 0000 00' "S $all $all" "S ff $(bytes 2025 ee)" "S $(bytes 2026 dd) ."; }

# a table of the tool's
"$program" create t --limit 7000 || exit 1
{ some 1 200; odd; } | by_tool t
are_there t 'made by the tool'
others() {
  printf '%s\n' 'D 000007' 'S 000008 .' "S 000009 $(bytes 1500 77)" 'D .' "D $(bytes 2026 dd)" 'S 00 ff'
  some 300 480
}
others | by_library t
are_there t 'changed by the library'
"$program" stat t > said && grep -qw 7000 said || wrong "the library changes the limit: $(cat said)"
"$program" upgrade t || wrong 'the tool upgrades no file that the library changed'
printf '%s\n' "S 0c $(bytes 65535 0c)" "S $(bytes 1023 0d) $(bytes 3000 0d)" | by_library t
are_there t 'upgraded by the tool'

# one of the library's
: > map
{ some 1 200; odd; } | by_library u
are_there u 'made by the library'
others | by_tool u
are_there u 'changed by the tool'

# in turn, also where a program ended without closing
for n in $(seq 1 12); do
  printf '%s\n' "S 0a$(printf %02x "$n") $(bytes $((n * 1000)) 0a)" "D $(printf '%06d' $((n + 20)))" | by_tool u
  printf '%s\n' "S 0b$(printf %02x "$n") $(bytes $((n * 1000)) 0b)" "D $(printf '%06d' $((n + 60)))" end | by_library u
  [ $((n % 3)) != 0 ] || are_there u "in turn, time $n"
done
are_there u 'in turn'

# holds PROGRAM WORD..: it has t open until lets_go; is_open waits for the library to say so
holds() {
  rm -f input said
  mkfifo input said || exit 1
  "$@" < input > said &
  pid=$!
  exec {to}> input {from}< said
}
is_open() {
  local line
  read -t 20 -r -u "$from" line
  [ "$line" = open ] || { echo "the program that is to hold the file says '$line'"; exit 1; }
}
lets_go() {
  exec {to}>&- {from}<&-
  wait "$pid" || wrong "the program that held the file ends with status $?"
  pid=
}

# is_refused WORDS..: the tool, which doesn't wait, answers fault 2 at once, and the file stays
is_refused() {
  local status began=$SECONDS
  cp t.db before
  timeout 20 "$program" --wait 0 "$@" < /dev/null > out 2> err
  status=$?
  [ "$status" = 2 ] && [ "$(cat err)" = 'dbmtool: fault 2' ] && [ ! -s out ] ||
    wrong "beside the library, $*: status $status, $(cat err), $(head -c 80 out)"
  [ $((SECONDS - began)) -lt 10 ] || wrong "beside the library, $* takes $((SECONDS - began)) s"
  cmp -s t.db before || wrong "beside the library, $*: the file has changed"
}

# opens ANSWER WORDS..: an opening by the library says this, at once where it waits for none
opens() {
  local began=$SECONDS answer=$1
  shift
  [ "$(timeout 20 ./user open t "$@" < /dev/null)" = "$answer" ] || wrong "beside the tool, an opening for $* isn't $answer"
  [ $((SECONDS - began)) -lt 10 ] || wrong "beside the tool, an opening for $* takes $((SECONDS - began)) s"
}

# the library has it open
holds ./user open t w 0 && is_open
for command in list dump stat verify load script; do is_refused "$command" t; done
is_refused fetch t k
is_refused store t a b
is_refused delete t k
is_refused create t
opens locked w 0
opens locked r 0
lets_go
holds ./user open t r 0 && is_open
"$program" dump t > beside || wrong 'a dump beside a reader'
[ "$(wc -l < beside)" -gt 300 ] && [ "$("$program" verify t)" = "$(wc -l < beside)" ] ||
  wrong 'beside a reader the tool reads something else'
is_refused store t a b
is_refused script t
opens open r 0
opens locked w 0
lets_go
"$program" store t a b || wrong 'the lock stays behind the library'

# the tool has it open
holds "$program" script t
echo 'S 6b 76' >&"$to"
read -t 20 -r -u "$from" reply
[ "$reply" = 0 ] || wrong "the script answers '$reply'"
opens locked w 0
opens locked r 0
exec {wait}< <(exec {to}>&- {from}<&-; timeout 30 ./user open t r 25 < /dev/null)
sleep 0.5
lets_go
read -t 25 -r -u "$wait" reply
[ "$reply" = open ] || wrong "an opening that waits for the tool says '$reply'"
exec {wait}<&-
# dbm_open waits by itself
holds "$program" script t
echo 'F 6b' >&"$to"
read -t 20 -r -u "$from" reply
[ "$reply" = 76 ] || wrong "the script answers '$reply'"
exec {wait}< <(exec {to}>&- {from}<&-; unset KUMQUATFEN_WAIT; timeout 30 ./user open t w - < /dev/null)
sleep 0.5
lets_go
read -t 25 -r -u "$wait" reply
[ "$reply" = open ] || wrong "dbm_open, which waits for the tool, says '$reply'"
exec {wait}<&-
[ "$(./user list t | grep '^6b ')" = '6b 76' ] || wrong "what the tool stored beside waits isn't there"
# longer than a pipe holds
seq 4000 | awk '{ printf "%032x 76\n", $1 }' | "$program" load --group 4000 t || exit 1
mkfifo listing
"$program" list t > listing &
pid=$!
exec {from}< listing
read -t 20 -r -u "$from" reply
opens open r 0
opens locked w 0
[ "$(wc -l <&"$from")" -ge 4000 ] || wrong 'the listing beside the library is cut'
exec {from}<&-
wait "$pid" || wrong "the listing ends with status $?"
pid=
opens open w 0

# another file takes the place of one that was opened for writing and isn't locked yet: it is refused, or waited for, and the new one is opened
preloadable replace
"$program" create next --limit 100 && "$program" store next k new && ln t.db old.db && cp t.db before || exit 1
reply=$(REPLACE=t.db REPLACE_BY=next.db LD_PRELOAD=./replace.so timeout 20 ./user open t w 0 < /dev/null)
[ "$reply" = locked ] || wrong "a file that was replaced is opened for writing: $reply"
[ "$("$program" fetch t k)" = new ] && cmp -s old.db before || wrong 'an opening of a file that was replaced changes one of the two'
"$program" create next --limit 100 && "$program" store next k newer || exit 1
cp t.db before && ln -f t.db old.db || exit 1
echo 'S 6b 77' | KUMQUATFEN_WAIT=0 REPLACE=t.db REPLACE_BY=next.db LD_PRELOAD=./replace.so timeout 20 ./user change t 2> err &&
  wrong 'a file that was replaced is changed'
[ "$("$program" fetch t k)" = newer ] && cmp -s old.db before || wrong "a file that took another one's place is changed"
"$program" create next --limit 100 && "$program" store next k newest && cp t.db before && ln -f t.db old.db || exit 1
echo 'S 6b 78' | KUMQUATFEN_WAIT=5 REPLACE=t.db REPLACE_BY=next.db LD_PRELOAD=./replace.so timeout 20 ./user change t 2> err ||
  wrong "behind a wait, the file that took another one's place isn't opened: $(cat err)"
[ "$("$program" fetch t k)" = x ] && cmp -s old.db before || wrong 'behind a wait, another file is changed'
[ "$bad" = 0 ]
