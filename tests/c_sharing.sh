#!/usr/bin/env bash
# Handles that share a file. The programs of c/test whose names begin with shared_ run beside one another, linked to the archive and to the
# shared library; one of them has readers and writers for 20 seconds, which are killed, beside a table that is replaced and openings that
# aren't shared. Then the command line beside a program that has the file open all the time: what it stores, replaces and resizes is found,
# and a file of the first kind is refused, and shared once it is upgraded.
. "$(dirname "$0")/common"
has_library
pid=
trap '[ -z "$pid" ] || kill -9 "$pid" 2> /dev/null; rm -rf "$work"' EXIT

# build NAME TEXT LINKED..: compiles a program, linked so
build() {
  cc -std=c11 -D_GNU_SOURCE "${strict[@]}" -O1 -I"$top/c" -o "$1" "$2" "${@:3}" -pthread || { echo "$1 isn't compiled"; exit 1; }
}

# begins NAME HOW LINKED..: the program of c/test/NAME.c, linked so, runs in a folder of its own
begins() {
  local room=$1.$2
  mkdir "$room" && build "$room/program" "$top/c/test/$1.c" "${@:3}"
  (cd "$room" && SHARED_SECONDS=20 timeout 120 ./program > told 2>&1; echo $? > status) &
}

for file in "$top"/c/test/shared_*.c; do
  name=$(basename "$file" .c)
  begins "$name" archive "$library/libndbm.a"
  [ "$name" = shared_stress ] || begins "$name" shared "-L$library" "-Wl,-rpath,$library" -lndbm
done
wait
rooms=(shared_*.*/)
[ "${#rooms[@]}" -ge 9 ] || wrong "only ${#rooms[@]} programs were run"
for room in "${rooms[@]}"; do
  [ "$(cat "$room/status")" = 0 ] || wrong "${room%/}: status $(cat "$room/status"):
$(head -n 30 "$room/told")"
done
grep -q ' 0 wrong$' shared_stress.archive/told || wrong "the readers and writers tell: $(cat shared_stress.archive/told)"

# user: shares t, and answers each line: 'F KEY' by its content or '-', 'S KEY CONTENT' by 'ok', and both by the words of errno where
# they fail
cat > user.c <<'END'
#include <errno.h>
#include <fcntl.h>
#include <stdio.h>
#include <string.h>
#include "ndbm.h"

static datum of(char *word) {
    return (datum){word, strlen(word)};
}

int main(void) {
    char what[4], key[40], content[40], line[100];
    const dbmx_how how = {.wait = 5, .options = DBMX_SHARED};
    DBM *db = dbmx_open("t", O_RDWR, 0, &how, NULL);
    if (!db) return printf("%s\n", strerror(errno)), 1;
    while (fgets(line, sizeof line, stdin)) {
        int count = sscanf(line, "%3s %39s %39s", what, key, content);
        errno = 0;
        datum found = {NULL, 0};
        int failed = count == 3 && dbm_store(db, of(key), of(content), DBM_REPLACE);
        if (count == 2) found = dbm_fetch(db, of(key));
        if (failed || errno) puts(strerror(errno));
        else if (found.dptr) printf("%.*s\n", (int)found.dsize, (char *)found.dptr);
        else puts(count == 3 ? "ok" : "-");
        fflush(stdout);
    }
    dbm_close(db);
    return 0;
}
END
build user user.c "$library/libndbm.a"

# A file of the first kind is refused, and isn't changed, until it is upgraded.
"$program" create t --limit 1000 --v2 && "$program" store t a 1 || exit 1
cp t.db before
[ "$(echo 'F a' | ./user)" = 'Operation not supported' ] || wrong "a file of the first kind is shared"
cmp -s t.db before || wrong "a file of the first kind that may not be shared is changed"
"$program" upgrade --syncs 1 t || exit 1
[ "$(echo 'F a' | ./user)" = 1 ] || wrong "a file that was upgraded isn't shared"

mkfifo input said || exit 1
./user < input > said &
pid=$!
exec {to}> input {from}< said
# answers LINE WANTED WHEN
answers() {
  local line
  echo "$1" >&"$to"
  read -t 20 -r -u "$from" line || line='nothing'
  [ "$line" = "$2" ] || wrong "$3, '$1' is answered '$line' and not '$2'"
}
answers 'F a' 1 'at first'
answers 'S b 2' ok 'at first'
[ "$("$program" fetch t b)" = 2 ] || wrong "the command line doesn't find what a program that shares the file has stored"
"$program" store t a changed || wrong "the command line can't store beside a program that shares the file"
answers 'S c 3' ok 'behind a store by the command line'
answers 'F a' changed 'behind a store by the command line'
[ "$("$program" dump --text t | sort | xargs)" = 'a changed b 2 c 3' ] || wrong "there are other pairs: $("$program" dump --text t)"
"$program" store t a again || exit 1
sleep 2.1
answers 'F a' again 'two seconds behind a store by the command line'
printf 'a\tnew\n' | "$program" load --replace --text t || wrong "a table that is shared isn't replaced"
sleep 2.1
answers 'F a' new 'behind a replacement'
answers 'F b' - 'behind a replacement'
answers 'S d 4' ok 'behind a replacement'
[ "$("$program" dump --text t | sort | xargs)" = 'a new d 4' ] || wrong "a store is lost behind a replacement"
"$program" resize t --limit 5000 || wrong "a table that is shared isn't resized"
answers 'S e 5' ok 'behind a resize'
answers 'F d' 4 'behind a resize'
exec {to}>&- {from}<&-
wait "$pid" || wrong "the program that shares the file ends with status $?"
pid=
[ "$("$program" verify t)" = 3 ] || wrong "the file isn't whole"
exit $bad
