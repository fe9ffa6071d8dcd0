#!/usr/bin/env bash
# Databases that are built. The programs of c/test whose names begin with build_ run beside one another, linked to the archive and to the
# shared library, and so do random calls beside a map, of which each answer is compared. Then: 100,000 inserts take few syncs; a build is cut short behind each read, write and sync of its file, where what no
# sync came behind is kept or lost; the command line beside a build; and the names of the files, also of a library that is compiled to have
# two of them.
. "$(dirname "$0")/common"
has_library
unset KUMQUATFEN_BUILD KUMQUATFEN_NAMES KUMQUATFEN_SHARED
pid=
rooms=$work
# Syncs take no time on a memory file system, and are as good here.
if [ -w /dev/shm ]; then rooms=$(mktemp -d /dev/shm/c_builds.XXXXXX); fi
trap '[ -z "$pid" ] || kill -9 "$pid" 2> /dev/null; rm -rf "$work" "$rooms"' EXIT
cd "$rooms" || exit 1
preloadable fail
preloadable syncs

# build NAME TEXT LINKED..: compiles a program, linked so
build() {
  cc -std=c11 -D_GNU_SOURCE "${strict[@]}" -O1 -I"$top/c" -o "$1" "$2" "${@:3}" -pthread || { echo "$1 isn't compiled"; exit 1; }
}

# begins NAME HOW LINKED..: the program of c/test/NAME.c, linked so, runs in a folder of its own
begins() {
  local room=$1.$2
  mkdir "$room" && build "$room/program" "$top/c/test/$1.c" "${@:3}"
  (cd "$room" && timeout 120 ./program > told 2>&1; echo $? > status) &
}
for file in "$top"/c/test/build_*.c; do
  name=$(basename "$file" .c)
  begins "$name" archive "$library/libndbm.a"
  begins "$name" shared "-L$library" "-Wl,-rpath,$library" -lndbm
done
RANDOM_BUILDS=1 begins random archive "$library/libndbm.a"
wait
ran=(build_*.*/ random.archive/)
[ "${#ran[@]}" -ge 7 ] || wrong "only ${#ran[@]} programs were run"
for room in "${ran[@]}"; do
  [ "$(cat "$room/status")" = 0 ] || wrong "${room%/}: status $(cat "$room/status"):
$(head -n 30 "$room/told")"
  grep '^left out' "$room/told"
done

# builder FILE FLAGS COUNT [EACH]: opens FILE with the flags of open(2) that are letters (c, t, x), stores so many pairs by inserts, with
# dbmx_sync behind EACH of them, of which it tells the count, and closes. With EACH 0 it tells `open` behind the stores and closes at the end
# of its input.
cat > builder.c <<'ENDC'
#include <errno.h>
#include <fcntl.h>
#include <stdio.h>
#include <stdlib.h>
#include <string.h>
#include "ndbm.h"

static int store(DBM *db, unsigned n) {
    char key[40], content[400];
    size_t key_size = (size_t)sprintf(key, "key %07u", n), size = (size_t)sprintf(content, "%0*u", (int)(20 + n * 7 % 300), n);
    return dbm_store(db, (datum){key, key_size}, (datum){content, size}, DBM_INSERT);
}

int main(int count, char **word) {
    if (count < 4) return 3;
    int flags = O_RDWR | (strchr(word[2], 'c') ? O_CREAT : 0) | (strchr(word[2], 't') ? O_TRUNC : 0) | (strchr(word[2], 'x') ? O_EXCL : 0);
    unsigned each = count > 4 ? (unsigned)atoi(word[4]) : 1000000000, pairs = (unsigned)atoi(word[3]);
    DBM *db = dbm_open(word[1], flags, 0644);
    if (!db) return printf("%s\n", strerror(errno)), 1;
    int failed = 0;
    for (unsigned n = 1; n <= pairs && !failed; n++) {
        failed = store(db, n) || (each && n % each == 0 && dbmx_sync(db));
        if (!failed && each && n % each == 0) printf("%u\n", n);
    }
    if (!each && !failed && (printf("open\n") < 0 || fflush(stdout) || getchar() != EOF)) return 1;
    errno = 0;
    dbm_close(db);
    return errno || failed;
}
ENDC
build builder builder.c "$library/libndbm.a"

# how many syncs there are
SYNCS_LOG=few KUMQUATFEN_BUILD=1 LD_PRELOAD=./syncs.so ./builder many cx 100000 || wrong "100,000 inserts fail"
[ "$("$program" verify many)" = 100000 ] || wrong "100,000 inserts leave $("$program" verify many)"
[ "$(wc -l < few)" -le 150 ] && [ "$(wc -l < few)" -ge 10 ] || wrong "100,000 inserts take $(wc -l < few) syncs"
SYNCS_LOG=again KUMQUATFEN_BUILD=1 LD_PRELOAD=./syncs.so ./builder many ct 100000 || wrong "100,000 inserts in the place of others fail"
[ "$(wc -l < again)" -le 150 ] && [ "$(tail -n 1 again | cut -d ' ' -f 1-2)" = 'fsync folder' ] ||
  wrong "100,000 inserts in the place of others take $(wc -l < again) syncs, at last $(tail -n 1 again)"
SYNCS_LOG=each LD_PRELOAD=./syncs.so ./builder one cx 200 || wrong "200 inserts fail"
[ "$(wc -l < each)" -ge 200 ] || wrong "200 inserts that aren't those of a build take $(wc -l < each) syncs"

# Cut short in a new file, the first pairs are there, and among them all that a sync was answered for.
KUMQUATFEN_BUILD=1 ./builder whole cx 90 30 > told || exit 1
"$program" dump whole > whole.text
is_first() { "$program" dump t > seen 2> err && [ "$(wc -l < seen)" -ge "$1" ] && head -n "$(wc -l < seen)" whole.text | cmp -s - seen; }
for ((stop = 1; stop < 400; stop++)); do
  ended=
  for lose in kept lost odd even; do
    rm -f t.db
    status=0
    KUMQUATFEN_BUILD=1 FAIL_CALL=$stop FAIL_HOW=from FAIL_SYNCS=no FAIL_LOSE=$lose LD_PRELOAD=./fail.so ./builder t c 90 30 > told 2> err || status=$?
    answered=$(grep -xE '[0-9]+' told | tail -n 1)
    [ $status != 0 ] || ended=1
    # before there is a database, one is made there
    is_first "${answered:-0}" || { [ -z "$answered" ] && grep -q 'fault 10' err && ./builder t c 0; } ||
      wrong "behind $stop calls, $lose, there are others than the first pairs, or less than ${answered:-0}: $(cat err)"
  done
  [ -z "$ended" ] || break
done
[ "$stop" -gt 20 ] && [ "$stop" -lt 400 ] || wrong "the calls of a build were cut short at $stop places"
[ "$answered" = 90 ] && cmp -s seen whole.text || wrong "a build that isn't cut short leaves $(wc -l < seen) pairs"

# Cut short beside another file, that one is there. Where the sync of the folder alone fails, which comes last, the new one is there whole.
./builder old cx 20 && "$program" dump old > old.text || exit 1
last=
for ((stop = 1; stop < 400; stop++)); do
  ended=
  for lose in kept lost odd even; do
    cp old.db t.db
    status=0
    KUMQUATFEN_BUILD=1 FAIL_CALL=$stop FAIL_HOW=from FAIL_SYNCS=no FAIL_LOSE=$lose LD_PRELOAD=./fail.so ./builder t ct 90 30 > told 2> err || status=$?
    "$program" dump t > seen 2> err || wrong "beside another file, behind $stop calls, $lose: $(cat err)"
    if [ $status = 0 ]; then ended=1; fi
    cmp -s seen old.text || last=${last:-$stop}
    cmp -s seen old.text || { cmp -s seen whole.text && { [ $status = 0 ] || [ "$last" = "$stop" ]; }; } ||
      wrong "beside another file, behind $stop calls, $lose, there are other pairs"
    [ ! -e t.db.new ] || wrong "behind $stop calls, $lose, a build that has failed leaves its file"
  done
  [ -z "$ended" ] || break
done
[ "$stop" -gt 20 ] && [ "$stop" -lt 400 ] && cmp -s seen whole.text || wrong "a build beside another file was cut short at $stop places"

# The command line beside a build: it reads the old pairs, and neither changes them nor replaces the file.
cp old.db t.db
mkfifo input said || exit 1
KUMQUATFEN_BUILD=1 ./builder t t 90 0 < input > said &
pid=$!
exec {to}> input {from}< said
read -t 20 -r -u "$from" line && [ "$line" = open ] || wrong "the build isn't open: $line"
[ -e t.db.new ] && "$program" dump t | cmp -s - old.text || wrong "the command line doesn't find the old pairs beside a build"
"$program" store t 6b 76 -x 2> err; [ $? = 2 ] && grep -q 'fault 2' err || wrong "the command line stores beside a build: $(cat err)"
"$program" load --replace t < whole.text 2> err; [ $? = 2 ] && grep -q 'fault 2' err || wrong "the command line replaces beside a build: $(cat err)"
"$program" dump t | cmp -s - old.text && [ -e t.db.new ] || wrong "the old pairs are others, or the build has lost its file"
kill -9 "$pid"; wait "$pid" 2> /dev/null
pid=
exec {to}>&- {from}<&-
"$program" dump t | cmp -s - old.text && [ -e t.db.new ] || wrong "a build that is killed doesn't leave the old pairs"
"$program" load --replace t < whole.text && "$program" dump t | cmp -s - whole.text && [ ! -e t.db.new ] ||
  wrong "the command line doesn't take away what a build left"
echo left > t.db.new
KUMQUATFEN_BUILD=1 ./builder t t 20 && "$program" dump t | cmp -s - old.text && [ ! -e t.db.new ] || wrong "a build doesn't take away what is left"

# two names: the command line reads and changes FILE.pag by a link, and replaces it under its own name
KUMQUATFEN_NAMES=pag ./builder two cx 20 && [ -e two.pag ] && [ -e two.dir ] && [ ! -s two.dir ] && [ ! -e two.db ] || wrong "there aren't two files"
ln -s two.pag two.db
"$program" dump two | cmp -s - old.text && "$program" store two 6b 76 -x && [ "$("$program" fetch two 6b -x)" = 76 ] ||
  wrong "the command line doesn't use FILE.pag by a link"
"$program" load --replace two < whole.text 2> err && wrong "the command line replaces a link"
rm two.db && mv two.pag two.db && "$program" load --replace two < whole.text && mv two.db two.pag || wrong "FILE.pag isn't replaced under another name"
KUMQUATFEN_NAMES=pag ./builder two t 0 && cp two.pag t.db && [ "$("$program" verify t)" = 0 ] || wrong "FILE.pag isn't opened behind a replacement"

# a library that is compiled to have two names
mkdir another
(cd "$top" && tar cf - --exclude=out --exclude=.git --exclude=must-fail --exclude=proofs .) | tar xf - -C another
CFLAGS=-DKUMQUATFEN_NAMES_PAG another/c/build --archive "$library/libndbm_c.a" || wrong "the library isn't compiled with two names"
build packaged builder.c another/c/out/libndbm.a
./packaged three cx 1 && [ -e three.pag ] && [ -e three.dir ] && [ ! -e three.db ] || wrong "a library with two names makes $(echo three.*)"
KUMQUATFEN_NAMES=db ./packaged four cx 1 && [ -e four.db ] && [ ! -e four.pag ] && [ ! -e four.dir ] ||
  wrong "a library with two names that is asked for one makes $(echo four.*)"
[ "$bad" = 0 ]
