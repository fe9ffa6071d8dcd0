#!/usr/bin/env bash
# A file that two programs make at once: one of them alone is answered that it is made, the other one that it is there or locked, and the file is that
# of the first one, with its limit and the pair that it then stores; also where the second one found no file and goes on once that pair is there. And
# the sync of the folder: a create makes it of the folder that the name says, before it ends; where that sync fails, so does the create, and the
# next one makes it; and a command on a file that is there makes none.
. "$(dirname "$0")/common"
preloadable syncs
cat > meet.c <<'END'
// An open to preload. With MEET=found, one that finds no file waits until another program has found none either. With MEET=found-late one that finds
// none waits for the file `go`, and with MEET=made-late one that may have made it does. None waits for more than ten seconds.
#define _GNU_SOURCE
#include <dlfcn.h>
#include <errno.h>
#include <fcntl.h>
#include <stdarg.h>
#include <stdlib.h>
#include <string.h>
#include <sys/stat.h>
#include <unistd.h>
static int is_there(const char *path) { struct stat now; return stat(path, &now) == 0; }
static int (*next)(const char *, int, ...);
static void make(const char *path) { close(next(path, O_CREAT | O_WRONLY, 0600)); }
int open(const char *path, int flags, ...) {
    const char *how = getenv("MEET");
    va_list rest;
    va_start(rest, flags);
    mode_t mode = flags & O_CREAT ? va_arg(rest, mode_t) : 0;
    va_end(rest);
    if (!next) next = dlsym(RTLD_NEXT, "open");
    int file = next(path, flags, mode), error = errno, tries;
    size_t length = strlen(path);
    if (!how || length < 3 || strcmp(path + length - 3, ".db")) return file;
    int missed = file < 0 && error == ENOENT;
    if (missed && !strcmp(how, "found")) {
        make(getenv("MEET_ME"));
        for (tries = 0; tries < 10000 && !is_there(getenv("MEET_OTHER")); tries++) usleep(1000);
    }
    if ((missed && !strcmp(how, "found-late")) || (flags & O_CREAT && !strcmp(how, "made-late"))) {
        make("waits");
        for (tries = 0; tries < 10000 && !is_there("go"); tries++) usleep(1000);
    }
    errno = error;
    return file;
}
END
cc -shared -fPIC -O1 -o meet.so meet.c -ldl || exit 1

# wins ME OTHER HOW: one of two that make the file, with a limit of its own; the one that has made it stores a pair
wins() {
  local status=0 tries
  MEET=$3 MEET_ME=met.$1 MEET_OTHER=met.$2 LD_PRELOAD=./meet.so "$program" --wait 0 create t --limit $((100 + $1)) > "out.$1" 2> "err.$1" < /dev/null || status=$?
  echo "$status" > "status.$1"
  [ "$status" = 0 ] || return 0
  # the other one may have the file open for a moment
  for ((tries = 0; tries < 200; tries++)); do
    if "$program" store t "key$1" "content$1" 2> /dev/null; then echo stored > "stored.$1"; return 0; fi
    sleep 0.01
  done
}

# round HOW: one of two has made the file, and has its pair there
round() {
  local one winner=0 loser
  rm -f t.db met.* status.* stored.* out.* err.*
  wins 1 2 "$1" & one=$!
  wins 2 1 "$1"
  wait "$one"
  case "$(cat status.1) $(cat status.2)" in
    '0 2') winner=1 ;;
    '2 0') winner=2 ;;
    *) wrong "two that make a file ($1) end with status $(cat status.1) and $(cat status.2)"; return ;;
  esac
  loser=$((3 - winner))
  case $(cat "err.$loser") in
    'dbmtool: fault 2') locked=$((locked + 1)) ;;
    'dbmtool: fault 15') there=$((there + 1)) ;;
    *) wrong "the second of two that make a file ($1) says '$(cat "err.$loser")'" ;;
  esac
  [ ! -s "err.$winner" ] && [ ! -s out.1 ] && [ ! -s out.2 ] || wrong "two that make a file ($1) say something else"
  [ "$1" = none ] || { [ -e met.1 ] && [ -e met.2 ]; } || wrong "two that make a file did not both find none"
  [ -e "stored.$winner" ] || wrong "the one that has made a file ($1) can store nothing there"
  [ "$("$program" dump --text t 2>&1)" = "key$winner"$'\t'"content$winner" ] || wrong "the pair of the one that has made a file ($1) is lost"
  [ "$("$program" stat t | sed -n 2p)" = "limit $((100 + winner))" ] || wrong "the file ($1) has another limit than that of the one that made it"
  [ "$("$program" verify t)" = 1 ] || wrong "the file ($1) does not verify"
}

locked=0 there=0
for _ in $(seq 1 40); do round found; round none; done
echo "of two that make a file at once the second one finds it locked $locked times, and made $there times"
[ $((locked + there)) = 80 ] || wrong "there are $((locked + there)) second ones"

# late HOW: a create that is held up while another one makes the file and stores a pair
late() {
  local pid status=0
  rm -f t.db go waits
  MEET=$1 LD_PRELOAD=./meet.so "$program" create t --limit 7 > out 2> err < /dev/null &
  pid=$!
  for _ in $(seq 1 500); do [ ! -e waits ] || break; sleep 0.01; done
  [ -e waits ] || wrong "a create that is held up ($1) is not"
  "$program" create t --limit 100 && "$program" store t key content || wrong "no file is made beside one that is held up ($1)"
  cp t.db before
  : > go
  wait "$pid" || status=$?
  [ "$status $(cat err)" = '2 dbmtool: fault 15' ] || wrong "a create that was held up ($1): status $status, $(cat err)"
  cmp -s t.db before || wrong "a create that was held up ($1) changes the file that another one has made"
}
late found-late
late made-late

# syncs STATUS FOLDERS WORD..: the command ends so, and syncs these folders, one a line by their inodes, and besides only what files hold
syncs() {
  local wanted=$1 folders=$2 status=0
  shift 2
  rm -f log && : > log
  SYNCS_LOG=$PWD/log LD_PRELOAD=$PWD/syncs.so "$program" "$@" > out 2> err < /dev/null || status=$?
  [ "$status" = "$wanted" ] || wrong "$*: status $status, $(cat err)"
  [ "$(sed -n 's/^fsync folder //p' log)" = "$folders" ] || wrong "$*: these syncs were made: $(cat log)"
  ! grep -qv '^fsync folder\|^fdatasync file' log || wrong "$*: there is another sync: $(cat log)"
}
inode() { stat -c %i "$1"; }
mkdir sub sub/deep && ln -s sub link || exit 1
rm -f t.db
syncs 0 "$(inode .)" create t --limit 100
[ "$(tail -n 1 log)" = "fdatasync file $(inode t.db)" ] || wrong "the last sync of a create is not of the file: $(cat log)"
syncs 0 "$(inode .)" create ./u --limit 100
syncs 0 "$(inode sub)" create sub/t --limit 100
syncs 0 "$(inode sub/deep)" create sub/deep/t --limit 100
syncs 0 "$(inode sub)" create sub/deep/../u --limit 100
syncs 0 "$(inode sub)" create link/v --limit 100
syncs 0 "$(inode sub)" create "$PWD/sub/w" --limit 100
syncs 0 '' store t key content
syncs 0 '' fetch t key
syncs 0 '' dump t
syncs 2 '' create t --limit 100
syncs 2 '' fetch missing key

# a folder that can't be synced
rm -f t.db
export SYNCS_FAILS=folder
syncs 2 "$(inode .)" create t --limit 100
[ "$(cat err)" = 'dbmtool: fault 2' ] || wrong "a folder that can't be synced: $(cat err)"
"$program" fetch t key > out 2> err
[ $? = 2 ] && [ ! -s out ] || wrong "there is a database whose folder was not synced"
unset SYNCS_FAILS

# the empty file that it has left, and one that was made by hand: whoever makes a database of it syncs the folder
[ -e t.db ] && [ ! -s t.db ] || wrong "a create whose folder could not be synced has left no empty file"
syncs 0 "$(inode .)" create t --limit 100
"$program" store t key content && [ "$("$program" fetch t key)" = content ] ||
  wrong "no database can be made where the folder could not be synced once"
: > sub/empty.db
syncs 0 "$(inode sub)" create sub/empty --limit 100
syncs 0 '' store sub/empty key content
exit $bad
