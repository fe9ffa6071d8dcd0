#!/usr/bin/env bash
# Programs side by side at one file: while one has it open for writing no other opens it, and those that only read have it open
# together. What is refused is fault 2 and changes nothing, and a lock ends with its program, however that ends. A file that another one takes the place
# of, just before it is locked, is not written: that is refused as a locked one is.
. "$(dirname "$0")/common"
pid=
trap '[ -z "$pid" ] || kill -9 "$pid" 2> /dev/null; rm -rf "$work"' EXIT

# writes_on: a script has the file open for writing, and has stored a pair
writes_on() {
  local reply
  rm -f lines replies
  mkfifo lines replies || exit 1
  "$program" script t < lines > replies &
  pid=$!
  exec {to}> lines {from}< replies
  echo 'S 6b 76' >&"$to"
  read -t 20 -r -u "$from" reply
  [ "$reply" = 0 ] || { echo "the script's store is answered by '$reply'"; exit 1; }
}

# lists_on: a listing, longer than a pipe holds, has the file open for reading
lists_on() {
  local line
  rm -f listed
  mkfifo listed || exit 1
  "$program" list t > listed &
  pid=$!
  exec {from}< listed
  read -t 20 -r -u "$from" line
  [ -n "$line" ] || { echo "the listing has no first line"; exit 1; }
}

# is_refused WORDS..: fault 2 where it isn't waited, with nothing printed and the file as it was
is_refused() {
  local status
  cp t.db before
  "$program" --wait 0 "$@" < /dev/null > out 2> err
  status=$?
  [ "$status" = 2 ] || wrong "$*: status $status, and not 2"
  [ "$(cat err)" = 'dbmtool: fault 2' ] || wrong "$*: it says '$(cat err)'"
  [ ! -s out ] || wrong "$*: it prints '$(head -c 80 out)'"
  cmp -s t.db before || wrong "$*: the file has changed"
}

# answers STATUS TEXT WORDS..: the command ends so, and prints this
answers() {
  local status wanted=$1 text=$2 found
  shift 2
  found=$("$program" "$@" < /dev/null 2> err)
  status=$?
  [ "$status" = "$wanted" ] || wrong "$*: status $status, and not $wanted: $(cat err)"
  [ "$found" = "$text" ] || wrong "$*: it prints '$found', and not '$text'"
}

"$program" create t --limit 10000 || exit 1

# beside a writer
writes_on
for command in list dump stat version verify load script rehearse salvage; do is_refused "$command" t; done
is_refused fetch t k
is_refused store t a b
is_refused insert t a b
is_refused delete t k
is_refused create t
echo 'F 6b' >&"$to"
read -t 20 -r -u "$from" reply
[ "$reply" = 76 ] || wrong "the script's fetch is answered by '$reply'"
exec {to}>&- {from}<&-
wait "$pid" || wrong "the script ends with status $?"
pid=
answers 0 v fetch t k

# a writer that was killed
writes_on
{ kill -9 "$pid"; wait "$pid"; } 2> /dev/null
pid=
exec {to}>&- {from}<&-
answers 0 '' store t a b
answers 0 b fetch t a

# beside a reader
for n in $(seq 4000); do printf '%032x 76\n' "$n"; done | "$program" load t || exit 1
lists_on
answers 0 v fetch t k
answers 1 '' fetch t absent
answers 0 $'version 1\nsyncs 2' version t
is_refused store t a c
is_refused create t
left=$(wc -l <&"$from")
[ "$left" = 4001 ] || wrong "$left lines are left of the listing, and not 4001"
exec {from}<&-
wait "$pid" || wrong "the listing ends with status $?"
pid=
answers 0 '' store t a c
answers 0 c fetch t a

# another file takes the place of one that was opened and isn't locked yet
preloadable replace
"$program" create next --limit 100 && "$program" store next k new && cp next.db new.db && ln t.db old.db && cp t.db before || exit 1
status=0
REPLACE=t.db REPLACE_BY=next.db LD_PRELOAD=./replace.so "$program" --wait 0 store t k lost > out 2> err || status=$?
[ "$status $(cat err)" = '2 dbmtool: fault 2' ] || wrong "a store in a file that was replaced: status $status, $(cat err)"
cmp -s t.db new.db && cmp -s old.db before || wrong "a store in a file that was replaced changes one of the two"
answers 0 '' store t k stored
answers 0 stored fetch t k
# where it is waited, the file that has the name then is opened
cp new.db next.db && cp t.db before && ln -f t.db old.db || exit 1
REPLACE=t.db REPLACE_BY=next.db LD_PRELOAD=./replace.so "$program" store t k later 2> err || wrong "a store that waits in a file that was replaced: $(cat err)"
cmp -s old.db before || wrong "a store that waits changes a file that was replaced"
answers 0 later fetch t k
answers 0 '' store t k stored
cp new.db next.db
REPLACE=t.db REPLACE_BY=next.db LD_PRELOAD=./replace.so "$program" fetch t k > out 2> err && [ "$(cat out)" = stored ] || wrong "a file that was replaced isn't read: $(cat err)"
[ "$bad" = 0 ]
