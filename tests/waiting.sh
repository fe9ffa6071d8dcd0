#!/usr/bin/env bash
# With --wait SECONDS in front of the command, or DBMTOOL_WAIT=SECONDS in the environment, a file that another program has open is waited for: the
# command goes on once it is free, and is refused by fault 2 once the seconds are over. Without them that is one second, and with 0 it is refused
# at once.
. "$(dirname "$0")/common"
pid=
trap '[ -z "$pid" ] || kill -9 "$pid" 2> /dev/null; rm -rf "$work"' EXIT
export LC_ALL=C
unset DBMTOOL_WAIT DBMTOOL_VERBOSE

# writes_on NAME: a script has the file open for writing
writes_on() {
  local reply
  rm -f lines replies
  mkfifo lines replies || exit 1
  "$program" script "$1" < lines > replies &
  pid=$!
  exec {to}> lines {from}< replies
  echo 'F 6b' >&"$to"
  read -t 20 -r -u "$from" reply || { echo "the script doesn't answer"; exit 1; }
}

# lets_go: that script ends
lets_go() {
  exec {to}>&- {from}<&-
  wait "$pid" || wrong "the script ends with status $?"
  pid=
}

# took COMMAND..: it runs with no input, and how long it took is in $took, in milliseconds
took() {
  local began=$EPOCHREALTIME ended
  "$@" < /dev/null > out 2> err
  status=$?
  ended=$EPOCHREALTIME
  took=$(((${ended/./} - ${began/./}) / 1000))
}

# is_refused LEAST MOST CAUSE COMMAND..: fault 2 after so many milliseconds, and this second line if any; the file stays
is_refused() {
  local least=$1 most=$2 right="dbmtool: fault 2${3:+$'\n'dbmtool: $3}"
  shift 3
  cp t.db before
  took "$@"
  [ "$status" = 2 ] && [ "$(cat err)" = "$right" ] && [ ! -s out ] || wrong "$*: status $status, $(cat err)"
  ((least <= took && took < most)) || wrong "$*: it takes $took ms"
  cmp -s t.db before || wrong "$*: the file has changed"
}

# waits STATUS TEXT COMMAND..: it is still there after a while in which another program has the file open, and when that lets go it ends so and prints this
waits() {
  local wanted=$1 text=$2 waiting status
  shift 2
  writes_on t
  # without the ends of its pipes
  "$@" < in > out 2> err {to}>&- {from}<&- &
  waiting=$!
  sleep 0.5
  kill -0 "$waiting" 2> /dev/null && [ ! -s out ] && [ ! -s err ] || wrong "$*: it doesn't wait: $(cat err)"
  lets_go
  wait "$waiting"
  status=$?
  [ "$status" = "$wanted" ] && [ "$(cat out)" = "$text" ] && [ ! -s err ] || wrong "$*: status $status, $(cat out err)"
}

"$program" create t --limit 100 && "$program" store t k old || exit 1
: > in
waiting=(env DBMTOOL_WAIT=30 "$program")

# each command has the file once the other program lets go
waits 0 '' "$program" --wait 30 store t k v
waits 0 '' "${waiting[@]}" store t k v
waits 1 '' "$program" --wait=30 insert t k w
waits 0 v "$program" --wait 30 --verbose fetch t k
waits 0 '6b' "${waiting[@]}" list t
waits 0 '6b 76' "$program" --verbose --wait 30 dump t
waits 0 1 "$program" --wait 30 verify t
waits 0 $'version 1\nsyncs 2' "$program" --wait 30 version t
waits 1 '' "$program" --wait 30 delete t absent
waits 0 '' "$program" --wait 30 upgrade t
echo '61 01' > in
waits 0 '' "${waiting[@]}" load t
echo 'F 61' > in
waits 0 01 "$program" --wait 30 script t
waits 0 01 "${waiting[@]}" script t --read
echo 'S 61 02' > in
rehearsed=$("$program" rehearse t --stops 3 < in) || wrong "no rehearsal: $rehearsed"
waits 0 "$rehearsed" "$program" --wait 30 rehearse t --stops 3
waits 0 '' "$program" --wait 30 resize t --limit 200
waits 0 '' "${waiting[@]}" backup t copy
cmp -s t.db copy.db || wrong "the copy isn't what was there when the other program let go"
printf '6b 76\n61 02\n' > in
waits 0 '' "$program" --wait 30 load --replace t
[ "$("$program" fetch -x t 61)" = 02 ] || wrong "the table wasn't replaced"
[ ! -e t.db.new ] && [ ! -e copy.db.new ] || wrong "something is left beside"

# a replacement waits for another one, and reads its text behind that
mkfifo text
"$program" load --replace t < text &
pid=$!
exec {to}> text
for ((i = 0; i < 200; i++)); do [ ! -e t.db.new ] || break; sleep 0.05; done
printf '6b 76\n61 03\n' > in
"$program" --wait 30 load --replace t < in > out 2> err {to}>&- &
other=$!
sleep 0.5
kill -0 "$other" 2> /dev/null || wrong "a replacement doesn't wait for another one: $(cat err)"
echo '6b 76' >&"$to"
exec {to}>&-
wait "$pid" || wrong "the first replacement ends with status $?"
pid=
wait "$other" && [ ! -s err ] || wrong "the second replacement fails: $(cat err)"
[ "$("$program" fetch -x t 61)" = 03 ] || wrong "the table isn't that of the second replacement"
"$program" delete -x t 61 || wrong "a key of the second replacement isn't there"
"$program" store -x t 61 01 || exit 1

# A file that is locked for 0.4 s, as by a call of a program that shares it, is waited for where nobody says how long, and with 0 it isn't.
# locked_for SECONDS: another process has the lock of the file from now on, for so long
locked_for() {
  rm -f locked
  mkfifo locked || exit 1
  (flock -x 9 && echo > locked && exec sleep "$1") 9< t.db &
  pid=$!
  read -t 20 -r _ < locked
}
# behind TEXT COMMAND..: it ends well and prints this, once a lock of 0.4 s has ended
behind() {
  local text=$1
  shift
  locked_for 0.4
  took "$@"
  [ "$status" = 0 ] && [ "$(cat out)" = "$text" ] && [ ! -s err ] || wrong "beside a lock of 0.4 s, $*: status $status, $(cat out err)"
  ((took < 2000)) || wrong "beside a lock of 0.4 s, $*: it takes $took ms"
  wait "$pid"
  pid=
}
behind v "$program" fetch t k
behind '' "$program" store t k v
behind '' env DBMTOOL_WAIT= "$program" store t k v
behind $'version 2\nsyncs 2' "$program" version t
salvaged=$("$program" salvage t) || exit 1
behind "$salvaged" "$program" salvage t
locked_for 20
is_refused 0 900 '' "$program" --wait 0 fetch t k
is_refused 0 900 '' "$program" --wait 0 store t k lost
is_refused 0 900 '' env DBMTOOL_WAIT=0 "$program" version t
{ kill "$pid"; wait "$pid"; } 2> /dev/null
pid=

# a change that the other program made while one waited is seen
writes_on t
"$program" --wait 30 fetch t new > out 2> err {to}>&- {from}<&- &
other=$!
sleep 0.3
echo 'S 6e6577 7365656e' >&"$to"
read -t 20 -r -u "$from" reply
lets_go
wait "$other" && [ "$(cat out)" = seen ] || wrong "what was stored while a fetch waited isn't seen: $(cat out err)"

# the file that has the name when it can be opened is the one that is opened
"$program" create new --limit 100 && "$program" store new k moved || exit 1
cp t.db kept.db
writes_on t
"$program" --wait 30 fetch t k > out 2> err {to}>&- {from}<&- &
other=$!
sleep 0.3
mv new.db t.db
wait "$other" && [ "$(cat out)" = moved ] || wrong "a file that came into the place of the locked one isn't opened: $(cat out err)"
lets_go
mv kept.db t.db

# one that isn't let go is given up after the seconds, and not before
writes_on t
told='t.db: another program has the file open'
is_refused 1000 2500 '' "$program" fetch t k
is_refused 1000 2500 "$told" "$program" --verbose version t
is_refused 0 900 '' "$program" --wait 0 fetch t k
is_refused 1000 2500 '' env DBMTOOL_WAIT= "$program" store t k new
is_refused 0 900 '' env DBMTOOL_WAIT=0 "$program" rehearse t
is_refused 1000 2500 '' "$program" --wait 1 fetch t k
is_refused 2000 3500 "$told" "$program" --wait 2 --verbose store t k new
is_refused 1000 2500 "$told" env DBMTOOL_WAIT=+1 DBMTOOL_VERBOSE=1 "$program" rehearse t
is_refused 1000 2500 "$told" env DBMTOOL_WAIT=1 DBMTOOL_VERBOSE=1 "$program" script --read t
# the words win
is_refused 0 900 "$told" env DBMTOOL_WAIT=30 "$program" --verbose --wait 0 fetch t k
is_refused 1000 2500 '' env DBMTOOL_WAIT=30 "$program" --wait 1 create t
# so are those that replace and copy, which leave nothing beside
is_refused 0 900 "$told" "$program" --wait 0 --verbose resize t
is_refused 1000 2500 "$told" "$program" --wait 1 --verbose resize t
is_refused 1000 2500 "$told" "$program" --wait 1 --verbose backup t other
is_refused 1000 2500 '' "$program" --wait 1 load --replace t
[ ! -e t.db.new ] && [ ! -e other.db ] && [ ! -e other.db.new ] || wrong "something is left beside a table that was locked"

# who needs no file that is locked waits for nothing
for words in 'fetch none k' 'create none/below' 'script --memory 5' 'faults'; do
  # shellcheck disable=SC2086
  took "$program" --wait 30 $words
  ((took < 900)) || wrong "$words: it takes $took ms"
done
lets_go

# seconds that make no sense
usage='dbmtool: DBMTOOL_WAIT is no number of seconds from 0 to 86400'
for value in -1 1.5 86401 4294967297 many '1 ' ' ' + 0x1 $'\xff'; do
  for words in 'fetch t k' 'faults' '--wait 1 fetch t k' '--help'; do
    # shellcheck disable=SC2086
    took env DBMTOOL_WAIT="$value" "$program" $words
    [ "$status" = 3 ] && [ "$(cat err)" = "$usage" ] && [ ! -s out ] || wrong "DBMTOOL_WAIT='$value', $words: status $status, $(cat err)"
  done
done
for value in 1.5 86401 4294967297 many ''; do
  took "$program" --wait "$value" fetch t k
  [ "$status" = 3 ] && grep -q -- '--wait' err && [ ! -s out ] || wrong "--wait '$value': status $status, $(cat err)"
done
for words in '--wait' 'fetch t k --wait 1' '--wait 1 --wait 1 fetch t k'; do
  # shellcheck disable=SC2086
  took "$program" $words
  [ "$status" = 3 ] && grep -q -- '--wait' err || wrong "$words: status $status, $(cat err)"
done
[ "$("$program" --wait 86400 fetch t k)" = v ] && [ "$(DBMTOOL_WAIT=86400 "$program" fetch t k)" = v ] || wrong "a day is not taken"
exit $bad
