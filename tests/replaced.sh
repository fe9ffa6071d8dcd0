#!/usr/bin/env bash
# Tables that are replaced whole, by a load, by a resize, and copied by a backup. Wherever the program is killed, and whichever call of the system
# fails, the table is the old one or the new one, whole, and what is left beside it is taken away by the next one. Who reads the old table goes on, no
# program writes it meanwhile, and of two replacements at once one is refused. Owner and mode are kept, and a bad line leaves the old table.
. "$(dirname "$0")/common"
pid=
trap '[ -z "$pid" ] || kill -9 "$pid" 2> /dev/null; rm -rf "$work"' EXIT
preloadable ends
preloadable fail

for n in 1 2 3 4 5; do printf '6f%02x 0%s\n' "$n" "$n"; done > old
{ for n in $(seq 1 20); do printf '6e%02x %04x\n' "$n" "$n"; done; printf '7a %s\n' "$(printf '07%.0s' $(seq 3000))"; } > new
"$program" create first --limit 100 --v2 && "$program" load first < old || exit 1

# is FILE NAME: the table has exactly these pairs, and is whole
is() {
  local pairs
  pairs=$("$program" verify "$2" 2> /dev/null < /dev/null) && [ "$pairs" = "$(wc -l < "$1")" ] && "$program" dump "$2" < /dev/null | cmp -s - "$1"
}

# ends STATUS TEXT WORD..: the command on the input of the name `input` ends so, with this text on standard error, and prints nothing
ends() {
  local status=0 wanted=$1 text=$2
  shift 2
  "$program" "$@" < "$input" > out 2> err || status=$?
  [ "$status" = "$wanted" ] && [ "$(cat err)" = "$text" ] && [ ! -s out ] || wrong "$*: status $status, '$(head -c 80 err)', prints '$(head -c 80 out)'"
}

# stays WORD..: the same, and the table t is the same file with the same bytes, and nothing is left beside it
stays() {
  local kept
  cp t.db before
  kept=$(stat -c '%i %s %y %a %u %g' t.db)
  ends "$@"
  [ "$(stat -c '%i %s %y %a %u %g' t.db)" = "$kept" ] && cmp -s t.db before || wrong "${*:3}: the table has changed"
}
alone() { [ "$(ls -d t.db* 2> /dev/null)" = t.db ] || wrong "$1: there are $(ls -d t.db* | xargs)"; }
afresh() { rm -rf t.db t.db.new c.db c.db.new; cp first.db t.db; }
limit_of() { "$program" stat "$1" | sed -n 2p; }

# what each does
afresh
input=new ends 0 '' load --replace t
is new t || wrong "a replaced table has other pairs"
[ "$(limit_of t)" = 'limit 100' ] || wrong "a replaced table has another limit: $(limit_of t)"
alone 'a replaced table'
input=old ends 0 '' load --replace --limit 7 t
is old t && [ "$(limit_of t)" = 'limit 7' ] || wrong "a table that is replaced with another limit has other pairs, or $(limit_of t)"
printf 'k\tv\\t\n' > text
input=text ends 0 '' load --replace --text t
[ "$("$program" dump --text t)" = 'k'$'\t''v\t' ] || wrong "a table that is replaced by a text has other pairs"
input=/dev/null ends 0 '' load --replace t
is /dev/null t || wrong "a table that is replaced by nothing has pairs"
afresh
input=/dev/null ends 0 '' resize t --limit 5
is old t && [ "$(limit_of t)" = 'limit 5' ] || wrong "a table that is resized has other pairs, or $(limit_of t)"
input=/dev/null ends 0 '' resize t --limit 1000000
is old t && [ "$(limit_of t)" = 'limit 1000000' ] || wrong "a table that is resized has other pairs, or $(limit_of t)"
alone 'a resized table'
input=/dev/null ends 0 '' backup t c
is old c && cmp -s t.db c.db && [ ! -e c.db.new ] || wrong "a copy is another table"

# of versions, and in a folder: a table of version 1 stays one, which is told by a content that only version 2 takes
mkdir sub && "$program" create sub/one --limit 100 && "$program" load sub/one < old || exit 1
input=old ends 0 '' load --replace sub/one
input=/dev/null ends 0 '' resize sub/one --limit 50
input=new ends 2 'dbmtool: fault 5' load --replace sub/one
is old sub/one && [ "$(ls sub)" = one.db ] || wrong "a table of version 1 in a folder is another one, or there are $(ls sub | xargs)"
afresh
input=new ends 0 '' load --replace t
input=/dev/null ends 0 '' resize t --limit 21
is new t || wrong "a table with a far pair that is resized has other pairs"

# a table with a great deal less than it had takes less room once it is resized
"$program" create big --limit 10000 || exit 1
awk 'BEGIN { for (i = 0; i < 9000; i++) printf "%08x %064d\n", i, i }' > many
"$program" load big --group 1000 < many && tail -n +11 many | awk '{ print "D " $1 }' | "$program" script big > out || exit 1
head -n 10 many > few
size=$(stat -c %s big.db)
input=/dev/null ends 0 '' resize big
is few big && [ "$(stat -c %s big.db)" -lt $((size / 10)) ] || wrong "a table of 10 pairs that had 9,000 has $(stat -c %s big.db) of $size bytes, or other pairs"

# what is refused
afresh
printf '6e 01\nbad\n6f 02\n' > bad_line
input=bad_line stays 2 'dbmtool: line 2' load --replace t
alone 'a bad line'
input=old stays 2 'dbmtool: fault 6' load --replace --limit 4 t
input=/dev/null stays 2 'dbmtool: fault 6' resize t --limit 4
input=old stays 2 'dbmtool: fault 13' load --replace --limit 0 t
input=old stays 2 'dbmtool: fault 13' load --replace --limit 1000001 t
input=/dev/null stays 2 'dbmtool: fault 13' resize t --limit 1000001
input=/ stays 2 'dbmtool: read' load --replace t
input=old ends 2 'dbmtool: fault 14' load --replace missing
input=old ends 2 'dbmtool: fault 14' load --replace missing/t
input=/dev/null ends 2 'dbmtool: fault 14' resize missing
input=/dev/null ends 2 'dbmtool: fault 14' backup missing c
[ -z "$(ls -d missing* c.db* 2> /dev/null)" ] || wrong "of a missing table there are $(ls -d missing* c.db*)"
cp t.db c.db
input=/dev/null stays 2 'dbmtool: fault 15' backup first t
input=/dev/null stays 2 'dbmtool: fault 15' backup t t
alone 'what is refused'
head -c 1000 /dev/urandom > t.db
input=old stays 2 'dbmtool: fault 10' load --replace t
input=/dev/null stays 2 'dbmtool: fault 10' resize t
rm c.db
input=/dev/null stays 2 'dbmtool: fault 10' backup t c
[ -z "$(ls -d c.db* 2> /dev/null)" ] || wrong "of a file that is no table there is a copy"
alone 'a file that is no table'
# a table that counts six pairs and has five, in the meta page, which is page 1 of 2,048 bytes: it isn't copied, and a load takes its place
afresh
printf '\0\0\0\6' | dd of=t.db bs=1 seek=$((2048 + 24)) conv=notrunc status=none
input=/dev/null stays 2 'dbmtool: fault 9' backup t c
input=/dev/null stays 2 'dbmtool: fault 9' resize t
[ -z "$(ls -d c.db* 2> /dev/null)" ] || wrong "of a damaged table there is a copy"
alone 'a damaged table'
input=new ends 0 '' load --replace t
is new t || wrong "a damaged table is not replaced"
afresh
ln -s t.db l.db
kept=$(readlink l.db)
input=new stays 2 'dbmtool: fault 2' load --replace l
[ "$(readlink l.db)" = "$kept" ] && is old t || wrong "a symbolic link is replaced"
rm l.db

# owner and mode
chmod 640 t.db
if [ "$(id -u)" = 0 ]; then chown 1234:2345 t.db; else echo "another owner was not tried: only root can give files away"; fi
kept=$(stat -c '%a %u %g' t.db)
input=new ends 0 '' load --replace t
[ "$(stat -c '%a %u %g' t.db)" = "$kept" ] || wrong "a replaced table has $(stat -c '%a %u %g' t.db) for $kept"
input=/dev/null ends 0 '' resize t --limit 40
[ "$(stat -c '%a %u %g' t.db)" = "$kept" ] || wrong "a resized table has $(stat -c '%a %u %g' t.db) for $kept"
input=/dev/null ends 0 '' backup t c
[ "$(stat -c '%a %u %g' c.db)" = "$kept" ] || wrong "a copy has $(stat -c '%a %u %g' c.db) for $kept"
# somebody who may write the folder and read the table, but may not give a file to its owner
if [ "$(id -u)" = 0 ]; then
  mkdir open && chmod 777 open && cp first.db open/t.db && chmod 644 open/t.db && cp "$program" tool && chmod 755 . tool
  status=0
  (cd open && setpriv --reuid=65534 --regid=65534 --clear-groups ../tool load --replace t) < old 2> err || status=$?
  [ "$status $(cat err)" = '2 dbmtool: fault 2' ] && is old open/t && [ "$(ls open)" = t.db ] || wrong "a table of another owner: $status, $(cat err), $(ls open | xargs)"
fi

# what a stopped one has left is taken away, whatever it is, but for what another program has locked, and what is no file of its own
afresh
for left in "$program" first.db /dev/null; do
  cp "$left" t.db.new && chmod 600 t.db.new
  input=new ends 0 '' load --replace t
  is new t || wrong "beside what was left, a replaced table has other pairs"
  alone 'what was left'
done
afresh
cp old t.db.new
exec {held}<> t.db.new
flock -n "$held" || exit 1
input=new stays 2 'dbmtool: fault 2' load --replace t
input=/dev/null stays 2 'dbmtool: fault 2' resize t
cmp -s old t.db.new || wrong "what another program has locked is changed"
exec {held}<&-
rm t.db.new && mkdir t.db.new
input=new stays 2 'dbmtool: fault 2' load --replace t
[ -d t.db.new ] || wrong "a folder beside the table is gone"
rmdir t.db.new
for to in t.db none; do
  ln -s "$to" t.db.new
  input=new stays 2 'dbmtool: fault 2' load --replace t
  [ "$(readlink t.db.new)" = "$to" ] && [ ! -e none ] || wrong "a link beside the table is followed, or gone"
  rm t.db.new
done
# a backup that was stopped between its two last steps: the copy has both names
ln t.db t.db.new
input=new ends 0 '' load --replace t
is new t || wrong "beside its own second name a table is replaced by other pairs"
alone 'a second name'

# a writer has the table: it is neither replaced nor copied
afresh
mkfifo lines replies
"$program" script t < lines > replies & pid=$!
exec {to}> lines {from}< replies
echo 'S 6b 76' >&"$to"
read -t 20 -r -u "$from" reply
[ "$reply" = 0 ] || wrong "a script's store is answered by '$reply'"
input=new stays 2 'dbmtool: fault 2' load --replace t
input=/dev/null stays 2 'dbmtool: fault 2' resize t
input=/dev/null stays 2 'dbmtool: fault 2' backup t c
exec {to}>&- {from}<&-
wait "$pid"; pid=
alone 'beside a writer'

# a reader has the old table, and goes on with it; the next one has the new table
afresh
input=many ends 0 '' load --replace --limit 10000 t
mkfifo listed
"$program" list t > listed & pid=$!
exec {from}< listed
read -t 20 -r -u "$from" line
input=new ends 0 '' load --replace t
is new t || wrong "beside a reader, a replaced table has other pairs"
{ echo "$line"; cat <&"$from"; } | cmp -s - <(cut -d' ' -f1 many) || wrong "who reads the old table does not go on"
exec {from}<&-
wait "$pid" || wrong "who reads the old table ends with status $?"
pid=

# while a replacement goes on the table is read, and not written; a second replacement is refused, and the first one goes on
afresh
mkfifo slowly
"$program" load --replace t < slowly 2> err.first & pid=$!
exec {to}> slowly
head -n 3 new >&"$to"
for _ in $(seq 1 1000); do [ ! -e t.db.new ] || flock -n -E 9 t.db.new true || break; sleep 0.01; done
cp t.db before
is old t || wrong "while it is replaced a table can't be read"
input=new ends 2 'dbmtool: fault 2' load --replace t
input=/dev/null ends 2 'dbmtool: fault 2' resize t
input=/dev/null ends 2 'dbmtool: fault 2' --wait 0 store t a b
input=/dev/null ends 0 '' backup t c
is old c || wrong "while it is replaced a table is not copied"
cmp -s t.db before || wrong "while it is replaced a table changes"
tail -n +4 new >&"$to"
exec {to}>&-
wait "$pid" || wrong "a replacement beside another one: status $?, $(cat err.first)"
pid=
is new t || wrong "a replacement beside another one has left other pairs"
alone 'two replacements'

# many at once: the table is that of one of them, and nothing is left
for round in $(seq 1 15); do
  afresh
  pids=()
  for n in 1 2 3 4 5 6; do
    for m in $(seq 1 30); do printf '%02x%02x %02x\n' "$n" "$m" "$n"; done > "pairs.$n"
    "$program" load --replace t < "pairs.$n" 2> "err.$n" & pids+=($!)
  done
  done=() last=
  for n in 1 2 3 4 5 6; do
    if wait "${pids[$((n - 1))]}"; then done+=("$n"); else [ "$(cat "err.$n")" = 'dbmtool: fault 2' ] || wrong "one of many: $(cat "err.$n")"; fi
  done
  for n in "${done[@]}"; do ! is "pairs.$n" t || last=$n; done
  [ -n "$last" ] || wrong "round $round: of many replacements at once, ${#done[@]} of them done, none is left"
  # one that was refused has left nothing that the next one does not take away
  input=old ends 0 '' load --replace t
  is old t || wrong "round $round: behind many replacements one more leaves other pairs"
  alone 'many at once'
done

# closed streams: what is written to them does not land in a file
afresh
"$program" load --replace t < new 2>&- >&- && is new t || wrong "with closed streams a table is not replaced"
"$program" resize t <&- 2>&- >&- && is new t || wrong "with all streams closed a table is not resized"
"$program" backup t c <&- 2>&- >&- && is new c || wrong "with all streams closed a table is not copied"
"$program" load --replace t < bad_line 2>&- >&- && wrong "with closed streams a bad line is loaded"
is new t || wrong "with closed streams a bad line changes the table"
"$program" load --replace t <&- 2> err; status=$?
[ "$status $(cat err)" = '2 dbmtool: read' ] && is new t || wrong "with a closed input: status $status, $(cat err)"
alone 'closed streams'

# a source whose last commit is not in its place: the copy has what was acknowledged
afresh
for n in $(seq 1 100); do
  FAIL_CALL=$n FAIL_HOW=from LD_PRELOAD=./fail.so "$program" script t <<< 'S ff 01' > out 2> err
  [ "$(cat out)" != 0 ] || break
  cp first.db t.db
done
[ "$(cat out)" = 0 ] || wrong "no store was cut short behind its answer"
{ cat old; echo 'ff 01'; } > armed
rm -f c.db
input=/dev/null ends 0 '' backup t c
is armed c || wrong "the copy of a table whose last commit was cut short lacks it"
input=/dev/null ends 0 '' resize t
is armed t || wrong "a resized table whose last commit was cut short lacks it"

# each call of the system: killed in its place and behind it, and failed. WANTED is what the command leaves in the end
ended() {
  local how=$1 wanted=$2 calls n status olds=0 news=0 left=0
  shift 2
  afresh
  END_CALL=0 LD_PRELOAD=./ends.so "$program" "$@" < new > out 2> err || { wrong "$*: it fails with no failed call: $(cat err)"; return; }
  calls=$(sed -n 's/^calls //p' err)
  for n in $(seq 1 "${calls:-0}"); do
    afresh
    status=0
    { END_CALL=$n END_HOW=$how LD_PRELOAD=./ends.so "$program" "$@" < new > out 2> err; } 2> /dev/null || status=$?
    case $how in
      failed) [ "$status $(cat err)" = '2 dbmtool: fault 2' ] || wrong "$*, call $n of $calls failed: status $status, $(cat err)" ;;
      *) [ "$status" = 137 ] || wrong "$*, call $n of $calls, killed: status $status, $(cat err)" ;;
    esac
    if [ "$1" = backup ]; then
      is old t && cmp -s t.db first.db || wrong "$*, call $n of $calls, $how: the table has changed"
      if [ ! -e c.db ]; then olds=$((olds + 1)); elif is old c; then news=$((news + 1)); else wrong "$*, call $n of $calls, $how: the copy is another"; fi
      [ ! -e c.db.new ] || left=$((left + 1))
      rm -f c.db
      input=new ends 0 '' "$@"
      is old c && [ ! -e c.db.new ] || wrong "$*, call $n of $calls, $how: the next one does not copy, or leaves something"
      continue
    fi
    if cmp -s t.db first.db; then olds=$((olds + 1)); elif is "$wanted" t; then news=$((news + 1)); else wrong "$*, call $n of $calls, $how: the table is another"; fi
    [ ! -e t.db.new ] || left=$((left + 1))
    "$program" store t later 1 && [ "$("$program" fetch t later)" = 1 ] || wrong "$*, call $n of $calls, $how: the table can't be changed"
    input=old ends 0 '' load --replace t
    is old t || wrong "$*, call $n of $calls, $how: the next one has other pairs"
    alone "$*, call $n of $calls, $how: the next one"
  done
  echo "$*: of $calls calls $how, $olds left the old one and $news the new one, and $left something beside it"
  ((olds > 0 && news > 0)) || wrong "$*, $how: too few to tell anything"
  [ "$how" != failed ] || ((left <= 5)) || wrong "$*: $left of $calls failed calls leave something beside the table"
}
for how in before behind failed; do
  ended "$how" new load --replace t
  ended "$how" old resize t --limit 50
  ended "$how" old backup t c
done
exit $bad
