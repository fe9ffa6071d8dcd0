#!/usr/bin/env bash
# Rehearsals, on new databases and on copies of files, of both versions of the format: each stop is kept, the counts agree, and the file stays as
# it is.
. "$(dirname "$0")/common"
wrong() { echo "$1"; cat out err; bad=1; }

# count NAME: what was printed behind this name
count() { sed -n "s/^$1 //p" out; }

# is_kept CALLS WORD..: a rehearsal of the lines in the file `in` makes so many calls, and keeps each of its stops
is_kept() {
  local calls=$1; shift
  "$program" rehearse "$@" < in > out 2> err || { wrong "rehearse $*: status $?"; return; }
  [ ! -s err ] && [ "$(count calls)" = "$calls" ] && [ "$(tail -n 5 out | sed 's/ [0-9]*$//' | xargs)" = 'calls device calls stops reopened kept' ] ||
    wrong "rehearse $*: another output"
  [ "$(count stops)" = "$(count reopened)" ] && [ "$(count stops)" = "$(count kept)" ] || wrong "rehearse $*: a stop isn't kept"
}

# stops_everywhere: there was a stop before each device call
stops_everywhere() { [ "$(count stops)" = "$(count 'device calls')" ] && [ "$(count stops)" -gt 0 ] || wrong "some stops are missing"; }

# a new database: nine stores split its bucket, and pairs are changed and deleted
printf 'S 6%s 0%s\n' 1 1 2 2 3 3 4 4 5 5 6 6 7 7 8 8 9 9 > in
printf 'I 61 ff\nS 62 ff\nD 63\nD 63\nF 64\n' >> in
is_kept 14 --memory 100
stops_everywhere
"$program" rehearse --memory 100 < in > again && cmp -s out again || wrong "the same rehearsal ends otherwise"
calls=$(count 'device calls')
is_kept 14 --memory 100 --stops 7
[ "$(count stops)" = 7 ] && [ "$(count 'device calls')" = "$calls" ] || wrong "there aren't seven stops"
is_kept 14 --memory 100 --stops "$((calls + 1))"
stops_everywhere

# a limit that is reached, and bad lines
printf 'S 61 01\nQ\nS 62 02\nD 61\nS 6\nS 62 02\n' > in
is_kept 4 --memory 1
stops_everywhere
[ "$(head -n 2 out)" = $'-1 line\n-1 line' ] && [ "$(wc -l < out)" = 7 ] || wrong "bad lines are told otherwise"
: > in
is_kept 0 --memory 1

# a file, whose pairs are in the way of the calls; it stays as it is, and others may read it meanwhile
"$program" create t --limit 100 && printf '6%s 0%s\n' 1 1 2 2 3 3 4 4 5 5 6 6 7 7 8 8 | "$program" load t || wrong "no file was made"
cp t.db before
printf 'S 69 09\nD 61\nS 62 ff\nI 62 00\n' > in
is_kept 4 t
stops_everywhere
cmp -s t.db before || wrong "a rehearsal changed the file"
[ "$("$program" stat t | head -n 1)" = 'pairs 8' ] || wrong "the file has other pairs"

# one of which a commit was cut short, so that its first sector is another
preloadable fail
FAIL_CALL=0 LD_PRELOAD=./fail.so "$program" store t 69 09 -x 2> err || wrong "a store failed with no failed call"
armed=
for n in $(seq 1 "$(sed -n 's/^calls //p' err)"); do
  cp before t.db
  FAIL_CALL=$n LD_PRELOAD=./fail.so "$program" store t 69 09 -x > out 2> err && wrong "call $n failed, and the store didn't"
  cmp -s <(head -c 512 t.db) <(head -c 512 before) || { armed=$n; break; }
done
[ -n "$armed" ] || wrong "no commit was cut short"
cp t.db cut
is_kept 4 t
stops_everywhere
cmp -s t.db cut || wrong "a rehearsal settled the file"

# one that counts a pair more than it has
cp before t.db && "$program" delete t 61 -x || wrong "no pair was deleted"
printf '\10' | dd of=t.db bs=1 seek=$((2048 + 27)) conv=notrunc status=none
"$program" rehearse t < in > out 2> err; [ $? = 2 ] && [ ! -s out ] && [ "$(cat err)" = 'dbmtool: fault 9' ] || wrong "a file that lacks a pair is rehearsed"

# A database that is wrong: the pages of one content are the last two of another one, so that a delete destroys both. Each stop from the write of
# the armed sector on is told as lost. Behind that write come a sync, and in the closing four pages of four sectors, the clear sector and two syncs.
times() { printf "$2%.0s" $(seq "$1"); }
"$program" create wrong --limit 100 --v2 && printf 'S 6e 01\nS 66 %s\nS 6f %s\n' "$(times 5000 07)" "$(times 2968 08)" |
  "$program" script wrong > out && [ "$(sort -u out)" = 0 ] || wrong "no file of far pairs was made"
printf '\5' | dd of=wrong.db bs=1 seek=$((3 * 2048 + 2040)) conv=notrunc status=none
[ "$("$program" dump wrong)" = "66 $(times 5000 07)"$'\n6e 01\n6f '"$(times 2968 07)" ] || wrong "the two contents don't share their pages"
echo 'D 6f' | "$program" rehearse wrong > out 2> err; [ $? = 2 ] || wrong "a delete that destroys another content is kept"
lost=$(($(count 'device calls') - (4 * 4 + 1 + 1 + 1) - 1))
[ "$(cat err)" = "dbmtool: stop $lost" ] || wrong "another first stop is told than $lost"
[ "$(count kept)" = $((lost)) ] && [ "$(count reopened)" = "$(count 'device calls')" ] || wrong "other stops are kept than those before $lost"
echo 'D 6e' | "$program" rehearse wrong > out 2> err || wrong "a delete of the third pair isn't kept"
stops_everywhere

# Far pairs. A content of 2,033 bytes has two pages, each of which is written as a redo image and in its place, in four sectors: 16 writes more than
# for a near pair. In version 1 the pair is refused, and nothing is written for it.
far=$(printf '07%.0s' $(seq 2033))
echo 'S 61 01' > in
is_kept 1 --memory 1 --v2
near=$(count 'device calls')
echo "S 61 $far" > in
is_kept 1 --memory 1 --v2
stops_everywhere
[ "$(count 'device calls')" = $((near + 16)) ] || wrong "a far pair takes other than 16 device calls more than a near one's $near"
is_kept 1 --memory 1
[ "$(count 'device calls')" -lt "$near" ] || wrong "a refused pair takes device calls"
# put, replaced by another far one, and deleted
printf 'S 61 %s\nS 61 %s\nD 61\n' "$far" "${far//7/8}" > in
is_kept 3 --memory 1 --v2
stops_everywhere

# A file of version 2 with seven near pairs, a far one of which the content has two pages, and two free pages. The ninth pair opens a bucket.
"$program" create far --limit 100 --v2 && printf '6%s 0%s\n' 1 1 2 2 3 3 4 4 5 5 6 6 7 7 8 8 | "$program" load far || wrong "no file was made"
printf 'S 68 %s\nS 67 %s\nS 67 07\n' "$far" "$far" | "$program" script far > out 2> err
[ "$("$program" stat far | cut -d' ' -f2 | xargs)" = '8 100 1 0 0 8 2' ] || wrong "the file has other pages"
cp far.db before
printf 'S 69 %s\nD 68\n' "${far//7/9}" > in
is_kept 2 far
stops_everywhere
cmp -s far.db before || wrong "a rehearsal changed the file"

# A content of 15 pages is written as redo images and in its place; the pages of one of 16 are new ones that come to their places at once.
long=$(times 30480 07)
echo "S 61 $long" > in
is_kept 1 --memory 1 --v2
[ "$(count 'device calls')" = $((near + 15 * 8)) ] || wrong "15 new pages take other than 120 device calls more than none"
long=$(times 32512 07)
echo "S 61 $long" > in
is_kept 1 --memory 1 --v2
stops_everywhere
[ "$(count 'device calls')" = $((near + 16 * 4)) ] || wrong "16 new pages take other than 64 device calls more than none"
# a row of such stores, of which one brings the pages of the one before home, and another takes pages that were given back
printf 'S 61 %s\nS 62 %s\nD 61\nS 63 %s\nS 61 %s00\n' "$long" "$long" "$long" "$long" > in
is_kept 5 --memory 9 --v2
stops_everywhere

# what is no database, or isn't there
printf hello > text.db
for row in 'text 10' 'absent 14'; do
  "$program" rehearse "${row% *}" < in > out 2> err
  [ $? = 2 ] && [ ! -s out ] && [ "$(cat err)" = "dbmtool: fault ${row#* }" ] || wrong "rehearse ${row% *} isn't refused by fault ${row#* }"
done
mkdir folder.db
"$program" rehearse folder < in > out 2> err; [ $? = 2 ] && [ "$(cat err)" = 'dbmtool: fault 2' ] || wrong "a folder is rehearsed"
"$program" rehearse --memory 0 < in > out 2> err; [ $? = 2 ] && [ "$(cat err)" = 'dbmtool: fault 13' ] || wrong "a limit of 0 is taken"
exit $bad
