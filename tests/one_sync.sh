#!/usr/bin/env bash
# Files of the second kind, whose commits in a row are in a log. A row of stores takes about one sync each there, and two in a file of the first kind.
# A row of both kinds is cut short behind calls of the system, where the sectors that no sync came behind are kept or lost, all, by halves, by turns
# or drawn: the file then has the pairs that were acknowledged, and of the others at most the one that was on its way; so it has where the opening
# behind it is cut short as well. A closing leaves the log as it is, and so an opening, a store and a closing take two syncs. A file that a killed program has left logging is read as it is, which changes no byte of it, and the next
# opening for writing goes on in its log. `upgrade --syncs` changes one byte of the commit sector and no other, also where they are cut short.
# What builds a table anew keeps the kind. What `verify` says of logs with changed bytes is compared with a plain look at the file.
. "$(dirname "$0")/common"
preloadable fail
cc -O1 -o count "$top/tests/plain_count.c" "$top/tests/plain_check.c" || exit 1
pid=
trap '[ -z "$pid" ] || kill -9 "$pid" 2> /dev/null; rm -rf "$work"' EXIT

# is NAME KIND STATE WHAT: a file is of the kind 1 or 2, and its commit sector clear (0), armed (1) or logging (2)
is() {
  local found
  found="$(head -c 8 "$1.db") $((16#$(xxd -p -s 8 -l 4 "$1.db")))"
  [ "$found" = "DBMREDO$2 $3" ] || wrong "$4: the commit sector says $found, and not DBMREDO$2 $3"
}

# rests NAME KIND WHAT: a file is of the kind, and its commit sector clear, or logging where the kind allows that
rests() {
  local state=$((16#$(xxd -p -s 8 -l 4 "$1.db")))
  [ "$state" = 0 ] || [ "$2 $state" = '2 2' ] || wrong "$3: the commit sector has the state $state"
  is "$1" "$2" $state "$3"
}

# but_turn FILE: the bytes of a file without its turn number
but_turn() { head -c 512 "$1"; tail -c +521 "$1"; }

# the words by which `create` and `upgrade` are asked for the second kind, and `upgrade` for the first
by_log=(--syncs 1) by_images=(--syncs 2)

# made NAME KIND WORD..: a new file of this kind
made() { if [ "$2" = 2 ]; then "$program" create "$1" "${by_log[@]}" "${@:3}"; else "$program" create "$1" "${@:3}"; fi || exit 1; }

# map LINES: the pairs that are left by the lines of a script, as a dump prints them
map() { awk '$1 == "S" { pairs[$2] = $3 } $1 == "D" { delete pairs[$2] } END { for (key in pairs) print key, pairs[key] }' "$1" | LC_ALL=C sort; }

# has NAME PAIRS WHAT: a file has these pairs for a reader, and is a good one for the program and by the format
has() {
  "$program" dump "$1" > seen 2> err && cmp -s seen "$2" || { wrong "$3: a reader finds other pairs: $(cat err)"; return 1; }
  [ "$("$program" verify "$1" 2>&1) $(./count "$1.db")" = "$(wc -l < "$2") $(wc -l < "$2")" ] || { wrong "$3: the file is no good one"; return 1; }
}

# stores FROM TO CONTENT..: lines that store the contents in turn under these keys
stores() { awk -v from="$1" -v to="$2" -v all="${*:3}" 'BEGIN { n = split(all, it, " "); for (k = from; k <= to; k++) printf "S %04x %s\n", k, it[k % n + 1] }'; }

# ---- how many syncs and writes a row of 300 stores takes, of new keys and of those that are there
stores 1 300 0a0b 0c > new
stores 1 100 0d > there
{ stores 1 100 01; stores 1 100 0203; stores 1 100 04; } > replacing
map there > there.pairs
for kind in 1 2; do
  for row in new replacing; do
    made t $kind --limit 1000
    [ $row = new ] || "$program" load t < there.pairs || exit 1
    rm -f trace
    FAIL_TRACE=trace FAIL_SYNCS=no LD_PRELOAD=./fail.so "$program" script t < $row > out 2> err || wrong "a row of stores fails"
    [ "$(grep -cx 0 out)" = 300 ] || wrong "a row of stores is answered otherwise"
    syncs=$(grep -c '^sync' trace) writes=$(grep -c '^write' trace)
    echo "kind $kind, 300 stores, $row keys: $syncs syncs, $writes writes"
    least=$((300 * (3 - kind)))
    ((syncs >= least && syncs <= least + 12)) || wrong "$syncs syncs, and not $least and up to 12 more"
    # one of the log, and that of the bucket's page of the store before; the meta page is in each commit. A store of a new key opens a bucket now
    # and then
    [ "$kind $row" != '2 replacing' ] || ((writes <= 2 * 300 + 24)) || wrong "$writes writes, and not two for each store"
    [ "$kind $row" != '2 new' ] || ((writes <= 3 * 300)) || wrong "$writes writes, and more than three for each store"
    is t $kind $((kind == 2 ? 2 : 0)) "after a row and its closing"
    cat there $row > lines && [ $row = replacing ] || cp new lines
    map lines > pairs
    has t pairs "after a row"
    rm t.db
  done
done

# ---- a store with its opening and its closing, behind others: how many syncs it takes
for kind in 1 2; do
  made t $kind --limit 1000 && "$program" load t < there.pairs && "$program" store t 6161 01 -x && "$program" store t 6162 01 -x || exit 1
  for key in 6163 6161 6164; do
    rm -f trace
    FAIL_TRACE=trace FAIL_SYNCS=no LD_PRELOAD=./fail.so "$program" store t $key 02 -x || wrong "a store fails"
    syncs=$(grep -c '^sync' trace)
    [ "$syncs" = $((kind == 2 ? 2 : 5)) ] || wrong "a store of $key in a file of kind $kind takes $syncs syncs"
  done
  { cat there.pairs; printf '6161 02\n6162 01\n6163 02\n6164 02\n'; } | LC_ALL=C sort > pairs
  has t pairs "stores with an opening each"
  rm t.db
done

# ---- a row that is cut short
# cut_behind CALLS LOSE LINES: a script on t.db of which each call behind so many fails
cut_behind() {
  status=0
  FAIL_CALL=$(($1 + 1)) FAIL_HOW=from FAIL_LOSE=$2 FAIL_SYNCS=no LD_PRELOAD=./fail.so "$program" script t < "$3" > out 2> err || status=$?
}

# is_one_of COUNT: t.db has, for a reader, the pairs that are left by so many lines of the row, or by one more
is_one_of() {
  local more
  "$program" dump t > seen 2> err || return 1
  for more in 0 1; do
    { cat base; head -n $(($1 + more)) row; } > lines
    map lines > "pairs$more"
    cmp -s seen "pairs$more" && return 0
  done
  return 1
}

# loss NUMBER: which sectors are lost in a cut of this number, by a word of tests/fail.c
loss() { if (($1 % 7)); then echo "${losses[$1 % 7 - 1]}"; else echo $(($1 + 1)); fi; }
losses=(kept lost odd even first last)

# opens_again WHAT: cut short behind some of its calls, the opening of left.db leaves the same pairs; $turn says which calls, and which sectors are lost
opens_again() {
  local calls sum known=
  cp seen wanted
  for ((calls = turn % 4; calls < 200; calls += calls < 24 ? 4 : 23)); do
    cp left.db t.db
    cut_behind "$calls" "$(loss $((turn + calls)))" nothing
    [ "$status" != 0 ] || break
    sum=$(cksum < t.db)
    [ "$sum" != "$known" ] || continue
    known=$sum openings=$((openings + 1))
    "$program" dump t 2> /dev/null | cmp -s - wanted || { wrong "$1, and its opening behind $calls calls, leaves other pairs"; return; }
  done
  ((calls < 200)) || wrong "$1: an opening makes 200 calls"
}

# stop CALLS LOSE: the row, cut short behind so many calls
stop() {
  local answered what="kind $kind behind $1 calls, $2" sum
  cp first.db t.db
  cut_behind "$1" "$2" row
  answered=$(grep -cx 0 out)
  stops=$((stops + 1))
  is_one_of "$answered" || { wrong "$what: a reader finds other pairs than those of the $answered stores that were told: $(cat err)"; return; }
  sum=$(cksum < t.db)
  [ -z "${known[$sum]:-}" ] || return
  known[$sum]=1
  turn=$((turn + 1))
  cp t.db left.db
  left[16#$(xxd -p -s 8 -l 4 t.db)]=1
  [ "$(./count t.db)" = "$(wc -l < seen)" ] || wrong "$what: the file says something else by the format"
  opens_again "$what"
  cp left.db t.db && cp seen wanted
  "$program" script t < /dev/null || wrong "$what: the file doesn't open"
  rests t "$kind" "$what, opened"
  has t wanted "$what, settled"
}

# 40 pairs, of which 20 are stored once more in a row, so that the log of this session is left behind the end. The row begins with the last of these,
# and its log gets the place of that one, whose commits would show if they still counted. Then come new keys, deletes and contents of 2,000 bytes,
# with which the end grows over the log, and in the midst a content of 33 pages, whose commit is too large for a log.
byte=07
repeated() { printf "$byte%.0s" $(seq "$1"); }
stores 1 40 0a > base1 && stores 11 30 0b > base2 && cat base1 base2 > base
map base1 > base1.pairs
{ stores 1 30 0c 0d0e | tac; stores 41 100 0f; stores 1 60 "$(repeated 2000)"; stores 101 119 11
  sed 's/S \([^ ]*\).*/D \1/' <(stores 50 60 00); echo "S 0001 $(repeated 65535)"; stores 120 179 12 "$(repeated 900)"; stores 61 119 13 "$(repeated 1100)"
} > row
: > nothing
[ "$(wc -l < row)" = 300 ] || { echo "the row has $(wc -l < row) lines"; exit 1; }
for kind in 1 2; do
  made first $kind --limit 1000 --v2
  "$program" load first < base1.pairs && "$program" script first < base2 > out || exit 1
  cp first.db t.db && rm -f trace
  FAIL_CALL=0 FAIL_TRACE=trace FAIL_SYNCS=no LD_PRELOAD=./fail.so "$program" script t < row > out 2> err
  all=$(sed -n 's/^calls //p' err) heads=$(grep -c '^write 0 512' trace)
  # the sector is written back; it names a log with more room behind the end, is armed for the large commit, and names a log
  [ $kind = 1 ] || ((heads >= 4 && heads <= 20)) || wrong "the commit sector is written $heads times"
  cat base row > lines && map lines > pairs && has t pairs "a row of kind $kind"
  # the call behind the most writes between two syncs, which are those of the large commit
  large=$(awk '/^sync/ { if (count > most) { most = count; at = NR } count = 0 } /^write/ { count++ } END { print at }' trace)
  declare -A known=()
  left=()
  stops=0 turn=0 openings=0 number=0
  # the first calls, those around the large commit, the last ones, and others at equal distances
  for calls in $(seq 0 28) $(seq $((large - 2)) $((large + 8))) $(seq $((all - 6)) "$all") $(seq 29 $((all / 20 / 2 * 2 + 1)) "$all"); do
    for add in 0 3; do stop "$calls" "$(loss $((number + add)))"; done
    number=$((number + 1))
  done
  echo "kind $kind: a row of $all calls, $heads writes of the commit sector; $stops stops, ${#known[@]} files, $openings openings cut short"
  [ "${!left[*]}" = "$((kind - 1)) $kind" ] || wrong "a row of kind $kind leaves the states ${!left[*]}"
  ((${#known[@]} > 50 && openings > 80)) || wrong "too few to tell anything"
  rm first.db
done

# ---- a program that is killed in a row
# commands NAME: what reads a file that is left logging with five pairs
commands() {
  local text
  text=$("$program" dump "$1")
  [ "$text" = "$(printf '6%s 0%s\n' 1 1 2 2 3 3 4 4 5 5)" ] || wrong "a file that is left logging is dumped as $text"
  [ "$("$program" fetch "$1" 65 -x) $("$program" verify "$1") $(./count "$1.db")" = '05 5 5' ] || wrong "a file that is left logging is read otherwise"
  [ "$("$program" stat "$1" | head -n 1)" = 'pairs 5' ] || wrong "a file that is left logging has other numbers"
  [ "$("$program" salvage "$1" | LC_ALL=C sort)" = "$text" ] || wrong "a file that is left logging is salvaged otherwise"
  printf 'S 66 06\nS 67 07\n' | "$program" rehearse "$1" > out && [ "$(tail -n 3 out | cut -d' ' -f2 | uniq | wc -l)" = 1 ] ||
    wrong "a file that is left logging is rehearsed otherwise"
  rm -f copy.db && "$program" backup "$1" copy && [ "$(head -c 8 copy.db) $("$program" dump copy)" = "DBMREDO2 $text" ] ||
    wrong "a file that is left logging is copied otherwise"
}

made killed 2 --limit 100
coproc script { exec "$program" script killed; }
# shellcheck disable=SC2154
pid=$script_PID
for digit in 1 2 3 4 5; do
  echo "S 6$digit 0$digit" >&"${script[1]}"
  read -r -t 10 -u "${script[0]}" reply && [ "$reply" = 0 ] || wrong "a store is not acknowledged"
done
{ kill -9 "$pid"; wait "$pid"; } 2> /dev/null
pid=
is killed 2 2 "a program that is killed in a row"
cp killed.db left.db
before=$(sha256sum < killed.db)
commands killed
[ "$(sha256sum < killed.db)" = "$before" ] || wrong "what reads a file that is left logging changes it"
"$program" store killed 66 06 -x || wrong "a file that is left logging takes no store"
is killed 2 2 "a store on a file that was left logging"
printf '6%s 0%s\n' 1 1 2 2 3 3 4 4 5 5 6 6 > pairs && has killed pairs "a store on a file that was left logging"
cp left.db killed.db && head -n 5 pairs > five
"$program" delete killed 7a -x; [ $? = 1 ] || wrong "an absent key is not told so"
is killed 2 2 "an opening of a file that was left logging" && has killed five "an opening of a file that was left logging"

# ---- logs with changed bytes: what the program says of them, beside a plain look at the file
# put PLACE HEX: other bytes of t.db from that place on
put() { printf '%b' "$(sed 's/../\\x&/g' <<< "$2")" | dd of=t.db bs=1 seek="$1" conv=notrunc status=none; }

# agree WHAT: both have the same answer, which is printed; what is refused stays as it is
agree() {
  local plain found
  plain=$(./count t.db) before=$(but_turn t.db | sha256sum)
  found=$("$program" verify t 2> err) || found=-1
  [ "$found" = "$plain" ] || wrong "$1: verify says $found, and a plain look $plain"
  [ "$found" = -1 ] || [ "$("$program" dump t 2>&1 | wc -l)" = "$plain" ] || wrong "$1: a dump has other pairs than the $plain"
  found=$("$program" script t < /dev/null 2>&1) || [ "$(but_turn t.db | sha256sum)" = "$before" ] || [ "$plain" != -1 ] || wrong "$1: a refused opening changes the file"
  [ -z "$found" ] || [ "$plain" = -1 ] || wrong "$1: an opening is refused by $found"
  [ "$plain" = -1 ] || [ "$(./count t.db)" = "$plain" ] || wrong "$1: an opening leaves other pairs than the $plain"
  answers="$answers $plain"
}

answers=
log=$((16#$(xxd -p -s 16 -l 4 left.db) * 2048))
for slot in 0 32768; do
  # the number, the count, the end, a kept word, the number in the second and in the last sector, and a page's own number
  for change in 0:00000000 0:000000ff 3:01 4:00000000 7:01 7:03 7:10 8:00000003 11:00 10:ff 16:ff 19:ff 32:00000001 512:00 515:09 3584:ff 4096:ff; do
    cp left.db t.db && put $((log + slot + ${change%:*})) "${change#*:}"
    agree "slot at $slot, $change"
    # a page's number behind the end, in a slot that is whole: no commit leaves that, and the other one doesn't count
    [ "$change" != 16:ff ] || [ "${answers##* }" = -1 ] || wrong "slot at $slot: pages out of order are no damage"
  done
done
# both slots empty; the two commits with one number; the state, the start and the count of the commit sector
cp left.db t.db && put "$log" 00000000 && put $((log + 32768)) 00000000 && agree "two slots with no commit"
for change in 7:31 11:00 11:01 11:03 15:ff 16:00000003 16:04117aa9 16:ffffffff 23:01 24:01; do
  cp left.db t.db && put "${change%:*}" "${change#*:}" && agree "commit sector, $change"
done
# the turn number, bytes 0 to 7 of sector 1, means nothing, and each opening for writing makes it another one, which is odd
for turn in 0123456789abcdef:0123456789abcdf1 0000000100000000:0000000100000001 00000000ffffffff:0000000000000001; do
  cp left.db t.db && put 512 "${turn%:*}" && agree "the turn number" && [ "${answers##* }" = 5 ] || wrong "the turn number means something"
  [ "$(tail -c +513 t.db | head -c 8 | xxd -p)" = "${turn#*:}" ] || wrong "the turn number ${turn%:*} becomes $(tail -c +513 t.db | head -c 8 | xxd -p)"
done
echo "$(wc -w <<< "$answers") logs with changed bytes: $(xargs -n 1 <<< "$answers" | sort -n | uniq -c | awk '{ print $1 " of " $2 }' | xargs)"
grep -q -- '-1' <<< "$answers" && grep -q ' 4' <<< "$answers" && grep -q ' 5' <<< "$answers" || wrong "too few to tell anything"

# ---- another kind
# differ ONE OTHER BYTES WHAT: two files differ in just these bytes, as cmp -l prints them, and in the turn number
differ() { [ "$(cmp -l <(but_turn "$1") <(but_turn "$2") | xargs)" = "$3" ] || wrong "$4: the files differ in $(cmp -l "$1" "$2" | head -n 5 | xargs)"; }

# are_same ONE OTHER: two files have the same bytes but for the turn number
are_same() { cmp -s <(but_turn "$1") <(but_turn "$2"); }

# upgrades KIND WHAT: t.db is made one of this kind, and nothing is said
upgrades() {
  local words=("${by_images[@]}")
  [ "$1" = 1 ] || words=("${by_log[@]}")
  "$program" upgrade "${words[@]}" t > out 2>&1 && [ ! -s out ] || wrong "$2: upgrade ${words[*]} tells $(cat out)"
  is t "$1" 0 "$2"
}

# keeps KIND WORD..: a command on t.db is done, and the file is then of this kind and has the same pairs; so has the copy that a backup makes
keeps() {
  local file=t
  "$program" "${@:2}" < there.pairs > out 2> err || wrong "${*:2}: $(cat err)"
  [ "$2" != backup ] || file=copy
  rests $file "$1" "${*:2}"
  has $file there.pairs "${*:2}"
}

for version in '' --v2; do
  # shellcheck disable=SC2086
  made first 1 --limit 1000 $version && "$program" load first < there.pairs || exit 1
  cp first.db t.db
  "$program" stat t > stated
  upgrades 1 "a file of the first kind"
  differ first.db t.db '' "a file of the first kind that is made one"
  upgrades 2 "a file of the first kind"
  differ first.db t.db '8 61 62' "a file that is made one of the second kind"
  has t there.pairs "a file that is made one of the second kind"
  "$program" stat t | cmp -s - stated || wrong "a file that is made one of the second kind has other numbers"
  cp t.db second.db
  upgrades 2 "a file of the second kind"
  differ second.db t.db '' "a file of the second kind that is made one"
  upgrades 1 "a file of the second kind"
  differ first.db t.db '' "a file that is made one of the first kind again"
  # `upgrade` alone, and a table that is built anew, keep the kind
  for kind in 1 2; do
    [ $kind = 1 ] || upgrades 2 "a file"
    rm -f copy.db
    keeps $kind resize t --limit 2000
    keeps $kind load --replace t
    keeps $kind upgrade t
    keeps $kind backup t copy
  done
  # cut short behind each call it leaves one kind or the other, and nothing else
  for kind in 1 2; do
    from=first to=second words=("${by_log[@]}")
    [ $kind = 2 ] || from=second to=first words=("${by_images[@]}")
    for ((calls = 0; calls < 50; calls++)); do
      for lose in kept lost; do
        cp $from.db t.db
        FAIL_CALL=$((calls + 1)) FAIL_HOW=from FAIL_LOSE=$lose FAIL_SYNCS=no LD_PRELOAD=./fail.so "$program" upgrade "${words[@]}" t > out 2>&1 && ended=1 || ended=
        are_same $to.db t.db || { [ -z "$ended" ] && are_same $from.db t.db; } || wrong "upgrade ${words[*]} cut short behind $calls calls, $lose, leaves another file"
      done
      [ -z "$ended" ] || break
    done
    ((calls > 4 && calls < 50)) || wrong "upgrade ${words[*]} makes $calls calls"
  done
  rm first.db
done
# one that was left logging is settled by it
for kind in 1 2; do
  cp left.db t.db
  upgrades $kind "a file that was left logging"
  has t five "a file that was left logging, upgraded"
done
exit $bad
