#!/usr/bin/env bash
# Commands on a real file in which a read, a write or a sync fails, each in turn: once, made before it fails, or with all behind it, and what
# wasn't synced is kept or lost. The command is fault 2, and the file then verifies and has the pairs from before the change that was under
# way, or from after it, and can be changed; a fetch prints nothing. A create may leave no database at all, as it does where its one commit isn't
# synced. So it is with far pairs on a file of version 2.
. "$(dirname "$0")/common"
preloadable fail

# Eight pairs, so that one more opens a bucket.
"$program" create first --limit 100 || exit 1
for digit in 1 2 3 4 5 6 7 8; do echo "6$digit 0$digit"; done | "$program" load first || exit 1
for digit in 9 a b; do echo "6$digit 0$digit"; done > further
from=first

# run N WORD..: the command with call N failed as $how and $lose say, on a copy of the file that $from names
run() {
  rm -f t.db
  [ "$2" = create ] || cp "$from.db" t.db
  FAIL_CALL=$1 FAIL_HOW=$how FAIL_LOSE=$lose LD_PRELOAD=./fail.so "$program" "${@:2}" < further > out 2> err
}

# is_left FILE: the pairs that the database has are those of the file
is_left() {
  local pairs
  pairs=$("$program" verify t 2> /dev/null < /dev/null) && [ "$pairs" = "$(wc -l < "$1")" ] && "$program" dump t < /dev/null | cmp -s - "$1"
}

# failed DUMPS WORD..: each call of the command failed in turn, which leaves the pairs of one of these dumps; each of them is left by some
failed() {
  local dumps=$1 calls none=0 left status case words
  local -A times=()
  shift
  words=$*
  case="${words:0:60}, failed $how, unsynced sectors $lose"
  run 0 "$@" || { echo "$*: it fails with no failed call"; exit 1; }
  calls=$(sed -n 's/^calls //p' err)
  for n in $(seq 1 "${calls:-0}"); do
    run "$n" "$@"
    status=$?
    [ "$status" = 2 ] && [ "$(cat err)" = 'dbmtool: fault 2' ] || { echo "$case, call $n of $calls: status $status, $(cat err)"; exit 1; }
    [ "$1" != fetch ] || [ ! -s out ] || { echo "$case, call $n of $calls: a part is printed"; exit 1; }
    left=
    for dump in $dumps; do
      if is_left "$dump"; then left=$dump; break; fi
    done
    if [ -z "$left" ] && [ "$1" = create ] && [ "$("$program" verify t 2>&1)" = 'dbmtool: fault 10' ]; then
      none=$((none + 1))
      continue
    fi
    [ -n "$left" ] || { echo "$case, call $n of $calls: other pairs are left"; exit 1; }
    times[$left]=$((${times[$left]:-0} + 1))
    "$program" store t later 1 && [ "$("$program" fetch t later)" = 1 ] ||
      { echo "$case, call $n of $calls: the file can't be changed"; exit 1; }
  done
  echo "$case, $calls calls in turn:$(for dump in $dumps; do echo -n " ${times[$dump]:-0} left $dump,"; done) $none nothing"
  for dump in $dumps; do
    [ "${times[$dump]:-0}" -gt 0 ] || [ "$1 $lose" = 'create lost' ] || { echo "$case: no failed call left $dump"; exit 1; }
  done
}

"$program" dump first > before
for n in 1 2 3; do
  { cat before; head -n "$n" further; } > "before+$n"
done
sed 's/^64 .*/64 ff/' before > changed
grep -v '^65' before > deleted
: > empty

# The same file in version 2, of which two pairs are far: 67 has a content of two pages, and 68 one of one page. Two pages are free.
two=$(printf '07%.0s' $(seq 2033)) one=$(printf '08%.0s' $(seq 2026)) three=$(printf '09%.0s' $(seq 4065))
printf 'S 66 %s\nS 67 %s\nS 68 %s\nS 66 06\n' "$two" "$two" "$one" > lines
cp first.db far.db && "$program" upgrade far && "$program" script far < lines > out || exit 1
[ "$("$program" stat far | cut -d' ' -f2 | xargs)" = '8 100 1 0 0 9 2' ] || { echo "the file with far pairs has other pages"; exit 1; }
"$program" dump far > far-before
{ cat far-before; echo "69 $three"; } > far-before+1
sed "s/^67 .*/67 $three/" far-before > far-longer
grep -v '^67' far-before > far-deleted

for how in once late from; do
  for lose in kept lost; do
    failed 'before before+1' store t 69 09 -x
    failed 'before changed' store t 64 ff -x
    failed 'before deleted' delete t 65 -x
    failed 'before before+1 before+2 before+3' load t --group 1
    failed 'before before+2 before+3' load t --group 2
    failed 'before before+3' load t
    failed before verify t
    failed before dump t
    failed empty create t --limit 100
    from=far
    failed 'far-before far-before+1' store t 69 "$three" -x
    failed 'far-before far-longer' store t 67 "$three" -x
    failed 'far-before far-deleted' delete t 67 -x
    failed far-before fetch t 67 -x
    from=first
  done
done
