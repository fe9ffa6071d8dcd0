#!/usr/bin/env bash
# A store that opens a bucket, cut short behind each call of the system, where the sectors that no sync came behind are kept or lost, or each
# second one is: the file then has the old pairs or the new ones, as the format has it. The opening that settles it is cut short likewise,
# again and again, and the file then is the whole one, byte by byte. A sync that fails leaves the change in doubt, and a read nothing.
. "$(dirname "$0")/common"
preloadable fail

# An opening that settles nothing reads the commit sector twice and writes it back; then a sync, and reads of the commit sector and of the meta page. The
# store looks its key up in two pages, and commits four: their redo images, a sync, the commit sector, a sync. The closing writes as much again.
opening=$((3 + 3))
commit=$((opening + 2))
arming=$((commit + 4 + 1 + 1))
stored=$((arming + 1))
closed=$((stored + 4 + 1 + 1 + 1))
# One that settles such a commit: the commit sector, read twice and written back; a sync and the commit sector; each image, to check it; each again, and
# its page; a sync, the commit sector and a sync; the meta page.
recovery=$((3 + 1 + 1 + 4 + 2 * 4 + 1 + 1 + 1 + 1))

"$program" create t8 --limit 100 || exit 1
for digit in 1 2 3 4 5 6 7 8; do echo "6$digit 0$digit"; done | "$program" load t8 || exit 1
cp t8.db t9.db && "$program" store t9 69 09 -x || exit 1
"$program" dump t8 > 8.text && "$program" dump t9 > 9.text

# cut NAME CALLS LOSE LINES: a script on a copy of a file of which each call behind so many fails
cut() {
  cp "$1.db" t.db
  status=0
  FAIL_CALL=$(($2 + 1)) FAIL_HOW=from FAIL_LOSE=$3 LD_PRELOAD=./fail.so "$program" script t <<< "$4" > out 2> err || status=$?
}

# pairs CALLS LOSE: how many pairs there are where the store is cut short so
pairs() { if (($1 > arming)) || { (($1 == arming)) && [[ $2 =~ kept|even ]]; }; then echo 9; else echo 8; fi; }

# told CALLS: what the store is answered then, and the fault of closing, or of the opening where that is cut short
told() {
  if (($1 < opening)); then echo ' fault 2'
  elif (($1 < commit)); then echo '-1 fault 2'
  elif (($1 < stored)); then echo '-1 fault 2 fault 3'
  elif (($1 < closed)); then echo '0 fault 2'
  else echo 0; fi
}

# has PAIRS: t.db has these pairs for a reader, and is the file of them once it was opened for writing
has() {
  "$program" dump t 2> /dev/null | cmp -s - "$1.text" && "$program" script t < /dev/null &&
    cmp -s <(head -c $((($1 - 4) * 2048)) t.db) <(head -c $((($1 - 4) * 2048)) "t$1.db")
}

# opens_again PAIRS: cut short behind each call, with each kind of loss, the opening of left.db leaves the file of so many pairs; $calls is how
# many calls it takes
opens_again() {
  local lose sum
  local -A seen=()
  for ((calls = 0; calls < 100; calls++)); do
    for lose in kept lost odd even; do
      cut left "$calls" "$lose" ''
      [ "$status" != 0 ] || return 0
      sum=$(cksum < t.db)
      [ -z "${seen[$sum]:-}" ] || continue
      seen[$sum]=1
      has "$1" || { wrong "an opening cut short behind $calls calls, $lose, leaves another file"; return 1; }
    done
  done
}

for ((stop = 0; stop <= closed; stop++)); do
  for lose in kept lost odd even; do
    cut t8 "$stop" "$lose" 'S 69 09'
    cp t.db left.db
    count=$(pairs "$stop" "$lose")
    [ "$(cat out)$(sed 's/^dbmtool://' err)" = "$(told "$stop")" ] || wrong "behind $stop calls a store is answered $(cat out err)"
    has "$count" || wrong "a store cut short behind $stop calls, $lose, leaves other pairs than the $count"
    opens_again "$count" || continue
    # the file is settled where the closing has ended, or its last sector happened
    needed=$recovery
    if [ "$count" = 8 ] || ((stop == closed)) || { ((stop == closed - 1)) && [[ $lose =~ kept|even ]]; }; then needed=$opening; fi
    [ "$calls" = "$needed" ] || wrong "what is left behind $stop calls, $lose, takes $calls calls to open, and not $needed"
  done
done

# The sync behind the commit sector fails: the change is in doubt, and each later call is refused.
cp t8.db t.db
printf '%s\n' 'S 69 09' 'S 69 09' "S 69 $(printf '09%.0s' $(seq 2026))" 'D 61' 'F 61' 1 N E C E 'F 61' |
  FAIL_CALL=$((arming + 1)) LD_PRELOAD=./fail.so "$program" script t > out 2> err
[ "$(xargs < out)" = '-1 fault 2 -1 fault 3 -1 fault 3 -1 fault 3 -1 fault 3 -1 fault 3 -1 fault 3 2 0 0 -1 fault 3' ] &&
  [ "$(cat err)" = 'dbmtool: fault 3' ] || wrong "a change in doubt is told otherwise: $(cat out err)"
has 9 || wrong "a change whose sync failed left no nine pairs"

# A read of the store fails: the same store is done behind it.
for call in $((opening + 1)) $((opening + 2)); do
  cp t8.db t.db
  printf 'S 69 09\nF 61\nS 69 09\n' | FAIL_CALL=$call LD_PRELOAD=./fail.so "$program" script t > out 2> err
  [ "$(xargs < out)" = '-1 fault 2 01 0' ] && [ ! -s err ] && has 9 || wrong "a store whose read $call failed: $(cat out err)"
done
exit $bad
