#!/usr/bin/env bash
# Stores in a row, cut short behind each call of the system, where the sectors that no sync came behind are kept or lost, or each second one is:
# the file then has the pairs that were acknowledged, and of the others at most the one that was on its way. So it has where the opening that
# settles it is cut short as well. One row opens a bucket and has its redo images by turns in two places; one is on a file that leaves its device
# room for the images of one commit alone, so that each store brings the pages of the one before to their places first.
. "$(dirname "$0")/common"
preloadable fail
cc -O1 -o count "$top/tests/plain_count.c" "$top/tests/plain_check.c" || exit 1

# cut CALLS LOSE LINES: a script on t.db of which each call behind so many fails
cut() {
  status=0
  FAIL_CALL=$(($1 + 1)) FAIL_HOW=from FAIL_LOSE=$2 LD_PRELOAD=./fail.so "$program" script t <<< "$3" > out 2> err || status=$?
}

# is_one_of PAIRS: t.db has, for a reader, the pairs of so many stores, or of one more
is_one_of() { "$program" dump t 2> /dev/null > seen && { cmp -s seen "$1.text" || cmp -s seen $(($1 + 1)).text; }; }

# state_of FILE: one word for the bytes of a file whose pages stand near its two ends, between which there may be gigabytes of nothing
state_of() { { stat -c %s "$1" && head -c 65536 "$1" && tail -c 65536 "$1"; } | cksum; }

# opens_again: cut short behind each call, with one half of the sectors lost, the opening of left.db leaves the same pairs, and the last one ends
opens_again() {
  local calls
  cp seen wanted
  for ((calls = 0; calls < 100; calls++)); do
    cp left.db t.db
    if ((calls % 2)); then cut "$calls" odd ''; else cut "$calls" even ''; fi
    [ "$status" != 0 ] || return 0
    [ "$(state_of t.db)" = "$sum" ] || "$program" dump t 2> /dev/null | cmp -s - wanted ||
      { wrong "an opening cut short behind $calls calls leaves other pairs"; return 1; }
  done
  wrong "an opening makes 100 calls"
}

# row LEAST KEY..: first.db, to which these keys are stored in a row, cut short behind each of its calls, which are so many at least
row() {
  local least=$1 lines count=0 stop lose ended answered sum
  local -A known=()
  lines=$(for key in "${@:2}"; do echo "S $key 09"; done)
  cp first.db t.db && "$program" dump t > 0.text || exit 1
  for key in "${@:2}"; do
    "$program" store t "$key" 09 -x || exit 1
    count=$((count + 1))
    "$program" dump t > $count.text
  done
  for ((stop = 0; stop < 200; stop++)); do
    ended=
    for lose in kept lost odd even; do
      cp first.db t.db
      cut "$stop" "$lose" "$lines"
      answered=$(grep -cx 0 out)
      [ "$answered $status" != "$count 0" ] || ended=1
      is_one_of "$answered" || wrong "behind $stop calls, $lose, a reader finds other pairs than the $answered that were told"
      sum=$(state_of t.db)
      [ -z "${known[$sum]:-}" ] || continue
      known[$sum]=1
      cp t.db left.db
      if [ "$is_good" = 1 ]; then
        [ "$(./count t.db)" = "$(wc -l < seen)" ] || wrong "behind $stop calls, $lose, the file says something else by the format"
        "$program" script t < /dev/null && "$program" verify t > /dev/null || wrong "behind $stop calls, $lose, the file is no good one"
        "$program" dump t | cmp -s - seen || wrong "behind $stop calls, $lose, an opening gives other pairs than a reader finds"
      fi
      opens_again
    done
    [ -z "$ended" ] || break
  done
  [ "$answered" = "$count" ] && ((stop > least)) || wrong "only $stop calls were cut short"
}

"$program" create t --limit 100 || exit 1
for digit in 1 2 3 4 5 6; do echo "6$digit 0$digit"; done | "$program" load t || exit 1
cp t.db first.db
is_good=1
row 32 67 68 69 6a 6b

# The end is set to two pages before the device's 68,250,498, which is more than a good file of this limit has.
"$program" create t2 --limit 100 && printf '61 01\n62 02\n' | "$program" load t2 || exit 1
printf '%08x' $((68250498 - 2)) | xxd -r -p | dd of=t2.db bs=1 seek=12 conv=notrunc status=none
cp t2.db first.db
is_good=0
row 30 63 64 65
exit $bad
