#!/usr/bin/env bash
# One growth refused in the built program, each in turn, over scripts on a new database in memory and on one in a file, and over a
# verify. The program then ends with fault 1, or it gives the full right answer; a store is refused by fault 1, and changes nothing, only
# where it opens a bucket. In version 2 a call that reads, stores or removes a far content may be refused so too, and changes nothing.
. "$(dirname "$0")/common"
preloadable refuse
printf 'dbmtool: fault 1\n' > memory

# A script is in the file of its name, its right replies in NAME.right, and in NAME.refused a line for each of its calls that may be refused: the
# replies then. First calls of which no store opens a bucket.
printf 'S 6b 76\nF 6b\nS 6b 77\nI 6c 78\n1\nD 6b\nF 6b\nD 6b\nI 6c 79\n' > few
echo '0/76/0/0/6b/0/none/-1 absent/1/' > few.right
: > few.refused
# Nine stores, the last of which opens the second bucket, and a look at what it stored.
for n in $(seq 1 9); do echo "S 0$n 0$n"; done > nine
echo 'F 09' >> nine
echo '0/0/0/0/0/0/0/0/0/09/' > nine.right
echo '0/0/0/0/0/0/0/0/-1 fault 1/none/' > nine.refused
# Scripts over a file with a far pair of 33 pages. The insert that finds its key, and the fetches of what is absent or near, are never refused.
far=$(printf '0a%.0s' $(seq 65535)) more=$(printf '0b%.0s' $(seq 65535))
printf 'D 6b\nF 6b\n' > delete
echo '0/none/' > delete.right
echo '-1 fault 1/far/' > delete.refused
printf 'I 6b 76\nF 6b\nS 6b 76\nF 6b\n' > replace
echo '1/far/0/76/' > replace.right
printf '1/-1 fault 1/0/76/\n1/far/-1 fault 1/far/\n' > replace.refused
printf 'F 6c\nS 6c %s\nF 6c\n' "$more" > put
echo 'none/0/more/' > put.right
printf 'none/-1 fault 1/none/\nnone/0/-1 fault 1/\n' > put.refused

"$program" create first --limit 100 && cp first.db second.db && "$program" upgrade second && cp second.db far.db || exit 1
[ "$("$program" script far <<< "S 6b $far")" = 0 ] || exit 1

# run N SCRIPT WORD..: the script with growth N refused; its replies are in $replies, in which the far contents have their names
run() {
  local status=0 line
  FAIL_ALLOC=$1 LD_PRELOAD=./refuse.so "$program" script "${@:3}" < "$2" > out 2> err || status=$?
  replies=
  while IFS= read -r line; do
    case $line in "$far") line=far ;; "$more") line=more ;; esac
    replies=$replies$line/
  done < out
  return $status
}

# refused FILE SCRIPT WORD..: each growth of the script over this database, where t is a copy of the file; the replies with a refused call are kept in
# the file `seen`
refused() {
  local file=$1 script=$2 growths memory=0 calls=0 right=0 status
  shift 2
  : > seen
  cp "$file.db" t.db
  run 0 "$script" "$@" && [ "$replies" = "$(cat "$script.right")" ] || { echo "$script $*: another answer where growths are counted"; exit 1; }
  growths=$(sed -n 's/^growths //p' err)
  for n in $(seq 1 "${growths:-0}"); do
    cp "$file.db" t.db
    run "$n" "$script" "$@"
    status=$?
    if [ "$status" = 2 ] && cmp -s err memory && ! grep -q 'fault 1$' out; then
      memory=$((memory + 1))
    elif [ "$status" = 0 ] && [ ! -s err ] && grep -qxFe "$replies" "$script.refused"; then
      calls=$((calls + 1))
      echo "$replies" >> seen
    elif [ "$status" = 0 ] && [ ! -s err ] && [ "$replies" = "$(cat "$script.right")" ]; then
      right=$((right + 1))
    else
      echo "$script $*, growth $n of $growths: status $status, $replies"; cat err; exit 1
    fi
  done
  echo "$script $* ($file): $growths growths, fault 1 at the end after $memory, a call refused after $calls, the right answer after $right"
  [ "$memory" -gt 0 ] && { [ "$script" = few ] || [ "$calls" -gt 0 ]; } || exit 1
}

refused first few --memory 100
refused first nine --memory 100
refused first few t
refused first nine t
refused second few t
refused second nine t
refused far put --memory 100 --v2
for script in delete replace put; do
  refused far $script t
  # each call that may be refused was refused by some growth
  sort -u seen | cmp -s - <(sort $script.refused) || { echo "$script: some call isn't refused"; exit 1; }
done

# a verify of the file, which makes a mark for each page
rm -f t.db; "$program" create t --limit 100 && "$program" script t < nine > out || exit 1
FAIL_ALLOC=0 LD_PRELOAD=./refuse.so "$program" verify t > out 2> err && [ "$(cat out)" = 9 ] || exit 1
growths=$(sed -n 's/^growths //p' err) memory=0 right=0
for n in $(seq 1 "${growths:-0}"); do
  FAIL_ALLOC=$n LD_PRELOAD=./refuse.so "$program" verify t > out 2> err
  status=$?
  if [ "$status" = 2 ] && cmp -s err memory && [ ! -s out ]; then
    memory=$((memory + 1))
  elif [ "$status" = 0 ] && [ ! -s err ] && [ "$(cat out)" = 9 ]; then
    right=$((right + 1))
  else
    echo "verify t, growth $n of $growths: status $status"; cat out err; exit 1
  fi
done
echo "verify t: $growths growths, fault 1 after $memory, the right answer after $right"
[ "$memory" -gt 0 ] || exit 1
