#!/usr/bin/env bash
# One growth refused in the built program on a real file, each in turn, for each command that takes memory. It then ends with
# fault 1 and has changed nothing, or it has done all. So it is with far pairs on a file of version 2.
. "$(dirname "$0")/common"
preloadable refuse
printf 'dbmtool: fault 1\n' > memory
"$program" create t --limit 100 && "$program" store t key old && "$program" store t other 1 || exit 1
cp t.db first.db
printf '6e 01\n6f 02\n' > lines
"$program" dump t > dumped || exit 1
{ cat dumped; cat lines; } | sort > loaded
from=first

# refused COMMAND RIGHT WORD..: RIGHT is the output where nothing was refused, and then the file dumps as `after`
refused() {
  local right=$1 growths memory=0 done=0
  shift
  cp "$from.db" t.db; rm -f new.db
  FAIL_ALLOC=0 LD_PRELOAD=./refuse.so "$program" "$@" < lines > out 2> err || { echo "$*: refused without a refused growth"; exit 1; }
  growths=$(sed -n 's/^growths //p' err)
  for n in $(seq 1 "${growths:-0}"); do
    cp "$from.db" t.db; rm -f new.db
    FAIL_ALLOC=$n LD_PRELOAD=./refuse.so "$program" "$@" < lines > out 2> err
    local status=$?
    "$program" dump t > found || { echo "$*, growth $n: the file doesn't open"; exit 1; }
    if [ "$status" = 2 ] && cmp -s err memory && [ ! -s out ] && cmp -s found "$before"; then
      memory=$((memory + 1))
    elif [ "$status" = 2 ] && [ "$1" = load ] && cmp -s err memory && [ "$(comm -23 <(sort found) loaded | wc -l)" = 0 ]; then
      memory=$((memory + 1))   # the earlier lines are kept
    elif [ "$status" = 0 ] && [ ! -s err ] && cmp -s out "$right" && cmp -s <(sort found) "$after"; then
      done=$((done + 1))
    else
      echo "$*, growth $n of $growths: status $status"; cat out err; exit 1
    fi
    # what was not made can be made
    if [ "$1" = create ] && [ "$status" = 2 ]; then
      "$program" create new --limit 100 || { echo "$*, growth $n: it can't be made again"; exit 1; }
    fi
  done
  echo "$1 on $from: $growths growths, fault 1 after $memory, done after $done"
  [ "$memory" -gt 0 ] || exit 1
}

: > nothing
before=dumped
after=dumped
refused nothing create new --limit 100
printf 'old\n' > content
refused content fetch t key
refused dumped dump t
sed 's/ .*//' dumped > keys
refused keys list t
sed 's/^6b6579 .*/6b6579 6e6577/' dumped > stored
after=stored
refused nothing store t key new
grep -v '^6b6579 ' dumped > deleted
after=deleted
refused nothing delete t key
after=loaded
refused nothing load t --group 1
refused nothing load t --group 2
refused nothing load t

# A far pair among those, whose content has two pages, in a file of version 2; and an upgrade, which leaves the pairs.
before=dumped
after=dumped
refused nothing upgrade t
from=far
far=$(printf 'aa%.0s' $(seq 1017)) more=$(printf 'bb%.0s' $(seq 2033))
cp first.db far.db && "$program" upgrade far && "$program" store far key "$far" && "$program" dump far > far-dumped || exit 1
before=far-dumped
after=far-dumped
echo "$far" > content
refused content fetch t key
refused far-dumped dump t
sed "s/^6b6579 .*/6b6579 ${more//b/62}/" far-dumped > far-stored
after=far-stored
refused nothing store t key "$more"
grep -v '^6b6579 ' far-dumped > far-deleted
after=far-deleted
refused nothing delete t key
sed 's/^6b6579 .*/6b6579 6e6577/' far-dumped > far-near
after=far-near
refused nothing store t key new
