#!/usr/bin/env bash
# One growth refused in a rehearsal, each in turn, on a new database and on a copy of a file. It then ends with fault 1, or it gives the
# right counts, and its file stays as it is. It may have made more device calls: where there is no memory for a page's copy, the page is
# read once more.
. "$(dirname "$0")/common"
preloadable refuse
printf 'dbmtool: fault 1\n' > memory
printf 'S 61 01\nS 62 02\nD 61\n' > script
"$program" create t --limit 100 && "$program" store t key old || exit 1
cp t.db first.db

# run N WORD..: the rehearsal with growth N refused
run() { FAIL_ALLOC=$1 LD_PRELOAD=./refuse.so "$program" rehearse "${@:2}" < script > out 2> err; }

# device_calls FILE: how many were counted, and counts FILE: the other lines
device_calls() { sed -n 's/^device calls //p' "$1"; }
counts() { grep -v '^device calls ' "$1"; }

# is_right: the counts are those with no refused growth
is_right() { [ ! -s err ] && cmp -s <(counts out) <(counts right) && [ "$(device_calls out)" -ge "$(device_calls right)" ]; }

# refused WORD..: each growth of a rehearsal of these words
refused() {
  local growths memory=0 done=0 status
  "$program" rehearse "$@" < script > right 2> err && [ ! -s err ] || { echo "rehearse $*: it fails with no refused growth"; exit 1; }
  run 0 "$@" && cmp -s out right || { echo "rehearse $*: it ends otherwise where growths are counted"; exit 1; }
  growths=$(sed -n 's/^growths //p' err)
  for n in $(seq 1 "${growths:-0}"); do
    run "$n" "$@"
    status=$?
    if [ "$status" = 2 ] && cmp -s err memory && [ ! -s out ]; then
      memory=$((memory + 1))
    elif [ "$status" = 0 ] && is_right; then
      done=$((done + 1))
    else
      echo "rehearse $*, growth $n of $growths: status $status"; cat out err; exit 1
    fi
  done
  cmp -s t.db first.db || { echo "rehearse $*: the file is changed"; exit 1; }
  echo "rehearse $*: $growths growths, fault 1 after $memory, the right counts after $done"
  [ "$memory" -gt 0 ] || exit 1
}

refused --memory 100 --stops 5
refused t --stops 5
