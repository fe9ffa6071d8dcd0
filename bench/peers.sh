#!/usr/bin/env bash
# dbmtool beside gdbm, Berkeley DB and LMDB: the same texts go to each, and a table of lines a
# second is printed, for each count of pairs. A wrong reply ends the run with 1. Words: a folder on
# the disk that is to be measured, and counts (10000 and 100000 where none is given).
#
# Each change of a script is synced, by LMDB as a transaction of its own. A load of dbmtool commits
# up to GROUP pairs at once; the others sync once, at the end, LMDB one transaction. A time is that of
# the whole program, with its opening, closing, reading and writing of lines. The programs take turns,
# so that each meets the machine in the same state, and the best of ROUNDS runs counts.
#
# In the environment: ROUNDS (3); GROUP (10000), how many lines of a load of dbmtool share a commit; MOST
# (2000), the most pairs that are stored one by one, and as many deleted, since on a disk each may
# take milliseconds; SYNCS (1), how many syncs each of many stores of dbmtool takes, 1 or 2; CACHE, how
# many pages dbmtool keeps in memory (--cache); DBMTOOL, a built program to measure in place of this
# tree's.
set -euo pipefail
top=$(cd "$(dirname "$0")/.." && pwd)
folder=${1:?the folder that is to be measured}
counts=("${@:2}")
[ ${#counts[@]} -gt 0 ] || counts=(10000 100000)
rounds=${ROUNDS:-3}
group=${GROUP:-10000}
most=${MOST:-2000}
syncs=${SYNCS:-1}

work=$(realpath "$(mktemp -d "$folder/peers.XXXXXX")")
trap 'rm -rf "$work"' EXIT

fail() {
  echo "peers.sh: $*" >&2
  exit 1
}

# The program of each name, and the names in the order of the columns.
declare -A program
names=()

add() {
  names+=("$1")
  program[$1]=$2
}

# NAME HEADER PACKAGE LIBRARY.. : builds a driver where its library is installed.
add_peer() {
  local name=$1 header=$2 package=$3
  shift 3
  if ! echo "#include <$header>" | cc -E - > /dev/null 2>&1; then
    echo "peers.sh: $name isn't there (Debian's $package)" >&2
    return
  fi
  cc -O2 -Wall -Wextra -o "$work/$name" "$top/bench/peer.c" "$top/bench/peer_$name.c" "$@"
  add "$name" "$work/$name"
}

add_programs() {
  local built=${DBMTOOL:-$top/crates/dbmtool/out/dbmtool}
  # builds
  [ -n "${DBMTOOL:-}" ] || printf 'F 00\n' | "$top/dbmtool" script --memory 100 > /dev/null
  [ -x "$built" ] || fail "there is no program $built"
  add dbmtool "$(realpath "$built")"
  add_peer gdbm gdbm-ndbm.h libgdbm-compat-dev -lgdbm_compat -lgdbm
  add_peer berkeley db.h libdb5.3-dev -ldb
  add_peer lmdb lmdb.h liblmdb-dev -llmdb
}

# Each in its turn on the databases that those before it left; `left` is not timed.
workloads=(load store fetch half pass delete left)
declare -A title=(
  [load]='load'
  [store]='stores, each synced'
  [fetch]='fetches, all keys there'
  [half]='fetches, half absent'
  [pass]='a pass'
  [delete]='deletes, each synced'
)

# The least time so far, in microseconds, of "NAME WORKLOAD".
declare -A best

# Replies of a pass are compared in the order of `sort`, since each database has its own.
check_replies() {
  local name=$1 workload=$2
  if [ "$workload" = pass ]; then LC_ALL=C sort -o replies replies; fi
  cmp replies "$workload.right" >&2 || fail "$name gives wrong replies to $workload"
}

# Runs a workload of a program on its database, and keeps the time where it is the best one.
run() {
  local name=$1 workload=$2 words=(script) begun ended
  if [ "$workload" = load ]; then words=(load); fi
  if [ "$name $workload" = 'dbmtool load' ]; then words+=(--group "$group"); fi
  if [ "$name" = dbmtool ] && [ -n "${CACHE:-}" ]; then words=(--cache "$CACHE" "${words[@]}"); fi
  # what others have written is not to be written within this one's time
  sync -f .
  begun=${EPOCHREALTIME/./}
  "${program[$name]}" "${words[@]}" "base/$name" < "$workload" > replies || fail "$name ends by $?"
  ended=${EPOCHREALTIME/./}
  check_replies "$name" "$workload"
  local time=$((ended - begun)) least=${best[$name $workload]:-}
  if [ -z "$least" ] || [ "$time" -lt "$least" ]; then best[$name $workload]=$time; fi
}

run_round() {
  rm -rf base
  mkdir base
  "${program[dbmtool]}" create base/dbmtool --limit 1000000 --syncs "$syncs" || fail "dbmtool create ends by $?"
  local workload name
  for workload in "${workloads[@]}"; do
    for name in "${names[@]}"; do run "$name" "$workload"; done
  done
}

# LINES MICROSECONDS [MICROSECONDS of gdbm] : lines a second, of three digits, and the ratio to
# gdbm's.
cell() {
  awk -v lines="$1" -v time="$2" -v gdbm="${3:-}" '
    function grouped(number) {
      if (number < 1000) return number
      return grouped(int(number / 1000)) sprintf(",%03d", number % 1000)
    }
    function ratio(number) { return sprintf(number < 0.1 ? "%.2g" : "%.2f", number) }
    BEGIN {
      printf " %s", grouped(int(sprintf("%.2e", lines * 1000000 / time)))
      if (gdbm != "") printf " (%s)", ratio(gdbm / time)
      printf " |"
    }'
}

print_table() {
  local count=$1 name workload lines
  printf '\n%s pairs, best of %s: lines a second, and in brackets the ratio to gdbm\n\n' \
    "$count" "$rounds"
  printf '| What | Lines |%s\n' "$(printf ' %s |' "${names[@]}")"
  printf '|---|---|%s\n' "$(printf -- '---|%.0s' "${names[@]}")"
  for workload in "${workloads[@]}"; do
    if [ "$workload" = left ]; then continue; fi
    lines=$(wc -l < "$workload")
    printf '| %s | %s |' "${title[$workload]}" "$lines"
    for name in "${names[@]}"; do
      cell "$lines" "${best[$name $workload]}" "${best[gdbm $workload]:-}"
    done
    printf '\n'
  done
}

measure() {
  local count=$1 single round
  # so that a load has pairs too
  single=$((count / 2 < most ? count / 2 : most))
  best=()
  python3 "$top/bench/peer_texts.py" . "$count" "$single"
  for ((round = 0; round < rounds; round++)); do run_round; done
  print_table "$count"
}

add_programs
cd "$work"
echo "The last pairs, at most $most, are stored one by one, and as many deleted."
for count in "${counts[@]}"; do measure "$count"; done
