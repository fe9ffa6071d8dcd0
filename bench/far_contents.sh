#!/usr/bin/env bash
# Contents of 60,000 bytes, which lie in pages of their own. Of the C library the fetches are timed, beside bare reads of the same
# pages, and the stores, beside their own writes and syncs as bare calls of the system. What a store reads, writes and syncs is
# counted, of the library and of dbmtool. Without strace the stores are left out.
# Words: a folder on the disk that is to be measured, and how many contents, up to 2,048 (500 where none is given).
#
# In the environment: ROUNDS (3), of which the best one counts; DBMTOOL, a built program to measure in place of this tree's.
set -euo pipefail
top=$(cd "$(dirname "$0")/.." && pwd)
folder=${1:?the folder that is to be measured}
count=${2:-500}
rounds=${ROUNDS:-3}
size=60000
work=$(realpath "$(mktemp -d "$folder/far_contents.XXXXXX")")
trap 'rm -rf "$work"' EXIT
# builds
[ -n "${DBMTOOL:-}" ] || printf 'F 00\n' | "$top/dbmtool" script --memory 100 > /dev/null
program=$(realpath "${DBMTOOL:-$top/crates/dbmtool/out/dbmtool}")
[ -e "$top/c/out/libndbm.a" ] || "$top/c/build"
cc -O2 -Wall -Wextra "$top/bench/far_contents.c" "-I$top/c" "$top/c/out/libndbm.a" -o "$work/far"
cd "$work"

fail() {
  echo "far_contents.sh: $*" >&2
  exit 1
}

# Stores and fetches are of two kinds: of new pairs, and of such whose contents have taken the place of others.
kinds=(new replaced)
declare -A round_of=([new]=0 [replaced]=1)

# begin KIND: t.db is what stores of this kind begin with
begin() {
  rm -f t.db
  [ "$1" = new ] || cp new.db t.db
  # what was written before is not to be written within the time of what comes
  sync -f .
}

# the least nanoseconds of "WHAT PART"
declare -A best

# keep WHAT NUMBER..: keeps the numbers of a run where they are the least ones
keep() {
  local what=$1 part=0 number
  for number in "${@:2}"; do
    [ "${best[$what $part]:-$number}" -lt "$number" ] || best[$what $part]=$number
    part=$((part + 1))
  done
}

# ---- fetches

make_databases() {
  ./far store new "$count" 0 > told || fail "far store ends by $?"
  cp new.db replaced.db
  ./far store replaced "$count" 1 > told || fail "far store ends by $?"
}

# fetch_all MODE: `fetch`, or `cold` where the system is to keep nothing of the file in memory
fetch_all() {
  local kind
  for kind in "${kinds[@]}"; do
    ./far "$1" "$kind" "$count" "${round_of[$kind]}" > told || fail "far $1 ends by $?"
    mapfile -t times < told
    keep "$1 $kind" "${times[@]}"
  done
}

# print_fetches MODE..
print_fetches() {
  local parts=('fetches' 'bare reads, one of each page' 'bare reads, one of each run of pages') part mode kind
  declare -A where=([fetch]='in memory' [cold]='on the disk')
  printf '| MB of contents a second |'
  for mode in "$@"; do printf ' %s |' "new, ${where[$mode]}" "replaced, ${where[$mode]}"; done
  printf '\n|---|%s\n' "$(printf -- '---|---|%.0s' "$@")"
  for part in 0 1 2; do
    printf '| %s |' "${parts[$part]}"
    for mode in "$@"; do
      for kind in "${kinds[@]}"; do
        awk -v bytes=$((size * count)) -v time="${best[$mode $kind $part]}" 'BEGIN { printf " %d |", sprintf("%.2e", bytes * 1000 / time) }'
      done
    done
    printf '\n'
  done
}

# ---- what stores write

# traced LIST WORD..: runs a program, and lists its reads, writes and syncs of t.db: R SIZE PLACE, W SIZE PLACE, S
traced() {
  local list=$1
  shift
  strace -f -y -o trace -s 0 -e trace=pread64,pwrite64,fdatasync,fsync "$@" > told || fail "$1 $2 ends by $?"
  grep -E '^[0-9]+ +[a-z0-9]+\([0-9]+<[^>]*/t\.db>' trace | sed -E 's/^[0-9]+ +//; s/<[^>]*>//' > calls
  sed -nE 's/^pread64\([0-9]+, ""[.]*, ([0-9]+), ([0-9]+)\) += [0-9]+$/R \1 \2/p
    s/^pwrite64\([0-9]+, ""[.]*, ([0-9]+), ([0-9]+)\) += \1$/W \1 \2/p
    s/^(fsync|fdatasync)\([0-9]+\) += 0$/S/p' calls > "$list"
  [ "$(wc -l < "$list")" = "$(wc -l < calls)" ] || fail "a call of $1 $2 isn't understood"
}

# by_library KIND MODE STORES LIST
by_library() {
  begin "$1"
  traced "$4" ./far "$2" t "$3" "${round_of[$1]}"
}

# by_program KIND STORES LIST
by_program() {
  begin "$1"
  [ "$1" = replaced ] || "$program" create t --v2 || fail "create ends by $?"
  ./far text t "$2" "${round_of[$1]}" > lines
  traced "$3" "$program" script t < lines
}

# print_counts TITLE MANY LIST [ONE]: a row of the table: what one of the stores of the list takes. A list ONE of a single store is
# taken off first.
print_counts() {
  # shellcheck disable=SC2016
  local counted='{ calls[$1]++; bytes[$1] += $2 } END { print calls["R"] + 0, calls["W"] + 0, bytes["W"] + 0, calls["S"] + 0 }'
  awk -v title="$1" -v many=$(($2 - ($# == 4))) -v size=$size -v all="$(awk "$counted" "$3")" -v one="$(awk "$counted" "${4:-/dev/null}")" '
    BEGIN {
      split(all, a)
      split(one, b)
      for (i = 1; i <= 4; i++) n[i] = (a[i] - b[i]) / many
      printf "| %s | %.1f | %.1f | %.0f | %.2f | %.2f |\n", title, n[1], n[2], n[3], n[3] / size, n[4]
    }'
}

print_writes() {
  local kind key content
  echo '| A store | reads | writes | bytes written | of the content | syncs |'
  echo '|---|---|---|---|---|---|'
  for kind in "${kinds[@]}"; do
    by_library "$kind" store 1 one
    by_library "$kind" store "$count" "store.$kind"
    print_counts "library, in a row, $kind" "$count" "store.$kind" one
    by_library "$kind" single "$count" "single.$kind"
    print_counts "library, opened for each, $kind" "$count" "single.$kind"
    by_program "$kind" 1 one
    by_program "$kind" "$count" all
    print_counts "dbmtool script, in a row, $kind" "$count" all one
  done
  begin replaced
  ./far text t 1 1 > lines
  read -r _ key content < lines
  traced one "$program" store -x t "$key" "$content"
  print_counts 'dbmtool store, replaced' 1 one
}

# ---- the times of stores

store_all() {
  local kind mode
  for kind in "${kinds[@]}"; do
    for mode in store single; do
      begin "$kind"
      ./far "$mode" t "$count" "${round_of[$kind]}" > told || fail "far $mode ends by $?"
      begin "$kind"
      grep -v '^R' "$mode.$kind" | ./far carry t.db >> told || fail "far carry ends by $?"
      mapfile -t times < told
      keep "$mode $kind" "${times[@]}"
    done
  done
}

print_stores() {
  local kind mode
  declare -A title=([store]='in a row' [single]='opened for each')
  echo '| Milliseconds a store | library | bare writes and syncs |'
  echo '|---|---|---|'
  for kind in "${kinds[@]}"; do
    for mode in store single; do
      awk -v title="${title[$mode]}, $kind" -v count="$count" -v all="${best[$mode $kind 0]}" -v bare="${best[$mode $kind 1]}" \
        'BEGIN { printf "| %s | %.3f | %.3f |\n", title, all / count / 1e6, bare / count / 1e6 }'
    done
  done
}

modes=(fetch)
[ "$(stat -f -c %T .)" = tmpfs ] || modes+=(cold)
make_databases
for ((round = 0; round < rounds; round++)); do
  for mode in "${modes[@]}"; do fetch_all "$mode"; done
done
print_fetches "${modes[@]}"
strace -o trace true 2> /dev/null || { echo "far_contents.sh: there is no strace that works" >&2; exit 0; }
echo
print_writes
for ((round = 0; round < rounds; round++)); do store_all; done
echo
print_stores
