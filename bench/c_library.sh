#!/usr/bin/env bash
# The C library beside gdbm's ndbm interface, where that is installed, by one program: a table of calls a second, for each
# count of pairs of 16 and 32 bytes. A store of the library is synced. gdbm's isn't in one column, and is in another, by
# gdbm_sync.
# Words: a folder on the disk that is to be measured, and counts (1000, 10000 and 100000 where none is given).
#
# In the environment: ROUNDS (3), of which the best one counts; MOST (120), the seconds that a run may take, behind which that
# count and the larger ones are left out of the column; GDBM, the words by which cc finds gdbm where it isn't installed.
set -euo pipefail
top=$(cd "$(dirname "$0")/.." && pwd)
folder=${1:?the folder that is to be measured}
counts=("${@:2}")
[ ${#counts[@]} -gt 0 ] || counts=(1000 10000 100000)
rounds=${ROUNDS:-3}
most=${MOST:-120}
read -r -a gdbm <<< "${GDBM:-}"
work=$(realpath "$(mktemp -d "$folder/c_library.XXXXXX")")
trap 'rm -rf "$work"' EXIT

flags=(-O2 -Wall -Wextra "$top/bench/c_library.c")
[ -e "$top/c/out/libndbm.a" ] || "$top/c/build"
cc "${flags[@]}" "-I$top/c" "$top/c/out/libndbm.a" -o "$work/library"
columns=(library)
if echo '#include <gdbm-ndbm.h>' | cc "${gdbm[@]}" -E - > /dev/null 2>&1; then
  cc "${flags[@]}" -DGDBM "${gdbm[@]}" -lgdbm_compat -lgdbm -o "$work/gdbm"
  cc "${flags[@]}" -DGDBM -DSYNCED "${gdbm[@]}" -lgdbm_compat -lgdbm -o "$work/synced"
  columns+=(gdbm synced)
else
  echo "c_library.sh: gdbm isn't there (Debian's libgdbm-compat-dev)" >&2
fi

# the most calls a second of "COLUMN PART", for the count that is measured
declare -A best
declare -A is_slow=()

# Runs one column, and keeps its best numbers.
run() {
  local column=$1 count=$2 part=0 number
  rm -rf "$work/base" && mkdir "$work/base" && sync -f "$work"
  if ! timeout "$most" "$work/$column" "$work/base/t" "$count" > "$work/told"; then
    is_slow[$column]=1
    return
  fi
  while read -r number; do
    [ "$number" -le "${best[$column $part]:-0}" ] || best[$column $part]=$number
    part=$((part + 1))
  done < "$work/told"
}

# a number of three digits, grouped
grouped() {
  awk -v number="$1" '
    function grouped(number) {
      return number < 1000 ? number : grouped(int(number / 1000)) sprintf(",%03d", number % 1000)
    }
    BEGIN { print grouped(int(sprintf("%.2e", number))) }'
}

titles=(stores fetches 'a pass')
names=([0]=library [1]=gdbm [2]='gdbm, synced')
printf '| Calls a second | Pairs |%s\n' "$(printf ' %s |' "${names[@]:0:${#columns[@]}}")"
printf '|---|---|%s\n' "$(printf -- '---|%.0s' "${columns[@]}")"
for count in "${counts[@]}"; do
  best=()
  for ((round = 0; round < rounds; round++)); do
    for column in "${columns[@]}"; do [ -n "${is_slow[$column]:-}" ] || run "$column" "$count"; done
  done
  for part in 0 1 2; do
    printf '| %s | %s |' "${titles[$part]}" "$(awk -v count="$count" 'BEGIN { printf "10^%d", log(count) / log(10) + 0.5 }')"
    for column in "${columns[@]}"; do
      number=${best[$column $part]:-}
      printf ' %s |' "$([ -n "$number" ] && grouped "$number" || echo '-')"
    done
    printf '\n'
  done
done
