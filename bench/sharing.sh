#!/usr/bin/env bash
# Processes that share a table of 10,000 pairs, each a fetch or a store in a loop: the C library with shared handles, and with a handle that has
# the file for itself; LMDB; and SQLite with a write-ahead log. Each store is synced. For each number of processes a line of each library is
# printed. Words: a folder on the disk that is to be measured, and for how many seconds each runs (2 where it isn't given).
set -euo pipefail
top=$(cd "$(dirname "$0")/.." && pwd)
folder=${1:?the folder that is to be measured}
seconds=${2:-2}
work=$(realpath "$(mktemp -d "$folder/sharing.XXXXXX")")
trap 'rm -rf "$work"' EXIT
cd "$work"

"$top/c/build" --is-built || "$top/c/build"
cc -O2 -Wall -Wextra -I "$top/c" -o kumquatfen "$top/bench/sharing.c" "$top/bench/sharing_kumquatfen.c" "$top/c/out/libndbm.a"
programs=(kumquatfen)
# NAME HEADER PACKAGE LIBRARY: builds a driver where its library is installed
add() {
  if ! echo "#include <$2>" | cc -E - > /dev/null 2>&1; then
    echo "sharing.sh: $1 isn't there (Debian's $3)" >&2
    return
  fi
  cc -O2 -Wall -Wextra -o "$1" "$top/bench/sharing.c" "$top/bench/sharing_$1.c" "$4"
  programs+=("$1")
}
add lmdb lmdb.h liblmdb-dev -llmdb
add sqlite sqlite3.h libsqlite3-dev -lsqlite3

# how many that fetch, how many that store, and how many microseconds a writer rests
for row in '1 0 0' '3 0 0' '1 1 100000' '3 1 100000' '3 1 0' '0 1 0' '0 3 0'; do
  read -r readers writers rest <<< "$row"
  echo "$readers that fetch, $writers that store$([ "$rest" = 0 ] || echo ", with $((rest / 1000)) ms between two stores")"
  if [ $((readers + writers)) = 1 ]; then printf '  %-11s' alone; ./kumquatfen "$readers" "$writers" "$seconds" "$rest" 1; fi
  for program in "${programs[@]}"; do
    printf '  %-11s' "$program"
    "./$program" "$readers" "$writers" "$seconds" "$rest" 0
  done
done
