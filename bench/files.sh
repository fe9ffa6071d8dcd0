#!/usr/bin/env bash
# A database in a real file: the times of loading, dumping, listing, storing and fetching, beside the bare system calls of as many
# stores. Words: a folder on the disk that is to be measured.
set -eu
top=$(cd "$(dirname "$0")/.." && pwd)
program=$top/crates/dbmtool/out/dbmtool
work=$(mktemp -d "${1:-.}/bench.XXXXXX")
trap 'rm -rf "$work"' EXIT
cd "$work"
TIMEFORMAT='%R s'
printf 'F 00\n' | "$top/dbmtool" script --memory 100 > /dev/null   # builds
cc -O2 -o bare "$top/bench/bare_stores.c"
pairs() { awk -v count="$1" 'BEGIN { for (i = 0; i < count; i++) printf "%08x%08x %08x\n", i * 2654435761 % 4294967296, i, i }'; }
pairs 10000 > pairs
"$program" create t --limit 1000000
printf 'load of 10,000 pairs, each with its own commit: '; time "$program" load t --group 1 < pairs
printf 'dump of them: '; time "$program" dump t > dumped
printf 'list of them: '; time "$program" list t > listed
printf 'the same stores again: '; time "$program" load t --group 1 < pairs
printf 'as many stores as bare system calls: '; time ./bare file 10000
pairs 100000 > more
"$program" load t < more
awk '{ print "F", $1 }' more > fetches
printf '100,000 fetches among 100,000 pairs: '; time "$program" script t < fetches > found
if command -v strace > /dev/null; then
  head -n 100 pairs | sed 's/^/S /' > stores
  strace -c -e trace=pread64,pwrite64,fdatasync "$program" script t < stores 2>&1 > /dev/null | awk '/pread64|pwrite64|fdatasync/ { printf "%s calls of %s in 100 stores\n", $4, $NF }'
fi
