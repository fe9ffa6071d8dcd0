#!/usr/bin/env bash
# The times of scripts of 4,000 and of 40,000 lines over 500 keys in memory: a store and a fetch of each key in turn.
set -eu
top=$(cd "$(dirname "$0")/.." && pwd)
work=$(mktemp -d)
trap 'rm -rf "$work"' EXIT
TIMEFORMAT='%R s'
printf 'F 00\n' | "$top/dbmtool" script --memory 1000 > "$work/out"   # builds
for lines in 4000 40000; do
  awk -v lines="$lines" 'BEGIN { for (i = 0; i < lines / 2; i++) printf "S %04x %02x\nF %04x\n", i % 500, i % 256, i % 500 }' > "$work/script"
  printf '%s lines: ' "$lines"
  time "$top/crates/dbmtool/out/dbmtool" script --memory 1000 < "$work/script" > "$work/out"
done
