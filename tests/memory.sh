#!/usr/bin/env bash
# 100,000 stores over 500 keys in a database in memory, within 50 MB: a device in memory keeps its newest contents, and no write that is
# followed by another one.
. "$(dirname "$0")/common"
seq 0 99999 | awk '{ printf "S %04x %08x\n", $1 % 500, $1 }' > script
(ulimit -v 50000 && exec "$program" script --memory 1000000) < script > out 2> err
status=$?
if [ "$status" != 0 ] || [ -s err ] || [ "$(wc -l < out)" != 100000 ] || grep -qvx 0 out; then
  echo "the stores end with status $status, and $(grep -cx 0 out) of them are acknowledged"
  cat err
  exit 1
fi
