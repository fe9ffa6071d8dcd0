#!/usr/bin/env bash
# A rehearsal of a file of 10 MB, with a few stops: its counts are right, it keeps each stop, and the file stays as it is. It holds the file in memory:
# twenty times the file's size are enough, and where it has twice as much, it tells fault 1 and no count. Of a file of which half was cut away it tells
# that it is damaged.
. "$(dirname "$0")/common"

# 4,000 pairs of 1,204 bytes, so that none shares its page.
awk 'BEGIN {
  for (zeros = "00"; length(zeros) < 2400; ) zeros = zeros zeros
  for (i = 0; i < 4000; i++) printf "%08x %s\n", i, substr(zeros, 1, 2400)
}' > pairs
"$program" create large --limit 5000 && "$program" load large --group 10000 < pairs || exit 1
bytes=$(stat -c %s large.db)
[ "$bytes" -gt $((4000 * 2048)) ] || wrong "the file has $bytes bytes, and 4,000 pairs of a page each"
cp large.db before

# count NAME: what was printed behind this name
count() { sed -n "s/^$1 //p" out; }

# rehearses CALLS STOPS KILOBYTES: the lines in the file `in` are rehearsed so
rehearses() {
  local status=0
  (ulimit -v "$3" && exec timeout 100 "$program" rehearse large --stops "$2") < in > out 2> err || status=$?
  [ "$status" = 0 ] && [ ! -s err ] || wrong "a rehearsal of $bytes bytes ends with status $status, $(cat err)"
  [ "$(count calls) $(count stops) $(count reopened) $(count kept)" = "$1 $2 $2 $2" ] || wrong "a rehearsal of $bytes bytes has other counts: $(xargs < out)"
  cmp -s large.db before || wrong "a rehearsal changes a file of $bytes bytes"
}

# A store of a new pair, one of a pair that is there, and a delete; a bad line; a fetch, which changes nothing.
printf 'S ffff 01\nS 00000000 02\nQ\nD 00000f9f\nF 00000001\n' > in
rehearses 4 7 204800
[ "$(head -n 1 out)" = '-1 line' ] || wrong "a bad line is told otherwise"
# each change has a read, three writes and two syncs at least
[ "$(count 'device calls')" -ge 18 ] || wrong "there are only $(count 'device calls') device calls"
echo 'S 61 01' > in
rehearses 1 1 204800

# too little memory
status=0
(ulimit -v 20480 && exec timeout 100 "$program" rehearse large --stops 2) < in > out 2> err || status=$?
[ "$status $(cat err)" = '2 dbmtool: fault 1' ] && [ ! -s out ] || wrong "a rehearsal with too little memory: status $status, $(cat err)"
cmp -s large.db before || wrong "a rehearsal with too little memory changes the file"

# a file that lost its second half
head -c $((bytes / 2048 / 2 * 2048)) before > cut.db
"$program" rehearse cut --stops 2 < in > out 2> err; [ $? = 2 ] && [ "$(cat err)" = 'dbmtool: fault 9' ] && [ ! -s out ] ||
  wrong "a file of which half is cut away is rehearsed: $(cat err)"
exit $bad
