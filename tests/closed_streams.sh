#!/usr/bin/env bash
# The program where its caller has closed standard input, output or the stream of errors: the database's file never takes their
# place, so nothing that is printed gets into it.
. "$(dirname "$0")/common"

"$program" create t --limit 100 && "$program" store t key content || exit 1
cp t.db before

# what prints nothing needs no stream
"$program" store t key other <&- >&- 2>&- || wrong "a store with closed streams: status $?"
[ "$("$program" fetch t key)" = other ] || wrong "a store with closed streams stored nothing"
"$program" store t key content <&- >&- 2>&- || wrong "a store with closed streams: status $?"
[ "$("$program" fetch t key)" = content ] || wrong "a store with closed streams stored nothing"

# what can't be printed is told, and the file keeps its pairs
"$program" dump t > before.text
for words in 'fetch t key' 'list t' 'dump t' 'stat t' 'verify t' 'faults'; do
  # shellcheck disable=SC2086
  "$program" $words >&- 2> err < /dev/null
  status=$?
  [ "$status" = 2 ] && [ "$(cat err)" = 'dbmtool: write' ] || wrong "dbmtool $words with a closed output: status $status, $(cat err)"
done
"$program" load t <&- 2> err; status=$?
[ "$status" = 2 ] && [ "$(cat err)" = 'dbmtool: read' ] || wrong "a load from a closed input: status $status, $(cat err)"

# a fault that nobody is told has its status
"$program" fetch missing key 2>&- < /dev/null; [ $? = 2 ] || wrong "a fault with a closed stream of errors has another status"
"$program" fetch t 6 -x 2>&- < /dev/null; [ $? = 3 ] || wrong "a wrong word with a closed stream of errors has another status"

"$program" dump t | cmp -s - before.text || wrong "the database has other pairs"
exit $bad
