#!/usr/bin/env bash
# A script of nine stores and a fetch of each key, on a file of which a read, a write or a sync fails: each in turn, once, or made before it
# fails, or with all that come after it. A call is refused by fault 2 where the failed one is its own, and by fault 3 only where a change
# failed before; each other reply is right. The file then has each acknowledged pair, and one more at most, whether the sectors that no sync
# came behind are kept or lost, or each second one is. How many failed calls break the database, and how many only its closing, is as the
# format has it.
. "$(dirname "$0")/common"
preloadable fail

"$program" create empty --limit 100 || exit 1
for digit in 1 2 3 4 5 6 7 8 9; do echo "F 6$digit"; done > fetches
{ for digit in 1 2 3 4 5 6 7 8 9; do echo "S 6$digit 0$digit"; done; cat fetches; } > lines

# A page or a sector is written by one call. A commit writes the redo images, one a page, and the commit sector, each with a sync behind it;
# to settle it the pages and the commit sector are written likewise. Eight stores are of the head page and the meta page, which the next one
# writes anew, so that none of them comes home; the ninth opens a bucket, so that its commit is of four pages, which the closing settles.
in_commits=$((8 * (2 + 1 + 1 + 1) + (4 + 1 + 1 + 1)))
in_closing=$((4 + 1 + 1 + 1))

# how_it_went GOES_ON STATUS: how the script in the files out and err went, with what is found since in the file found
how_it_went() {
  awk -v goes_on="$1" -v status="$2" -v fault="$(cat err)" '
    function wrong(what) { print "wrong: " what; done = 1; exit }
    { file = FILENAME; n = FNR }
    file == "out" && /^-1 fault 2$/ { failed++; next }
    file == "out" && /^-1 fault 3$/ { broken++; next }
    file == "out" && broken { wrong("an answer of a broken database") }
    file == "out" && n <= 9 { if ($0 != "0") wrong("a store is answered " $0); stored[n] = 1; next }
    file == "out" { if ($0 != (stored[n - 9] ? "0" n - 9 : "none")) wrong("a fetch is answered " $0); next }
    $0 == "none" { if (stored[n]) wrong("an acknowledged pair is lost"); next }
    $0 != "0" n { wrong("another content is found") }
    !stored[n] && (++more > 1 || !broken) { wrong("a pair is there whose store was refused") }
    END {
      if (done) exit
      if (n != 9) print "wrong: there is no database since"
      else if (failed > 1 && (broken || goes_on)) print "wrong: more than one call failed"
      else if (!failed && !broken && status == 0) print "whole"
      else if (!failed && !broken && fault == "dbmtool: fault 2") print "unclosed"
      else if (!broken && (status == 0 || !goes_on && fault == "dbmtool: fault 2")) print "refused"
      else if (failed == 1 && fault == "dbmtool: fault 3") print "broken"
      else print "wrong: status " status ", " fault
    }' out found
}

# runs N HOW LOSE: the script with call N failed so, on a copy of the empty file, in $went
runs() {
  local status=0 goes_on=1
  [ "$2" != from ] || goes_on=0
  cp empty.db t.db
  FAIL_CALL=$1 FAIL_HOW=$2 FAIL_LOSE=$3 LD_PRELOAD=./fail.so "$program" script t < lines > out 2> err || status=$?
  "$program" script t < fetches > found 2> /dev/null
  if [ ! -s out ] && [ "$status" = 2 ] && [ "$(cat err)" = 'dbmtool: fault 2' ] && [ "$(uniq found)" = none ]; then
    went=unopened
  else
    went=$(how_it_went "$goes_on" "$status")
  fi
}

for how in once late from; do
  for lose in kept lost odd even; do
    declare -A times=([broken]=0 [unclosed]=0)
    for ((n = 1; n < 1000; n++)); do
      runs "$n" "$how" "$lose"
      [ "$went" != whole ] || break
      [ "${went#wrong}" = "$went" ] || wrong "call $n fails $how, unsynced sectors $lose: $went"
      times[$went]=$((${times[$went]:-0} + 1))
    done
    [ "$went" = whole ] || wrong "fails $how: no run in which no call fails"
    [ "${times[broken]}" = "$in_commits" ] && [ "${times[unclosed]}" = "$in_closing" ] ||
      wrong "fails $how: ${times[broken]} calls break the database, and ${times[unclosed]} its closing alone"
    echo "fails $how, unsynced sectors $lose: $n calls"
  done
done
exit $bad
