#!/usr/bin/env bash
# Long inputs. Loads of 1,000,002 lines over 1,000 keys, line by line and in groups, in both forms: each line counts, the number of a bad one behind
# them is right, and the last content of each key stays. A script of 2,000,000 lines, in memory and on a file, has as many lines of answer, each
# the right one. The syncs are answered without being made.
. "$(dirname "$0")/common"
preloadable syncs
export SYNCS_MADE=no

# lines_of FORM: 1,000,000 lines, of which line n has key n modulo 1,000, and n as its content
lines_of() {
  awk -v form="$1" 'BEGIN {
    for (n = 1; n <= 1000000; n++) if (form == "text") printf "k%03d\t%07d\n", n % 1000, n; else printf "%06x %06x\n", n % 1000, n
  }'
}
lines_of text > fields && lines_of words > hex || exit 1

# stays FORM: the dump that they leave: the last lines are 999,001 to 1,000,000, whose keys are 1 to 999 and then 0
stays() {
  awk -v form="$1" 'BEGIN {
    for (key = 0; key < 1000; key++) {
      n = key == 0 ? 1000000 : 999000 + key
      if (form == "text") printf "k%03d\t%07d\n", key, n; else printf "%06x %06x\n", key, n
    }
  }'
}

# loads FORM INPUT END MESSAGE WORD..: the lines, and behind them those of END, are loaded into a new database, which ends with this message, and
# with status 2 where there is one
loads() {
  local form=$1 input=$2 end=$3 message=$4 status=0 wanted=0
  local -a dump=(dump t)
  shift 4
  rm -f t.db && "$program" create t --limit 1001 || exit 1
  [ -z "$message" ] || wanted=2
  [ "$form" != text ] || dump+=(--text)
  { cat "$input"; printf '%b' "$end"; } | LD_PRELOAD=./syncs.so "$program" load t "$@" > out 2> err || status=$?
  [ "$status" = "$wanted" ] && [ "$(cat err)" = "$message" ] && [ ! -s out ] || wrong "load $* of long $form: status $status, $(head -c 80 err)"
  "$program" "${dump[@]}" | cmp - after || wrong "load $* of long $form leaves other pairs"
}

# Line 1,000,001 is a new key, and line 1,000,002 is bad, so that a load whose lines have a commit each has stored the one before.
{ stays text; printf 'last\tone\n'; } > after
loads text fields 'last\tone\nno tab\n' 'dbmtool: line 1000002' --text --group 1
loads text fields 'last\tone\nno tab\n' 'dbmtool: line 1000002' --text
loads text fields 'last\tone' '' --text --group 100000
# a group that divides no number of lines here
loads text fields 'last\tone\nno tab\n' 'dbmtool: line 1000002' --text --group 777
{ stays words; echo 'ff .'; } > after
loads words hex 'FF .\n' ''
# line 1,000,002 has one key more than the limit allows
loads words hex 'ff .\nfe .\n' 'dbmtool: fault 6'
loads words hex 'ff .\nfe .\n' 'dbmtool: fault 6' --group 1

# 2,000,000 lines: a store, fetches of it and of an absent key by turns, a bad line now and then, and at the end a number that says which was the last
awk 'BEGIN {
  print "S 61 0102" > "calls"; print "0" > "replies"
  for (n = 2; n < 2000000; n++) {
    if (n % 1000 == 0) { printf "S 61 %06x\n", n > "calls"; print "0" > "replies"; content = sprintf("%06x", n) }
    else if (n % 1001 == 0) { print "Q" > "calls"; print "-1 line" > "replies" }
    else if (n % 2) { print "F 61" > "calls"; print content ? content : "0102" > "replies" }
    else { print "F 62" > "calls"; print "none" > "replies" }
  }
  printf "F 61" > "calls"; print content > "replies"
}'
[ "$(wc -l < replies)" = 2000000 ] || { echo "the check has other replies than it should have"; exit 1; }

# answers NAME WORD..: the script of these words answers each line
answers() {
  "$program" "$@" < calls > found 2> err || wrong "$*: a long script ends with status $?, $(cat err)"
  [ "$(wc -l < found)" = 2000000 ] || wrong "$*: 2,000,000 calls have $(wc -l < found) lines of answer"
  [ "$(tail -n 1 found)" = 1e8098 ] || wrong "$*: the last answer is $(tail -n 1 found)"
  cmp found replies || wrong "$*: a long script is answered otherwise"
}

answers script --memory 10
rm -f t.db && "$program" create t --limit 10 || exit 1
export LD_PRELOAD=./syncs.so
answers script t
unset LD_PRELOAD
# 1e8098 is 1,999,000, the last number of a store
[ "$("$program" dump t)" = '61 1e8098' ] || wrong "a long script leaves other pairs in its file"
exit $bad
