#!/usr/bin/env bash
# Progress: a load, a dump, a list, a verify and a rehearsal of more than a second count their steps on a terminal, in one line, which is written anew
# once a second at most and taken away before anything else is written there. No byte of it goes elsewhere, nor in the first second.
. "$(dirname "$0")/common"
command -v script > out || { echo "script, which gives a terminal, is needed (Debian: bsdutils)"; exit 1; }
preloadable slow
slow="LD_PRELOAD=./slow.so SLOW_CALLS=4 $program"
printf -v erased '\r%34s\r' ''

# on_terminal COMMAND: what it writes on a terminal goes into the file `shown`
on_terminal() { script -qec "$1" /dev/null < /dev/null > shown; }

# counts STATUS WORDS END COMMAND: where errors go to a terminal, the command counts steps by these words, which are alternatives in a
# pattern, takes the line away and writes this end; where they go elsewhere, it writes this end alone
counts() {
  local wanted=$1 words="^[1-9][0-9]* ($2)\$" end=$3 command=$4 status=0 began=$EPOCHREALTIME ended text lines
  on_terminal "$command" || status=$?
  ended=$EPOCHREALTIME
  text=$(tr -d '\n' < shown)
  [ "$status" = "$wanted" ] || wrong "$command: status $status on a terminal"
  [ "${text##*"$erased"}" = "${end:+$end$'\r'}" ] || wrong "$command: another end on a terminal: $text"
  lines=$(tr '\r' '\n' <<< "${text%"$erased"*}" | sed '/^ *$/d')
  grep -qE "$words" <<< "$lines" && ! grep -qvE "$words" <<< "$lines" || wrong "$command shows something else: $lines"
  awk '$2 $3 == work && $1 <= last { bad = 1 } { work = $2 $3; last = $1 } END { exit bad }' <<< "$lines" || wrong "$command doesn't count up: $lines"
  awk -v from="$began" -v to="$ended" 'END { exit NR > to - from }' <<< "$lines" || wrong "$command shows more than a line a second: $lines"
  { bash -c "$command" 2>&1 >&3 | cat > err; } 3> /dev/null
  [ "$(cat err)" = "$end" ] || wrong "$command: another text in a pipe of errors: $(cat err)"
}

# 600 pairs of a page each, whose list fills a pipe, and which are more than the pages that are kept in memory
awk 'BEGIN {
  for (zeros = "00"; length(zeros) < 2000; ) zeros = zeros zeros
  for (i = 0; i < 600; i++) printf "%04x%s %s\n", i, substr(zeros, 1, 200), substr(zeros, 1, 2000)
}' > pairs
"$program" create t && "$program" load t < pairs && "$program" list t > listed || exit 1
"$program" create empty || exit 1
head -n 40 pairs > some
{ cat some; echo Q; } > bad_line
awk 'BEGIN { for (i = 0; i < 90; i++) printf "S %02x 00\n", i }' > calls

counts 0 'keys read' '' "$slow list t > out"
cmp -s out listed || wrong "another list where it is slow"
counts 0 'pairs read|pairs written' '' "$slow dump t > out"
cmp -s out pairs || wrong "another dump where it is slow"
counts 0 'buckets verified' '' "$slow verify t > out"
[ "$(cat out)" = 600 ] || wrong "another number of pairs where a verify is slow"
counts 0 'lines loaded' '' "cp empty.db new.db; $slow load new --group 1 < some"
counts 2 'lines loaded' 'dbmtool: line 41' "cp empty.db new.db; $slow load new --group 1 < bad_line"
counts 0 'stops made' '' "$program rehearse --memory 200 < calls > out"
[ "$(head -n 1 out)" = 'calls 90' ] || wrong "the rehearsal is another"

# readers that keep a list and a dump waiting while they write
counts 0 'keys written' '' "$program list t | (sleep 2; cat) > out"
counts 0 'pairs written' '' "$program dump --text t | (sleep 2; cat) > out"

# a list that is printed on the same terminal, and a load of lines that are typed there
on_terminal "$slow list t"
head -n 1 shown | grep -q 'keys read' || wrong "a list on a terminal shows nothing"
sed '1s/.*\r \{34\}\r//; s/\r$//' shown | cmp - listed || wrong "a list on a terminal is mixed with its progress"
cp empty.db new.db
script -qec "$slow load new --group 1" /dev/null < some > shown
[ "$("$program" stat new | head -n 1)" = 'pairs 40' ] || wrong "lines that are typed aren't loaded"
grep -q 'lines loaded' shown && wrong "progress stands among lines that are typed"

# to a file, and in the first second
bash -c "$slow list t" > out 2> err
[ ! -s err ] || wrong "a slow list shows something in a file: $(cat -v err)"
on_terminal "$program list t > out"
[ ! -s shown ] || wrong "a fast list shows something: $(cat -v shown)"
on_terminal "$program fetch t absent"
[ ! -s shown ] || wrong "a fetch shows something: $(cat -v shown)"
exit $bad
