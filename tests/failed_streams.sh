#!/usr/bin/env bash
# Scripts, loads, dumps and lists whose input or output fails behind each number of bytes, which come and go one at a time: what is told, what
# was written, and which calls were made.
. "$(dirname "$0")/common"
preloadable streams

# fails INPUT|OUTPUT COUNT WORD..: the command on the file `in`, with that stream failed behind so many bytes, tells so
fails() {
  local stream=$1 count=$2 told=read status=0
  shift 2
  if [ "$stream" = OUTPUT ]; then told=write; export WRITE_FAILS=$count; else export READ_FAILS=$count; fi
  LD_PRELOAD=./streams.so "$program" "$@" < in > out 2> err || status=$?
  unset READ_FAILS WRITE_FAILS
  [ "$status" = 2 ] && [ "$(cat err)" = "dbmtool: $told" ] || wrong "$*, $stream failed behind $count bytes: status $status, $(cat err)"
}

# holds PAIRS TEXT: t.db has these pairs, and this was written; `/` stands for the end of a line
holds() {
  [ "$("$program" dump t < /dev/null | tr '\n' /)" = "$1" ] || wrong "there are other pairs than $1 at $n"
  [ "$(tr '\n' / < out)" = "$2" ] || wrong "another text than $2 was written at $n"
}

# The calls of the whole lines are made and answered, and no other.
"$program" create empty --limit 100 || exit 1
printf 'S 61 01\nS 62 02\nF 61\n' > in
for ((n = 0; n < 21; n++)); do
  cp empty.db t.db
  fails INPUT "$n" script t
  if ((n < 8)); then holds '' ''; elif ((n < 16)); then holds '61 01/' '0/'; else holds '61 01/62 02/' '0/0/'; fi
done

# The call whose reply is cut short is made too.
replies='0/0/01/'
for ((n = 0; n < 7; n++)); do
  cp empty.db t.db
  fails OUTPUT "$n" script t
  if ((n < 2)); then holds '61 01/' "${replies:0:n}"; else holds '61 01/62 02/' "${replies:0:n}"; fi
done

# The same of a script in the text form.
printf 'S\ta\t1\nS\tb\t2\nF\ta\n' > in
for ((n = 0; n < 16; n++)); do
  cp empty.db t.db
  fails INPUT "$n" script --text t
  if ((n < 6)); then holds '' ''; elif ((n < 12)); then holds '61 31/' '0/'; else holds '61 31/62 32/' '0/0/'; fi
done
replies='0/0/1/'
for ((n = 0; n < 6; n++)); do
  cp empty.db t.db
  fails OUTPUT "$n" script --text t
  if ((n < 2)); then holds '61 31/' "${replies:0:n}"; else holds '61 31/62 32/' "${replies:0:n}"; fi
done

# The pairs of the whole lines are stored, whatever number of them may share a commit.
printf '61 01\n62 02\n' > in
for group in 1 2 100; do
  for ((n = 0; n <= 12; n++)); do
    cp empty.db t.db
    fails INPUT "$n" load t --group "$group"
    if ((n < 6)); then holds '' ''; elif ((n < 12)); then holds '61 01/' ''; else holds '61 01/62 02/' ''; fi
  done
done

# A dump and a list end where they were cut short, and the pairs stay.
cp empty.db t.db
printf '62 .\n61 ff\n' | "$program" load t || exit 1
: > in
pairs='61 ff/62 ./'
keys='61/62/'
for ((n = 0; n < ${#pairs}; n++)); do fails OUTPUT "$n" dump t; holds "$pairs" "${pairs:0:n}"; done
for ((n = 0; n < ${#keys}; n++)); do fails OUTPUT "$n" list t; holds "$pairs" "${keys:0:n}"; done

# Nobody reads on: the program ends silently, with the status of one that SIGPIPE has ended.
"$program" create many && awk 'BEGIN { for (n = 0; n < 20000; n++) printf "%08x .\n", n }' | "$program" load many || exit 1
for command in dump list; do
  { "$program" --verbose "$command" many 2> err; echo $? > status; } | head -n 1 > out
  [ "$(cat status)" = 141 ] && [ ! -s err ] && [ "$(wc -l < out)" = 1 ] || wrong "$command to a closed pipe: status $(cat status), $(cat err)"
done
# the calls of a script whose replies nobody reads are made as far as it came
{ (echo 'S 61 01'; sleep 1; for ((n = 0; n < 20000; n++)); do echo 'F 61'; done; echo 'D 61') | "$program" script t 2> err; echo $? > status; } | head -n 1 > out
[ "$(cat status)" = 141 ] && [ ! -s err ] && [ "$("$program" fetch -x t 61)" = 01 ] || wrong "a script to a closed pipe: status $(cat status), $(cat err)"
exit $bad
