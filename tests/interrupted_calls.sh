#!/usr/bin/env bash
# Calls of the system that a signal interrupts, before they have done anything (EINTR) or when half of their bytes were moved: each call of each kind in
# turn, and the first twenty together. An opening, a lock, a read, a write or a sync of the file, a sync of its folder and a write of the output are made
# again: the command prints, ends and leaves its file to the byte as one that nothing interrupts. A read of the input is made again as well, or is told
# as `dbmtool: read`, and then what was answered is kept, and nothing else. The syncs are answered without being made. And a script that waits for a line
# or for a reader, and is stopped and goes on by signals, answers as one that is not.
. "$(dirname "$0")/common"
pid=
trap '[ -z "$pid" ] || kill -9 "$pid" 2> /dev/null; rm -rf "$work"' EXIT
preloadable interrupt
preloadable syncs

"$program" create first --limit 100 || exit 1
for digit in 1 2 3 4 5 6 7 8; do echo "6$digit 0$digit"; done | "$program" load first || exit 1
: > none
# lines longer than 16 bytes, which a read gives at most
for digit in 9 a b c; do echo "6${digit}6${digit}6${digit}6${digit} 0${digit}0${digit}0${digit}0${digit}"; done > pairs
{ sed 's/^/S /' pairs; sed 's/^/F /; s/ [0-9a-f]*$//' pairs; } > calls

# runs KIND HOW FROM TO INPUT WORD..: the command with these calls interrupted, on a copy of the first file, or none where it is made; how many calls
# of the kind there were is in $made, and how many were interrupted in $met
runs() {
  local kind=$1 how=$2 from=$3 to=$4 input=$5
  shift 5
  rm -f t.db log
  [ "$1" = create ] || cp first.db t.db
  status=0
  timeout 20 env INTERRUPTED="$kind" INTERRUPT_HOW="$how" INTERRUPT_FROM="$from" INTERRUPT_TO="$to" INTERRUPT_LOG=log SYNCS_MADE=no \
    LD_PRELOAD='./interrupt.so ./syncs.so' "$program" "$@" < "$input" > out 2> err || status=$?
  read -r made met < log || { made=0 met=0; wrong "$*, $kind $from to $to $how: no end within twenty seconds, or none of its own"; }
}

# is_as_before: the command ended as it does where nothing interrupts it
is_as_before() { [ "$status $(cat err)" = '0 ' ] && cmp -s out right.out && cmp -s t.db right.db; }

# is_told: its input was told to have failed, and what was answered, or is stored of a load, are first lines; how many are in $lines
is_told() {
  local command=$1
  [ "$status $(cat err)" = '2 dbmtool: read' ] || return 1
  "$program" dump t > left && [ "$("$program" verify t)" = "$(wc -l < left)" ] || return 1
  lines=$(($(wc -l < left) - 8))
  { head -n 8 right.dump; head -n "$lines" pairs; } | sort | cmp -s - left || return 1
  [ "$command" = load ] && [ ! -s out ] && return 0
  # each store that was answered is there, and no other one
  cmp -s out <(head -n "$(wc -l < out)" right.out) && [ "$lines" = "$(head -n 4 out | wc -l)" ]
}

again=0 told=0
# interrupts LEAST KINDS INPUT WORD..: each call of the command of these kinds in turn, and the first twenty; there are so many at least in all
interrupts() {
  local least=$1 kinds=$2 input=$3 kind how calls n all=0
  shift 3
  runs none early 1 1 "$input" "$@"
  [ "$status $(cat err)" = '0 ' ] || { echo "$*: status $status with no call interrupted, $(cat err)"; exit 1; }
  cp out right.out && cp t.db right.db || exit 1
  for kind in $kinds; do
    runs "$kind" early 0 0 "$input" "$@"
    is_as_before || wrong "$*: no call of $kind interrupted, and another end"
    calls=$made
    all=$((all + calls))
    for how in early short; do
      # only these move bytes
      [[ $how = early || $kind = *read || $kind = *write ]] || continue
      for ((n = 0; n <= calls; n++)); do
        if [ $n = 0 ]; then
          runs "$kind" "$how" 1 20 "$input" "$@"
        else
          runs "$kind" "$how" "$n" "$n" "$input" "$@"
        fi
        # none of twenty where there are no calls
        [ "$met" -gt 0 ] || [ "$calls" = 0 ] || wrong "$*, $kind $n $how: nothing was interrupted"
        if is_as_before; then
          again=$((again + 1))
        elif [ "$kind $how" = 'read early' ] && is_told "$1"; then
          told=$((told + 1))
        else
          wrong "$*, $kind $n of $calls, $how: status $status, $(cat err), or other pairs or replies"
        fi
      done
    done
  done
  [ "$all" -ge "$least" ] || wrong "$*: only $all calls could be interrupted"
}

"$program" dump first > right.dump
file='open flock pread pwrite fsync fdatasync'
# A commit writes two pages' images and its sector and has two syncs; the pages and the sector come home with two more. An opening of the file is an
# open, a lock, two reads and, for writing, a sync.
interrupts 14 "$file write" none store t 69 09 -x
interrupts 14 "$file write" none delete t 61 -x
interrupts 14 "$file read write" pairs load t --group 1
interrupts 14 "$file read write" pairs load t --group 2
interrupts 14 "$file read write" calls script t
# one of the folder besides
interrupts 8 "$file" none create t --limit 100
for command in dump list verify stat; do interrupts 5 "$file write" none $command t; done
interrupts 5 "$file write" none fetch t 61 -x
interrupts 4 "open flock read write" calls rehearse t --stops 3
echo "$again interrupted commands ended as others do, $told told it"
[ "$again" -gt 100 ] || wrong "too few were interrupted to tell anything"

# signals: it is stopped, and goes on
signals() {
  for _ in 1 2 3; do
    kill -STOP "$pid" && sleep 0.05 && kill -WINCH "$pid" && kill -CONT "$pid" && sleep 0.05 || wrong "the script has ended"
  done
}

# 20,000 replies of 130 bytes are more than a pipe holds, so that it waits for a reader as well.
cp first.db t.db
long=$(printf '07%.0s' $(seq 65))
mkfifo lines replies || exit 1
"$program" script t < lines > replies 2> err &
pid=$!
exec {to}> lines {from}< replies
signals
echo "S 6b $long" >&"$to"
read -t 20 -r -u "$from" reply
[ "$reply" = 0 ] || { echo "a script that was stopped while it waited for a line answers '$reply'"; exit 1; }
signals
for ((n = 0; n < 20000; n++)); do echo 'F 6b'; done >&"$to" &
writer=$!
sleep 0.2
signals
exec {to}>&-
timeout 20 uniq -c <&"$from" > counted || { echo "a script that was stopped while it waited for a reader comes to no end"; exit 1; }
exec {from}<&-
wait "$writer"
wait "$pid" || wrong "a script that was stopped ends with status $?, $(cat err)"
pid=
[ "$(xargs < counted)" = "20000 $long" ] || wrong "a script that was stopped while it waited for a reader answers otherwise: $(cut -c1-80 counted)"
[ "$("$program" fetch t 6b -x)" = "$long" ] || wrong "a script that was stopped loses a pair"
exit $bad
