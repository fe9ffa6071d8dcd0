#!/usr/bin/env bash
# A script that is talked to through two pipes: each line's reply comes before the next line is sent, a line in two halves is answered
# after the second, and a store whose reply was seen is there after a kill. A text in a file is answered in large writes.
. "$(dirname "$0")/common"
pid=
trap '[ -z "$pid" ] || kill -9 "$pid" 2> /dev/null; rm -rf "$work"' EXIT
trap 'echo "the program reads no more"; exit 1' PIPE

# starts WORDS..: the program that is talked to from now on
starts() {
  rm -f lines replies
  mkfifo lines replies || exit 1
  "$program" "$@" < lines > replies 2> err &
  pid=$!
  exec {to}> lines {from}< replies
}

# sends TEXT, in which \n is a line feed
sends() { printf '%b' "$1" >&"$to"; }

# replied REPLY LINE: the reply comes now, with nothing more sent
replied() {
  local reply
  read -t 20 -r -u "$from" reply || { echo "no reply to '$2'"; exit 1; }
  [ "$reply" = "$1" ] || wrong "the reply to '$2' is '$reply', and not '$1'"
}

# waits TEXT: there is no reply to a text that ends no line
waits() {
  local reply
  read -t 0.3 -r -u "$from" reply
  [ $? -gt 128 ] || wrong "a reply to '$1', which is no line yet: '$reply'"
}

# ends STATUS [REPLY]: after the end of the input this reply comes, or none, and the program ends with this status
ends() {
  local reply
  exec {to}>&-
  [ $# = 1 ] || replied "$2" 'the line that the input ends in'
  read -t 20 -r -u "$from" reply
  if [ $? != 1 ] || [ -n "$reply" ]; then echo "no end after the end of the input: '$reply'"; exit 1; fi
  exec {from}<&-
  wait "$pid"
  local status=$?
  pid=
  [ "$status" = "$1" ] || wrong "status $status, and not $1: $(cat err)"
}

# the lines of a round and their replies; it leaves an empty database and no error number
round='E|0
1|end
N|end
S 6b 76|0
F 6B|76
I 6b 77|1
F 6b|76
I 6c .|0
F 6c|.
D 6c|0
F 6c|none
D 6c|-1 absent
1|6b
N|end
S 6b .|0
N|end
F 6b|.
C|0
E|0
Q|-1 line
|-1 line
S 6|-1 line
S 6b|-1 line
D 6b|0'

# the same in the text form: `\t` is a tab of the line, and `\\` a backslash
text_round='E|0
1|end
S\tk\tv w|0
F\tk|v w
F\t\\x6b|v w
I\tk\tx|1
S\tl\t|0
F\tl|
D\tl|0
F\tl|none
D\tl|-1 absent
1|k
N|end
S\tk\tnone|0
F\tk|\x6eone
S\tk\tend|0
F\tk|\x65nd
S\tk\t-1 fault 1|0
F\tk|\x2d1 fault 1
S\tk\ta\\tb|0
F\tk|a\tb
C|0
Q|-1 line
F k|-1 line
S\tk|-1 line
|-1 line
D\tk|0'

# talks WORDS..: a dozen rounds, and lines in parts, with the program of these words
talks() {
  local line reply long
  long=$(head -c 140000 /dev/zero | tr '\0' '0')
  starts "$@"
  for _ in $(seq 1 12); do
    while IFS='|' read -r line reply; do
      sends "$line\\n"; replied "$reply" "$line"
    done <<< "$round"
  done
  # a line in two halves
  sends 'S 6b'; waits 'S 6b'; sends ' 76\n'; replied 0 'S 6b 76'
  # a line and half of the next
  sends 'F 6b\nF 6'; replied 76 'F 6b'; waits 'F 6'; sends 'c\n'; replied none 'F 6c'
  # lines together
  sends 'F 6b\nD 6b\n\n'; replied 76 'F 6b'; replied 0 'D 6b'; replied '-1 line' ''
  # a line longer than any buffer
  sends "S 6b $long"; waits 'S 6b 00..'; sends '\n'; replied '-1 line' 'S 6b 00..'
  # the last line without its line feed
  sends 'S 6b 77\nF 6b'; replied 0 'S 6b 77'; waits 'F 6b'; ends 0 77
  # no line at all
  starts "$@"; ends 0
}

# talks_text WORDS..: some rounds in the text form, and lines in parts, with the program of these words
talks_text() {
  local line reply
  starts "$@"
  for _ in 1 2 3; do
    while IFS='|' read -r line reply; do
      sends "$line\\n"; replied "$reply" "$line"
    done <<< "$text_round"
  done
  # a line in two halves, a line and half of the next, and lines together
  sends 'S\tk'; waits 'S k'; sends '\tv\n'; replied 0 'S k v'
  sends 'F\tk\nF\t'; replied v 'F k'; waits 'F'; sends 'l\n'; replied none 'F l'
  sends 'F\tk\nD\tk\n\n'; replied v 'F k'; replied 0 'D k'; replied '-1 line' ''
  # the last line without its line feed
  sends 'S\tk\tw\nF\tk'; replied 0 'S k w'; waits 'F k'; ends 0 w
}

# looks TURN: the stores that were answered in this turn are there
looks() {
  local key
  while read -r key; do
    [ "$("$program" fetch killed "$key" -x)" = "${key}76" ] || wrong "turn $1: the store of $key was answered, and is gone"
  done < "answered.$1"
}

"$program" create t --limit 100 || exit 1
talks script t
[ "$("$program" dump t)" = '6b 77' ] || wrong "after the talk the database has other pairs"
talks script --memory 100
"$program" create text --limit 100 || exit 1
talks_text script --text text
[ "$("$program" dump --text text)" = $'k\tw' ] || wrong "after the talk in the text form the database has other pairs"
talks_text script --memory 100 --text

# stores that were answered, and a kill
"$program" create killed --limit 10000 || exit 1
for turn in $(seq 1 20); do
  starts script killed
  : > "answered.$turn"
  for n in $(seq 1 $((turn * 7 % 20 + 1))); do
    key=$(printf '%04x%04x' "$turn" "$n")
    sends "S $key ${key}76\\n"; replied 0 "S $key ${key}76"
    echo "$key" >> "answered.$turn"
  done
  # one more is under way
  [ $((turn % 2)) = 0 ] || sends "S ffff 76\\n"
  kill -9 "$pid"
  wait "$pid" 2> /dev/null
  pid=
  exec {to}>&- {from}<&-
  looks "$turn"
done
for turn in $(seq 1 20); do looks "$turn"; done

# a text in a file
for n in $(seq 1 1000); do printf 'S %08x %08x76\n' "$n" "$n"; done > text
for n in $(seq 1 1000); do printf 'F %08x\n' "$n"; done >> text
{ for _ in $(seq 1 1000); do echo 0; done; for n in $(seq 1 1000); do printf '%08x76\n' "$n"; done; } > wanted
timeout 60 "$program" script --memory 1000 < text > found || wrong "a script of 2,000 lines: status $?"
cmp -s found wanted || wrong "a script of 2,000 lines is answered otherwise"
if strace -o trace true 2> /dev/null; then
  timeout 60 strace -f -e trace=write,writev -o trace "$program" script --memory 1000 < text > found || wrong "traced: status $?"
  cmp -s found wanted || wrong "traced: a script of 2,000 lines is answered otherwise"
  writes=$(grep -cE 'writev?\(1,' trace)
  [ "$writes" -ge 1 ] && [ "$writes" -lt 100 ] || wrong "a script of 2,000 lines is answered in $writes writes"
else
  echo "how large the writes are was not looked at: there is no strace that works" >&2
fi
exit $bad
