#!/usr/bin/env bash
# With --verbose in front of the command, or DBMTOOL_VERBOSE=1 in the environment, the line of status 2 is followed by one that says in words
# what happened, and in which file: the system's words where it told some, and else those of the table of faults. Without either there is one line.
. "$(dirname "$0")/common"
preloadable fail
preloadable refuse
preloadable streams
export LC_ALL=C
unset DBMTOOL_VERBOSE

# told STATUS LINES COMMAND..: the program ends so, and says exactly this on standard error
told() {
  local wanted=$1 lines=$2 status
  shift 2
  "$@" > out 2> err
  status=$?
  printf '%b' "${lines:+$lines\n}" > right
  [ "$status" = "$wanted" ] && cmp -s err right || wrong "$*: status $status, $(cat err)"
}

# tells LINE CAUSE WORD..: the command ends with status 2 and says the first line, and the second too where that is asked for, and only there
tells() {
  local line=$1 cause=$2
  shift 2
  cp in in.now
  told 2 "$line" "$program" "$@" < in.now
  told 2 "$line" env DBMTOOL_VERBOSE= "$program" "$@" < in.now
  told 2 "$line" env DBMTOOL_VERBOSE=0 "$program" "$@" < in.now
  told 2 "$line" env DBMTOOL_VERBOSE=yes "$program" "$@" < in.now
  told 2 "$line\ndbmtool: $cause" "$program" --verbose "$@" < in.now
  told 2 "$line\ndbmtool: $cause" env DBMTOOL_VERBOSE=1 "$program" "$@" < in.now
  told 2 "$line\ndbmtool: $cause" env DBMTOOL_VERBOSE=0 "$program" --verbose "$@" < in.now
}

: > in
"$program" create t --limit 100 && "$program" store t key old && "$program" create one --limit 1 && "$program" store one key old || exit 1
mkdir folder.db below && printf 'no database' > text.db && cp t.db below/t.db
long=$(printf '%02100d' 0)

# the words of each fault that a command may end by
tells 'dbmtool: fault 5' "t.db: the pair is longer than the file's version allows: key and content together have more than 2026 bytes, and in version 2 the key more than 1023 or the content more than 65535: shorten them, or \`dbmtool upgrade\`" store t key "$long"
tells 'dbmtool: fault 6' 'one.db: the limit is reached, and the key is new: take a higher one, by `dbmtool resize`' store one new content
tells 'dbmtool: fault 6' 'one.db: the limit is reached, and the key is new: take a higher one, by `dbmtool resize`' insert one new content
cp t.db damaged.db
printf '\377\377' | dd of=damaged.db bs=1 seek=2080 conv=notrunc 2> /dev/null
tells 'dbmtool: fault 9' 'damaged.db: the file is damaged: restore a backup or load a dump, or take what `dbmtool salvage` prints' verify damaged
tells 'dbmtool: fault 10' 'text.db: the file is no database: look at the name, which is given without `.db`' fetch text key
cp t.db new.db
printf '\000\000\000\003' | dd of=new.db bs=1 seek=2064 conv=notrunc 2> /dev/null
tells 'dbmtool: fault 11' "new.db: the file is of a version of the format that this program doesn't know: use a newer dbmtool" stat new
tells 'dbmtool: fault 13' 'bad.db: a limit outside 1 to 1000000: take one within' create bad --limit 0
rm -f bad.db
tells 'dbmtool: fault 14' 'none.db: there is no such file: look at the name, or use `dbmtool create`' fetch none key
tells 'dbmtool: fault 15' 't.db: there is such a file already: take another name' create t

# the name is the one that was given
tells 'dbmtool: fault 14' 'below/none.db: there is no such file: look at the name, or use `dbmtool create`' list below/none
tells 'dbmtool: fault 6' './one.db: the limit is reached, and the key is new: take a higher one, by `dbmtool resize`' store ./one new content

# where the name has `.db` already, and there is a file of that name, the words say so
suffixed='there is no such file, but there is one without the second `.db`: leave `.db` off the name'
tells 'dbmtool: fault 14' "t.db.db: $suffixed" fetch t.db key
tells 'dbmtool: fault 14' "below/t.db.db: $suffixed" load --replace below/t.db
tells 'dbmtool: fault 14' 'none.db.db: there is no such file: look at the name, or use `dbmtool create`' fetch none.db key
tells 'dbmtool: fault 14' 'in.db: there is no such file: look at the name, or use `dbmtool create`' fetch in key

# what has no file
tells 'dbmtool: fault 13' 'a limit outside 1 to 1000000: take one within' script --memory 0
tells 'dbmtool: fault 13' 'a limit outside 1 to 1000000: take one within' rehearse --memory 1000001

# each command that has a file names it
for words in 'store none a b' 'insert none a b' 'fetch none a' 'delete none a' 'list none' 'dump none' 'load none' 'stat none' 'version none' 'verify none' 'upgrade none' 'script none' 'rehearse none'; do
  # shellcheck disable=SC2086
  tells 'dbmtool: fault 14' 'none.db: there is no such file: look at the name, or use `dbmtool create`' $words
done

# the opening, or the first read, is refused by the system
tells 'dbmtool: fault 2' 'folder.db: Is a directory (os error 21)' store folder key new
tells 'dbmtool: fault 2' 'folder.db: Is a directory (os error 21)' fetch folder key
tells 'dbmtool: fault 2' 'text.db/below.db: Not a directory (os error 20)' create text.db/below
tells 'dbmtool: fault 2' 'folder.db: Is a directory (os error 21)' rehearse folder

# another program has it open
exec 9<> t.db
flock -n 9 || exit 1
tells 'dbmtool: fault 2' 't.db: another program has the file open' --wait 0 fetch t key
tells 'dbmtool: fault 2' 't.db: another program has the file open' --wait 0 store t key new
exec 9>&-

# each read, write and sync of a store fails in turn
FAIL_CALL=0 LD_PRELOAD=./fail.so "$program" store t key new 2> err || exit 1
calls=$(sed -n 's/^calls //p' err)
[ "${calls:-0}" -gt 10 ] || wrong "no call was counted"
for n in $(seq 1 "${calls:-0}"); do
  told 2 'dbmtool: fault 2\ndbmtool: t.db: Input/output error (os error 5)' env FAIL_CALL="$n" LD_PRELOAD=./fail.so "$program" --verbose store t key new
done
told 0 '' "$program" --verbose store t key old

# a script in which a change fails leaves a fault that its closing is told by
printf 'S 61 02\nF 61\n' > in
FAIL_CALL=0 LD_PRELOAD=./fail.so "$program" script t < in 2> err > out || exit 1
calls=$(sed -n 's/^calls //p' err)
told 2 'dbmtool: fault 3\ndbmtool: t.db: an earlier fault left a change in doubt: open the file again, which settles it' \
  env FAIL_CALL=$((calls - 5)) LD_PRELOAD=./fail.so "$program" --verbose script t < in
"$program" stat t > out 2>&1 || wrong "a script that failed left another file: $(cat out)"

# each growth of a fetch that is refused; one in front of the reading of the words is told in words where the environment asks for that
FAIL_ALLOC=0 LD_PRELOAD=./refuse.so "$program" --verbose fetch t key > out 2> err || exit 1
growths=$(sed -n 's/^growths //p' err)
words='no memory: give it more; the call that was refused changed nothing'
printf 'dbmtool: fault 1\ndbmtool: %s\n' "$words" > without
printf 'dbmtool: fault 1\ndbmtool: t.db: %s\n' "$words" > with
names=0
for n in $(seq 1 "${growths:-0}"); do
  FAIL_ALLOC=$n LD_PRELOAD=./refuse.so "$program" --verbose fetch t key > out 2> err
  case $? in
    0) [ ! -s err ] || wrong "growth $n: $(cat err)" ;;
    2)
      if cmp -s err with; then names=$((names + 1)); else [ "$(cat err)" = 'dbmtool: fault 1' ] || wrong "growth $n: $(cat err)"; fi ;;
    *) wrong "growth $n: another status, $(cat err)" ;;
  esac
  DBMTOOL_VERBOSE=1 FAIL_ALLOC=$n LD_PRELOAD=./refuse.so "$program" fetch t key > out 2> err
  case $? in
    0) [ ! -s err ] || wrong "growth $n: $(cat err)" ;;
    2) cmp -s err with || cmp -s err without || [ "$n$(cat err)" = '1dbmtool: fault 1' ] || wrong "growth $n with the environment: $(cat err)" ;;
    *) wrong "growth $n with the environment: another status, $(cat err)" ;;
  esac
done
[ "$names" -gt 0 ] || wrong "no refused growth named the file"

# streams that fail, with the system's words where it told some
told 2 "dbmtool: read\ndbmtool: t.db: standard input can't be read: Is a directory (os error 21)" "$program" --verbose load t < below
told 2 "dbmtool: read\ndbmtool: standard input can't be read: Is a directory (os error 21)" "$program" --verbose script --memory 9 < below
told 2 'dbmtool: read' "$program" load t < below
told 2 "dbmtool: read\ndbmtool: t.db: standard input can't be read: Bad file descriptor (os error 9)" "$program" --verbose load t <&-
full() { "$@" > /dev/full; }
told 2 "dbmtool: write\ndbmtool: t.db: standard output can't be written: No space left on device (os error 28)" full "$program" --verbose fetch t key
told 2 "dbmtool: write\ndbmtool: t.db: standard output can't be written: No space left on device (os error 28)" full env DBMTOOL_VERBOSE=1 "$program" dump t
told 2 "dbmtool: write\ndbmtool: standard output can't be written: No space left on device (os error 28)" full "$program" --verbose faults
told 2 "dbmtool: write\ndbmtool: standard output can't be written: No space left on device (os error 28)" full env DBMTOOL_VERBOSE=1 "$program" --help
told 2 'dbmtool: write' full "$program" fetch t key
told 2 'dbmtool: write' full "$program" --verbose --help

# a line of a load that is bad: why
# bad NUMBER CAUSE TEXT WORD..
bad_line() {
  local number=$1 cause=$2 text=$3
  shift 3
  printf '%b' "$text" > in
  tells "dbmtool: line $number" "t.db: $cause" load t "$@"
  tells "dbmtool: line $number" "t.db: $cause" load t --group 1 "$@"
}
bad_line 1 'the line has no blank between key and content' '6162\n'
bad_line 1 'the line has no blank between key and content' '\n'
bad_line 2 'the line has no blank between key and content' '61 62\n61\t62\n'
bad_line 3 'the line has more than one blank' '61 62\n61 63\n61 62 63\n61 64\n'
bad_line 1 'the line has more than one blank' '61  62\n'
bad_line 1 'the line has more than one blank' '61 62 \n'
bad_line 2 'a word of the line is empty, and `.` stands for no bytes' '61 .\n61 \n'
bad_line 1 'a word of the line is empty, and `.` stands for no bytes' ' 61\n'
bad_line 2 'a word of the line has an odd number of digits' '61 62\n616 62\n'
bad_line 1 'a word of the line has an odd number of digits' '61 62\r\n'
bad_line 1 'a word of the line has a byte that is no digit' '0x61 62\n'
bad_line 2 'a word of the line has a byte that is no digit' '. .\n61 ..\n'
bad_line 1 'the line has no tab between key and content' 'key content\n' --text
bad_line 2 'the line has more than one tab' 'key\tcontent\nkey\tcontent\t\n' --text
bad_line 1 'a field of the line has a backslash with no escape' 'key\tC:\\bin\n' --text
bad_line 2 'a field of the line has a backslash with no escape' 'a\tb\n\\x6g\tb\n' --text
bad_line 1 'a field of the line has a backslash with no escape' 'a\tb\\\n' --text
bad_line 4 'the line has no tab between key and content' '# first\n\na\tb\nkey\n#\n' --text
bad_line 3 'the line has more than one tab' '\n#\t\t\na\tb\tc\n' --text
bad_line 5 'a field of the line has a backslash with no escape' '#\\\n#\n#\n\n\\\tb\n' --text
bad_line 2 'the line has no tab between key and content' 'a\tb\n # a\n' --text
bad_line 1 'the line has more than one blank' '# 61 62\n'
bad_line 2 'the line has no blank between key and content' '61 62\n\n'
{ printf '61 62\n61 '; head -c 139263 /dev/zero | tr '\0' 6; echo; } > in
tells 'dbmtool: line 2' 't.db: the line is too long' load t
{ printf 'a\t'; head -c 266239 /dev/zero | tr '\0' b; echo; } > in
tells 'dbmtool: line 1' 't.db: the line is too long' load t --text

# a line of a load that the database refuses: which one, also among those that share a commit
"$program" create three --limit 3 || exit 1
printf '61 01\n62 02\n61 03\n63 04\n64 05\n65 06\n' > in
for group in 1 2 4 100; do
  tells 'dbmtool: fault 6' 'three.db: line 5: the limit is reached, and the key is new: take a higher one, by `dbmtool resize`' load three --group $group
done
# behind lines that are passed over, its number is that among all lines; of a replacement it is named too
printf '# one\na\t1\n\nb\t2\n#\n\n#\nc\t3\na\t4\n# the limit\nd\t5\n# e\ne\t6\n' > in
for group in 1 2 3 4 5 100; do
  tells 'dbmtool: fault 6' 'three.db: line 11: the limit is reached, and the key is new: take a higher one, by `dbmtool resize`' load three --text --group $group
done
tells 'dbmtool: fault 6' 'three.db: line 8: the limit is reached, and the key is new: take a higher one, by `dbmtool resize`' load --replace three --text --limit 2
{ printf '61 01\n62 '; printf '0a%.0s' $(seq 2026); echo; } > in
for group in 1 100; do
  tells 'dbmtool: fault 5' "t.db: line 2: the pair is longer than the file's version allows: key and content together have more than 2026 bytes, and in version 2 the key more than 1023 or the content more than 65535: shorten them, or \`dbmtool upgrade\`" load t --group $group
done
cp t.db first.db
printf '61 01\n62 02\n63 03\n' > in
FAIL_CALL=0 LD_PRELOAD=./fail.so "$program" load t --group 1 < in 2> err || exit 1
calls=$(sed -n 's/^calls //p' err)
seen=
for n in $(seq 1 "${calls:-0}"); do
  cp first.db t.db
  FAIL_CALL="$n" LD_PRELOAD=./fail.so "$program" --verbose load t --group 1 < in > out 2> err
  [ $? = 2 ] || wrong "call $n of a load: another status, $(cat err)"
  seen="$seen $(sed -n '2s/^dbmtool: t\.db: \(\(line [123]\): \)\{0,1\}Input\/output error (os error 5)$/<\2>/p' err)"
done
# first the opening, then a line after another, and the closing
[ "$(tr ' ' '\n' <<< "${seen//line /}" | sed '/^$/d' | uniq | xargs)" = '<> <1> <2> <3> <>' ] || wrong "calls of a load that fail are told of other lines:$seen"
cp first.db t.db

# of a load that is refused before it reads, no line is told
: > in
tells 'dbmtool: fault 14' 'none.db: there is no such file: look at the name, or use `dbmtool create`' load none

# nothing more is told of any other end
for asked in "env DBMTOOL_VERBOSE=1 $program" "$program --verbose"; do
  told 1 '' $asked fetch t absent
  told 0 '' $asked store t key new
  told 3 'dbmtool: not hex' $asked store t key x -x
  told 3 'dbmtool: script needs FILE or --memory' $asked script
  told 3 'dbmtool: not UTF-8: such a KEY or CONTENT is given in hexadecimal, with -x; a FILE needs another name' $asked fetch t $'\xff'
done

# it stands in front of the command alone
"$program" fetch --verbose t key 2> err
[ $? = 3 ] && grep -q verbose err || wrong "--verbose behind the command: $(cat err)"
[ "$("$program" --verbose fetch t key)" = new ] || wrong "--verbose changes a fetch"
exit $bad
