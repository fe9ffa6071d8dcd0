#!/usr/bin/env bash
# The program on real files: what each command prints on both streams, and its status.
. "$(dirname "$0")/common"

# run STATUS OUTPUT FAULTS WORD..: standard input is the program's
run() {
  local wanted=$1 output=$2 faults=$3 status=0
  shift 3
  "$program" "$@" > out 2> err || status=$?
  printf '%b' "$output" > right.out
  printf '%b' "$faults" > right.err
  if [ "$status" != "$wanted" ] || ! cmp -s out right.out || ! cmp -s err right.err; then
    echo "dbmtool $*: status $status and not $wanted, or another text:"
    head -c 400 out; head -c 400 err
    bad=1
  fi
}

# a first key
run 0 '' '' create t --limit 100 < /dev/null
run 0 '' '' store t k v < /dev/null
run 0 'v\n' '' fetch t k < /dev/null
run 1 '' '' insert t k w < /dev/null
run 0 '76\n' '' fetch t 6B -x < /dev/null
run 0 '6b\n' '' list t < /dev/null
run 0 '6b 76\n' '' dump t < /dev/null
run 0 '' '' delete t k < /dev/null
run 1 '' '' delete t k < /dev/null
run 1 '' '' fetch t k < /dev/null
run 3 '' 'dbmtool: not hex\n' fetch t 6 -x < /dev/null
run 3 '' 'dbmtool: script needs FILE or --memory\n' script < /dev/null
run 3 '' 'dbmtool: script needs FILE or --memory\n' script t --memory 5 < /dev/null
run 3 '' 'dbmtool: rehearse needs FILE or --memory\n' rehearse --stops 3 < /dev/null
run 3 '' 'dbmtool: rehearse needs FILE or --memory\n' rehearse t --memory 5 < /dev/null
run 3 '' 'dbmtool: script needs FILE or --memory\n' script --v2 < /dev/null
run 3 '' 'dbmtool: script needs FILE or --memory\n' script t --memory 5 --v2 < /dev/null
run 3 '' 'dbmtool: rehearse needs FILE or --memory\n' rehearse --v2 < /dev/null
run 3 '' 'dbmtool: --v2 needs --memory\n' script t --v2 < /dev/null
run 3 '' 'dbmtool: --v2 needs --memory\n' rehearse --v2 --stops 3 t < /dev/null
run 0 '' '' store t . . -x < /dev/null
run 0 '.\n' '' fetch t . -x < /dev/null

# nine pairs, which take a second bucket
run 0 '' '' create nine --limit 100 < /dev/null
for digit in 1 2 3 4 5 6 7 8 9; do echo "6$digit 0$digit"; done > nine.text
run 0 '' '' load nine < nine.text
run 0 'pairs 9\nlimit 100\nbuckets 2\nlevel 1\nsplit 0\npages 5\nfree 0\n' '' stat nine < /dev/null
"$program" dump nine > nine.again && cmp -s nine.text nine.again || wrong "a dump isn't what was loaded"

# what is no database, and what is there or isn't
printf 'hello' > other.db
run 2 '' 'dbmtool: fault 10\n' fetch other a < /dev/null
run 2 '' 'dbmtool: fault 15\n' create other < /dev/null
[ "$(cat other.db)" = hello ] || wrong "a file of something else was changed"
run 2 '' 'dbmtool: fault 14\n' fetch missing x < /dev/null
[ ! -e missing.db ] || wrong "a fetch made a file"
run 2 '' 'dbmtool: fault 13\n' create zero --limit 0 < /dev/null
run 0 '' '' create zero --limit 100 < /dev/null
run 2 '' 'dbmtool: fault 15\n' create zero --limit 100 < /dev/null
: > plain
for name in plain/below none/below; do run 2 '' 'dbmtool: fault 2\n' create "$name" < /dev/null; done
[ "$(($(stat -c %s nine.db) % 512))" = 0 ] || wrong "a file isn't of whole sectors"
run 2 '' 'dbmtool: fault 15\n' create t < /dev/null

# a new file that was cut
run 0 '' '' create cut --limit 100 < /dev/null
head -c 6144 cut.db > short && cp short cut.db
run 0 'pairs 0\nlimit 100\nbuckets 1\nlevel 0\nsplit 0\npages 4\nfree 0\n' '' stat cut < /dev/null
run 2 '' 'dbmtool: fault 9\n' fetch cut k < /dev/null
# Past its length a file reads as zeros, also within a sector: page 3 has 14 bytes, and zeros behind them.
run 0 '' '' create zeros --limit 100 < /dev/null
head -c 6158 zeros.db > short && cp short zeros.db
run 1 '' '' fetch zeros k < /dev/null
run 0 '0\n' '' verify zeros < /dev/null
run 0 '' '' store zeros k v < /dev/null
run 0 'v\n' '' fetch zeros k < /dev/null

# a bad line stops a load, with the earlier lines kept
run 0 '' '' create few --limit 100 < /dev/null
printf '61 FF\n62 .\nzz\n63 01\n' > few.text
run 2 '' 'dbmtool: line 3\n' load few < few.text
run 0 '61 ff\n62 .\n' '' dump few < /dev/null

# a full database, a long pair, and a script on a file
run 0 '' '' create one --limit 1 < /dev/null
run 0 '' '' store one a 1 < /dev/null
run 2 '' 'dbmtool: fault 6\n' store one b 1 < /dev/null
run 2 '' 'dbmtool: fault 5\n' store t k "$(printf '%02026d' 0)" < /dev/null
printf 'S 6b 76\nF 6b\nQ\nD 6b\n' > lines
run 0 '0\n76\n-1 line\n0\n' '' script t < lines

# usage names the word that was wrong
for words in 'store t' 'verify' 'check t' 'fetch t k v' 'create t --limit x' '--unknown' ''; do
  # shellcheck disable=SC2086
  "$program" $words > out 2> err < /dev/null
  [ $? = 3 ] && [ ! -s out ] && [ -s err ] || wrong "dbmtool $words: no usage"
done
grep -q -- '--unknown' <("$program" --unknown 2>&1) || wrong "usage doesn't name the wrong word"

# help names each command, and ends with an example
"$program" --help > out || bad=1
for command in create store insert fetch delete list dump load stat verify version upgrade script rehearse faults; do
  grep -qw "$command" out || wrong "the help has no $command"
  "$program" "$command" --help > command.out || wrong "no help of $command"
  grep -q "dbmtool $command" command.out || wrong "the help of $command has no example"
done

# a file that may be read and not written, for somebody who isn't root
as=()
[ "$(id -u)" != 0 ] || as=(setpriv --reuid=65534 --regid=65534 --clear-groups)
chmod 755 . && cp "$program" dbmtool && chmod 755 dbmtool && chmod 444 nine.db
"${as[@]}" ./dbmtool fetch nine 61 -x > out 2> err && [ "$(cat out)" = 01 ] || wrong "a file that may be read isn't: $(cat err)"
"${as[@]}" ./dbmtool store nine 61 02 -x > out 2> err; [ $? = 2 ] && [ "$(cat err)" = 'dbmtool: fault 2' ] || wrong "a file that may not be written: $(cat err)"
mkdir closed && chmod 555 closed
"${as[@]}" ./dbmtool create closed/t > out 2> err; [ $? = 2 ] && [ "$(cat err)" = 'dbmtool: fault 2' ] || wrong "a folder that may not be written: $(cat err)"
run 0 '01\n' '' fetch nine 61 -x < /dev/null

# A pipe under a table's name: each command is refused at once, and none waits for who has its other end.
mkfifo pipe.db
for words in 'fetch pipe k' 'store pipe k v' 'insert pipe k v' 'delete pipe k' 'create pipe' 'list pipe' 'dump pipe' 'load pipe' 'load --replace pipe' \
  'stat pipe' 'verify pipe' 'script pipe' 'script --read pipe' 'rehearse pipe' 'resize pipe' 'salvage pipe' 'backup pipe copied' 'upgrade pipe'; do
  # shellcheck disable=SC2086
  timeout 20 "$program" --verbose $words > out 2> err < /dev/null
  status=$?
  [ $status = 2 ] && [ ! -s out ] && [ "$(cat err)" = $'dbmtool: fault 2\ndbmtool: pipe.db: it is a pipe and no file' ] ||
    wrong "dbmtool $words of a pipe: status $status, $(cat out err)"
done
[ -p pipe.db ] && [ -z "$(ls pipe.db.new copied.db 2> /dev/null)" ] || wrong "a command has put something else in the place of a pipe"

# output that can't be written, and input that can't be read
"$program" dump nine > /dev/full 2> err; [ $? = 2 ] && [ "$(cat err)" = 'dbmtool: write' ] || wrong "a full output isn't told"
run 2 '' 'dbmtool: read\n' load nine < .
exit $bad
