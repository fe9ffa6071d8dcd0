#!/usr/bin/env bash
# Cases of the commands that no other check has, each on a real file: what they print on both streams, and their status.
. "$(dirname "$0")/common"

# run STATUS OUTPUT FAULTS WORD..
run() {
  local wanted=$1 output=$2 faults=$3 status=0
  shift 3
  "$program" "$@" > out 2> err < /dev/null || status=$?
  printf '%b' "$output" > right.out
  printf '%b' "$faults" > right.err
  [ "$status" = "$wanted" ] && cmp -s out right.out && cmp -s err right.err ||
    { wrong "dbmtool $*: status $status and not $wanted, or another text:"; head -c 400 out; head -c 400 err; }
}

# an insert of a new key, and bytes in hexadecimal for each command that takes them
run 0 '' '' create t --limit 100
run 0 '' '' insert t new first
run 0 'first\n' '' fetch t new
run 1 '' '' insert t new second
run 0 'first\n' '' fetch t new
run 0 '' '' insert t FF 0001 -x
run 0 '0001\n' '' fetch t ff -x
run 1 '' '' insert t ff 02 -x
run 0 '' '' delete t fF -x
run 1 '' '' delete t ff -x
run 1 '' '' fetch t ff -x

# what isn't hexadecimal changes nothing
cp t.db before
run 3 '' 'dbmtool: not hex\n' store t 6 01 -x
run 3 '' 'dbmtool: not hex\n' store t 61 0 -x
run 3 '' 'dbmtool: not hex\n' insert t 61 xy -x
run 3 '' 'dbmtool: not hex\n' delete t 6g -x
cmp -s before t.db || wrong "words that aren't hexadecimal changed a file"

# no command but create makes a file
run 2 '' 'dbmtool: fault 14\n' store missing a b
run 2 '' 'dbmtool: fault 14\n' insert missing a b
run 2 '' 'dbmtool: fault 14\n' delete missing a
run 2 '' 'dbmtool: fault 14\n' stat missing
run 2 '' 'dbmtool: fault 14\n' verify missing
run 2 '' 'dbmtool: fault 14\n' version missing
run 2 '' 'dbmtool: fault 14\n' upgrade missing
[ ! -e missing.db ] || wrong "a file was made"

# Two pairs of 1,500 bytes take a page each. Where the second one goes, its page is free, and the next such pair takes it.
long=$(printf '%01499d' 0)
run 0 '' '' create pages --limit 100
run 0 '' '' store pages a "$long"
run 0 '' '' store pages b "$long"
run 0 'pairs 2\nlimit 100\nbuckets 1\nlevel 0\nsplit 0\npages 5\nfree 0\n' '' stat pages
run 0 '' '' delete pages b
run 0 'pairs 1\nlimit 100\nbuckets 1\nlevel 0\nsplit 0\npages 5\nfree 1\n' '' stat pages
run 0 '' '' store pages c "$long"
run 0 'pairs 2\nlimit 100\nbuckets 1\nlevel 0\nsplit 0\npages 5\nfree 0\n' '' stat pages
run 0 "$long\n" '' fetch pages a
run 0 '2\n' '' verify pages

# The version of a file and the syncs of its kind, in each of both as it is made, by the program and by the bytes of the format, and as upgrades and
# pairs leave it. The file stays as it is.
# tells NAME VERSION SYNCS: `version` prints these
tells() {
  cp "$1.db" before
  run 0 "version $2\nsyncs $3\n" '' version "$1"
  cmp -s "$1.db" before || wrong "dbmtool version $1 changed the file"
}
for made in '1 2' '1 1 --syncs 1' '1 2 --syncs 2' '2 2 --v2' '2 1 --v2 --syncs 1' '2 2 --syncs 2 --v2'; do
  read -r version syncs options <<< "$made"
  # shellcheck disable=SC2086
  run 0 '' '' create kinds --limit 100 $options
  [ "$(head -c 8 kinds.db) $(od -An -tu1 -j 2064 -N 4 kinds.db | xargs)" = "DBMREDO$((3 - syncs)) 0 0 0 $version" ] ||
    wrong "create $options makes another file"
  tells kinds "$version" "$syncs"
  run 0 '' '' store kinds a b
  tells kinds "$version" "$syncs"
  run 0 '' '' upgrade kinds --syncs 1
  tells kinds "$version" 1
  run 0 '' '' store kinds c d
  run 0 '' '' store kinds c e
  tells kinds "$version" 1
  run 0 '' '' upgrade kinds
  tells kinds 2 1
  run 0 '' '' upgrade kinds --syncs 2
  tells kinds 2 2
  run 0 '' '' upgrade kinds
  tells kinds 2 2
  run 0 'b\n' '' fetch kinds a
  rm kinds.db
  # shellcheck disable=SC2086
  run 0 '' '' create kinds --limit 100 $options
  run 0 '' '' upgrade kinds
  tells kinds 2 "$syncs"
  rm kinds.db
done
[ ! -e kinds.db.new ] || wrong "a file is left"
printf hello > text.db && : > empty.db && head -c 8192 /dev/zero > blank.db
for name in text empty blank; do
  cp $name.db before
  run 2 '' 'dbmtool: fault 10\n' version $name
  cmp -s $name.db before || wrong "$name.db was changed"
done
run 2 '' 'dbmtool: fault 2\ndbmtool: .db: Is a directory (os error 21)\n' --verbose version "$(mkdir .db)"
"$program" version t > /dev/full 2> err; [ "$? $(cat err)" = '2 dbmtool: write' ] || wrong "a full output isn't told: $(cat err)"
# each version has its word: that of the program, and that of a file
[ "$("$program" --version)" = "$("$program" -V)" ] && "$program" --version | grep -q '^dbmtool ' || wrong "--version tells something else"
tells t 1 2

# A script in which the device fails within a change goes on, each later change is refused as that of a broken database, and
# the fault of closing is told: one that an earlier change left, or its own, and then each change is there.
preloadable fail
cp t.db first.db
# failing CALL REPLIES FAULT: the script with that call of the system on the file failed
failing() {
  local status
  cp first.db t.db
  FAIL_CALL=$1 LD_PRELOAD=./fail.so "$program" script t < lines > out 2> err
  status=$?
  printf -- "$2" | cmp -s - out && [ "$(cat err)" = "dbmtool: fault $3" ] && [ "$status" = 2 ] ||
    { wrong "a script on a device of which call $1 fails: status $status"; cat out err; }
}
printf 'S 61 02\n' > lines
FAIL_CALL=0 LD_PRELOAD=./fail.so "$program" script t < lines > out 2> err || wrong "a script failed with no failed call"
calls=$(sed -n 's/^calls //p' err)
failing "$calls" '0\n' 2
run 0 '02\n' '' fetch -x t 61
# The closing writes two pages and the clear sector, and syncs twice: five calls.
printf 'S 61 02\nS 62 03\nF 61\n' > lines
failing $((calls - 5)) '-1 fault 2\n-1 fault 3\n-1 fault 3\n' 3
# The third call of the second store syncs its images.
failing $((calls - 2)) '0\n-1 fault 2\n-1 fault 3\n' 3
run 0 '02\n' '' fetch -x t 61
run 1 '' '' fetch t b
run 0 'first\n' '' fetch t new
exit $bad
