#!/usr/bin/env bash
# The program's words that no command gets: those that are not UTF-8, the version, the faults, and -x where it isn't needed.
. "$(dirname "$0")/common"

# run STATUS WORD..: what it prints is in the files out and err
run() {
  local wanted=$1 status=0
  shift
  "$program" "$@" > out 2> err < /dev/null || status=$?
  [ "$status" = "$wanted" ] || { printf 'dbmtool %q: status %s and not %s\n' "$*" "$status" "$wanted"; cat err; bad=1; }
}

# a word that is not UTF-8, as the command, the file's name, the key and the content
run 0 create t --limit 100
cp t.db before
printf 'dbmtool: not UTF-8: such a KEY or CONTENT is given in hexadecimal, with -x; a FILE needs another name\n' > not_text
no_text() {
  run 3 "$@"
  [ ! -s out ] && cmp -s err not_text || { printf 'dbmtool %q:\n' "$*"; cat out err; bad=1; }
}
no_text $'\xff' t
no_text create $'\xff'
no_text store $'t\xff' k v
no_text store t $'\xff' x
no_text store t x $'\xc3'
no_text fetch t $'a\x80b'
no_text script --memory $'\xff'
[ "$(ls)" = "$(printf '%s\n' before err not_text out t.db)" ] && cmp -s before t.db || wrong "words that make no sense changed a file"

# the way that the line names
run 0 store t ff 78 -x
run 0 fetch t ff -x
[ "$(cat out)" = 78 ] || wrong "a key that is not UTF-8 isn't there"
run 0 list t
[ "$(cat out)" = ff ] || wrong "a key that is not UTF-8 isn't listed"
run 0 store t é x
run 0 fetch t é
[ "$(cat out)" = x ] || wrong "a key in UTF-8 isn't there"

# the version of the program and those of its files, which FORMAT.md has too
formats=$(sed -nE 's/.*16 to 19 version, ([0-9]+) or ([0-9]+);.*/\1 and \2/p' "$top/docs/FORMAT.md")
for word in --version -V; do
  run 0 "$word"
  grep -qxE "dbmtool [0-9]+\.[0-9]+\.[0-9]+, file formats $formats" out && [ ! -s err ] || { wrong "dbmtool $word:"; cat out err; }
done
[ "$(od -An -tu1 -j 2064 -N 4 t.db | xargs)" = "0 0 0 1" ] || wrong "a file has another version"
run 0 create --v2 second --limit 1
[ "$(od -An -tu1 -j 2064 -N 4 second.db | xargs)" = "0 0 0 2" ] || wrong "a file that is made with --v2 has another version"

# the faults, with which the help ends
run 0 faults
[ ! -s err ] || { wrong "dbmtool faults:"; cat err; }
mv out faults
run 0 --help
tail -n "$(wc -l < faults)" out | cmp -s - faults || wrong "the help doesn't end with the faults"
run 0 help
tail -n "$(wc -l < faults)" out | cmp -s - faults || wrong "help doesn't end with the faults"
awk 'length($0) >= 80 { exit 1 }' faults || wrong "a line of the faults is long"
[ "$(sed -n '/^Faults:/,$p' faults | grep -oE '^  [0-9]+' | xargs)" = "$(seq 15 | xargs)" ] || wrong "not each fault is told"
[ "$(sed '/^Faults:/,$d' faults | grep -oE '^  [0-9]+' | xargs)" = '0 1 2 3 141' ] || wrong "not each status is told"
run 3 faults t
"$program" faults > /dev/full 2> err; [ $? = 2 ] && [ "$(cat err)" = 'dbmtool: write' ] || wrong "a full output isn't told"

# what prints hexadecimal with no -x says so
while read -r command said; do
  for words in "$command t -x" "$command -x t"; do
    # shellcheck disable=SC2086
    run 3 $words
    [ ! -s out ] && grep -q -- "'-x'" err && grep -q "$said" err || { wrong "dbmtool $words:"; cat out err; }
  done
done <<'ROWS'
list in hexadecimal but for --text
dump in hexadecimal but for --text
ROWS
exit $bad
