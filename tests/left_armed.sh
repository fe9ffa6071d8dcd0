#!/usr/bin/env bash
# A program that is killed with its last change acknowledged and not yet at home: the file is left with an armed commit sector. It is
# read as it is, which changes no byte of it, has the change, and verifies; the next change brings it home, and a closing does.
. "$(dirname "$0")/common"

wrong() { echo "$1"; exit 1; }
# state: the second field of the commit sector, 1 where it is armed
state() { od -An -tx1 -j8 -N4 t.db | tr -d ' \n'; }
# words WANTED WORD..: a command that prints so
words() {
  [ "$("$program" "${@:2}" < /dev/null 2>&1)" = "$1" ] || wrong "${*:2}: $("$program" "${@:2}" < /dev/null 2>&1)"
}

"$program" create t --limit 100 && "$program" store t 61 01 -x || exit 1
[ "$(state)" = 00000000 ] || wrong 'a file that was closed is armed'

# A script that has answered its second store, and waits for a line that doesn't come.
coproc script { exec "$program" script t; }
process=$script_PID  # bash forgets its own name for it as soon as it is dead
echo 'S 62 02' >&"${script[1]}"
echo 'S 63 03' >&"${script[1]}"
for _ in 1 2; do
  read -r -t 10 -u "${script[0]}" reply && [ "$reply" = 0 ] || wrong 'a store is not acknowledged'
done
kill -9 "$process"
wait "$process" 2> /dev/null
[ "$(state)" = 00000001 ] || wrong 'the change is at home already'

cp t.db left.db
words 03 fetch t 63 -x
words 3 verify t
words $'61 01\n62 02\n63 03' dump t
cmp -s t.db left.db || wrong 'a reader changed the file'

# The next change finds the pages of the one before, and its closing leaves the file clear.
"$program" store t 64 04 -x || wrong 'no change any more'
[ "$(state)" = 00000000 ] || wrong 'a file that was changed and closed is armed'
words $'61 01\n62 02\n63 03\n64 04' dump t

# So does a change that finds nothing to do.
cp left.db t.db
[ "$("$program" delete t 7a -x 2>&1; echo $?)" = 1 ] || wrong 'an absent key is not told so'
[ "$(state)" = 00000000 ] || wrong 'a file that was opened for changes and closed is armed'
words $'61 01\n62 02\n63 03' dump t
