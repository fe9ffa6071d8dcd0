#!/usr/bin/env bash
# The order in which a table gets its name, by the calls of the system that load --replace, resize and backup make: the whole file is written, then
# synced, then named, and then its folder is synced. A power cut at any moment so leaves the old table or the new one. A table is locked before it is
# read, and as long as it is read. A resize takes few commits.
. "$(dirname "$0")/common"
preloadable ends
mkdir folder
for ((n = 0; n < 9000; n++)); do printf '%08x %064d\n' $n $n; done > pairs
"$program" create folder/t --limit 10000 && "$program" load folder/t < pairs || exit 1

# traced WORD..: the command, whose calls are then in the file `trace`
traced() {
  rm -f trace
  END_CALL=0 END_TRACE=$work/trace LD_PRELOAD=$work/ends.so "$program" "$@" < pairs 2> told || { wrong "$* ends by $?"; cat told; }
}

# first and last LINE: the number of the first and the last such line of the trace, or nothing
first() { grep -nxE "$1" trace | head -n 1 | cut -d: -f1; }
last() { grep -nxE "$1" trace | tail -n 1 | cut -d: -f1; }

# comes WHAT FIRST THEN: one line comes behind another
comes() { [ -n "$2" ] && [ -n "$3" ] && [ "$2" -lt "$3" ] || { wrong "$1: lines $2 and $3 of the trace"; }; }

# is_named WHAT NAMING NEW NAME: the file of the name NEW was made whole, and got its name at last
is_named() {
  local naming="$2 $3 $4" synced
  synced=$(last "(fsync|fdatasync) $3")
  comes "$1: the file is synced behind its last write" "$(last "write $3")" "$synced"
  comes "$1: its mode is synced too" "$(last "fchmod $3")" "$synced"
  comes "$1: it is named behind its sync" "$synced" "$(first "$naming")"
  comes "$1: the folder is synced behind that" "$(first "$naming")" "$(last '(fsync|fdatasync) folder')"
}

# is_locked WHAT NAME: the table is locked as long as it is read
is_locked() {
  comes "$1: the table is locked before it is read" "$(first "lock_shared $2")" "$(first "read $2")"
  comes "$1: it is locked as long as it is read" "$(last "read $2")" "$(first "(unlock|close) $2")"
}

traced load --replace folder/t
is_named 'load --replace' rename t.db.new t.db
is_locked 'load --replace' t.db
traced resize folder/t --limit 20000
is_named resize rename t.db.new t.db
is_locked resize t.db
commits=$(($(grep -cxE 'fdatasync t.db.new' trace) / 2))
[ "$commits" -le 30 ] || wrong "a resize of 9,000 pairs takes $commits commits"
traced backup folder/t folder/c
is_named backup link c.db.new c.db
is_locked backup t.db
comes 'backup: the other name is gone when the folder is synced' "$(first 'unlink c.db.new')" "$(last '(fsync|fdatasync) folder')"
cmp -s folder/t.db folder/c.db || wrong "a backup has other bytes"
exit $bad
