#!/usr/bin/env bash
# What a salvage prints of files whose writer was killed, so that pages of the last commits stand as redo images or in a log alone: the pairs as
# these commits left them, exactly those of a dump. A page that is damaged at home is read from its image or from the log. An image that doesn't
# read is told, and so is a log that says no commit.
. "$(dirname "$0")/common"

state() { od -An -tx1 -j8 -N4 "$1" | tr -d ' \n'; }
number() { echo $((0x$(od -An -tx1 -j"$2" -N4 "$1" | tr -d ' \n'))); }
# killed NAME LINE..: a script that has answered these lines is killed, and leaves the file armed
killed() {
  local name=$1 process line reply
  shift
  coproc script { exec "$program" script "$name"; }
  process=$script_PID
  for line; do
    echo "$line" >&"${script[1]}"
    read -r -t 10 -u "${script[0]}" reply && [ "$reply" = 0 ] || { echo "$name: ${line:0:40} is not acknowledged"; exit 1; }
  done
  kill -9 "$process"
  wait "$process" 2> /dev/null
  [ "$(state "$name.db")" = 00000001 ] || { echo "$name: the last change is at home already"; exit 1; }
}
# agrees RULE NAME: a salvage prints the pairs of a dump, tells nothing, has status 0, and leaves the file
agrees() {
  cp "$2.db" kept.db
  "$program" dump "$2" > dumped 2> err || wrong "$1: it can't be dumped: $(cat err)"
  "$program" salvage "$2" > out 2> err || wrong "$1: status $?"
  [ ! -s err ] || wrong "$1: told $(head -c 200 err)"
  sort out | cmp -s - <(sort dumped) || wrong "$1: other pairs than the dump's: $(sort out | diff - <(sort dumped) | cut -c1-60 | head -n 4)"
  cmp -s "$2.db" kept.db || wrong "$1: the file is another one"
}
# put FILE PLACE HEX
put() { printf '%b' "$(sed 's/../\\x&/g' <<< "$3")" | dd of="$1" bs=1 seek=$(($2)) conv=notrunc status=none; }

# acknowledged stores are there, and what was deleted isn't
for how in '' --v2; do
  # shellcheck disable=SC2086
  "$program" create t --limit 100 $how || exit 1
  killed t 'S 61 01' 'S 61 02' 'S 62 03' 'S 61 04'
  agrees "a stored pair $how" t
  grep -qx '61 04' out || wrong "a stored pair $how: $(cat out)"
  "$program" delete t 7a -x
  killed t 'S 63 05' 'D 62'
  agrees "a deleted pair $how" t
  grep -q '^62' out && wrong "a deleted pair $how comes back"
  rm t.db
done

# a far content, whose pages are images too
far() { printf "%0$((2 * $1))d" "$2" | tr 0 "$2"; }
"$program" create far --limit 100 --v2 || exit 1
killed far "S 61 $(far 5000 1)" "S 62 $(far 3000 2)" "S 61 $(far 6000 3)"
agrees 'a far content' far

# many pages, new ones among them, at some moments of a load in groups
for n in {1..20000}; do printf 'key%05d\tcontent %d\n' "$n" "$n"; done > lines
armed=0
for wait in 0.05 0.1 0.15 0.2 0.25 0.3 0.4 0.5; do
  rm -f many.db && "$program" create many --limit 100000 || exit 1
  "$program" load --text many < lines & process=$!
  sleep "$wait"
  kill -9 "$process" 2> /dev/null
  wait "$process" 2> /dev/null
  [ "$(state many.db)" = 00000001 ] && armed=$((armed + 1))
  agrees "a load that was killed after $wait s" many
done
for group in 1 7; do
  rm -f many.db && "$program" create many --limit 100000 || exit 1
  "$program" load --group $group --text many < lines & process=$!
  sleep 0.3
  kill -9 "$process" 2> /dev/null
  wait "$process" 2> /dev/null
  [ "$(state many.db)" = 00000001 ] && armed=$((armed + 1))
  agrees "a load in groups of $group that was killed" many
done
[ $armed -gt 0 ] || wrong 'no load was killed with its last commit away from home'

# A page that is damaged at home is read from its image. Page 3 has the pairs, and its image the new content of 61.
"$program" create home --limit 100 && "$program" store home 61 01 -x && "$program" store home 62 02 -x || exit 1
killed home 'S 61 03'
dd if=/dev/zero of=home.db bs=2048 seek=3 count=1 conv=notrunc status=none
agrees 'a page that is damaged at home' home
grep -qx '61 03' out && grep -qx '62 02' out || wrong "a page that is damaged at home: $(cat out)"

# An image that doesn't read is told, and its page is the one from before the commit.
"$program" create lost --limit 100 && "$program" store lost 61 01 -x || exit 1
killed lost 'S 61 03'
start=$(number lost.db 16) count=$(number lost.db 20)
for ((i = 0; i < count; i++)); do
  [ "$(number lost.db $(((start + i) * 2048)))" != 3 ] || put lost.db "($start + $i) * 2048 + 4" ff
done
status=0
"$program" salvage lost > out 2> err || status=$?
[ $status = 2 ] || wrong "an image that doesn't read: status $status"
[ "$(cat out)" = '61 01' ] || wrong "an image that doesn't read: $(cat out)"
[ "$(cat err)" = $'dbmtool: redo images that read as no page: 1; as many pages are printed as they were before the last commit\ndbmtool: fault 9' ] ||
  wrong "an image that doesn't read: told $(cat err)"

# Files that are left logging, made by hand: docs/FORMAT.md says what stands in a log.
# logged FILE START NUMBER SLOT BEFORE AFTER: FILE.db names a log from page START on, in which this slot has the commit of this number that makes
# AFTER.db of BEFORE.db
logged() {
  python3 - "$@" << 'END' || exit 1
import struct, sys

file, start, number, slot, before, after = sys.argv[1], *map(int, sys.argv[2:5]), *sys.argv[5:]
with open(f"{before}.db", "rb") as old, open(f"{after}.db", "rb") as new:
    old, new = old.read(), new.read()
end, = struct.unpack_from(">I", new, 12)
at = [2048 * n for n in range(1, end)]
pages = [new[it:it + 2048] for it in at if new[it:it + 2048] != old[it:it + 2048]]
assert 1 <= len(pages) <= 15 and end <= start, f"{after}: {len(pages)} pages of {end}"
sectors = [it[k:k + 512] for it in pages for k in range(0, 2048, 512)]
first = struct.pack(">4I", number, len(pages), end, 0) + b"".join(it[:4] for it in sectors)
with open(f"{file}.db", "r+b") as out:
    out.write(b"DBMREDO2" + struct.pack(">I", 2))
    out.seek(16)
    out.write(struct.pack(">II", start, 0))
    out.seek(512 * (4 * start + 64 * slot))
    out.write(first.ljust(512, b"\0") + b"".join(struct.pack(">I", number) + it[4:] for it in sectors))
END
}

# Three states of a table: two pairs; another content of the first; and seven pairs more, for which a page is added.
"$program" create first --limit 100 && "$program" store first 61 01 -x && "$program" store first 62 02 -x && cp first.db second.db || exit 1
"$program" store second 61 03 -x && cp second.db third.db || exit 1
for key in 63 64 65 66 67 68 69; do "$program" store third $key 04 -x || exit 1; done
for state in first second third; do "$program" dump $state | sort > $state.pairs; done
[ "$(number first.db 12)" = 4 ] && [ "$(number third.db 12)" = 5 ] || { echo 'the states have other pages'; exit 1; }

# has STATE: the pairs that were printed are those of this state
has() { sort out | cmp -s - "$1.pairs" || wrong "$rule: other pairs than those of the $1 state: $(sort out | diff - "$1.pairs" | head -n 4)"; }
# start SLOT: where the slot begins of the log of `log.db`
start() { echo $((2048 * 8 + 512 * 64 * $1)); }
# in_log SLOT: log.db is the first state, with the commit of the second in this slot and that of the third in the other one
in_log() {
  cp first.db log.db
  logged log 8 1 "$1" first second
  logged log 8 2 $((1 - $1)) second third
  cp log.db both.db
}

for slot in 0 1; do
  in_log $slot
  rule="a log whose older commit is in slot $slot"
  agrees "$rule" log
  has third

  rule="a page that is damaged at home, and in the log's slots"
  dd if=/dev/zero of=log.db bs=2048 seek=3 count=1 conv=notrunc status=none
  agrees "$rule" log
  has third

  rule='a log whose newer commit was cut short'
  cp both.db log.db
  put log.db "$(start $((1 - slot))) + 512" 00000000
  agrees "$rule" log
  has second
done

# A log with one commit, the first of a row
rule='a log with one commit'
cp first.db log.db
logged log 8 1 0 first second
agrees "$rule" log
has second

# Where no slot says a commit, that is told, and the pages are those at their own numbers.
rule='a log that says no commit'
cp both.db log.db
put log.db "$(start 0)" 00000000
put log.db "$(start 1)" 00000000
status=0
"$program" salvage log > out 2> err || status=$?
[ $status = 2 ] || wrong "$rule: status $status"
has first
[ "$(head -n 1 err)" = 'dbmtool: the log of the last commits cannot be read; what stands in it alone is not printed' ] ||
  wrong "$rule: told $(head -n 1 err)"
[ "$(tail -n 1 err)" = 'dbmtool: fault 9' ] || wrong "$rule: told at last $(tail -n 1 err)"

# A page of a log that reads as none is told, and not printed as it was.
rule='a damaged page in a log'
cp first.db log.db
logged log 8 1 0 first second
count=$(number log.db $((2048 * 8 + 4)))
for ((i = 0; i < count; i++)); do
  [ "$(number log.db $((2048 * 8 + 16 + 16 * i)))" != 3 ] || put log.db "2048 * 8 + 512 * (1 + 4 * $i) + 4" ff
done
status=0
"$program" salvage log > out 2> err || status=$?
[ $status = 2 ] || wrong "$rule: status $status"
[ ! -s out ] || wrong "$rule: $(cat out)"
[ "$(cat err)" = $'dbmtool: page 3: it is no page\ndbmtool: fault 9' ] || wrong "$rule: told $(cat err)"

exit $bad
