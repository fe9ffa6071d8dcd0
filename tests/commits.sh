#!/usr/bin/env bash
# Which pages a change commits, by the redo images that the armed commit sector of a file names once the change is cut short; a store that is
# acknowledged and waits for the closing: its commit sector is the armed one to the byte, and the pair is there for reading and writing; and
# each call of the system of a store that opens a bucket, of its closing, of the opening that settles it, of one that reads it, and of two stores
# in a row, in their order, and of stores with many new pages.
. "$(dirname "$0")/common"
preloadable fail

# numbers PLACE COUNT: so many numbers of t.db from that place on
numbers() { od -An -tu4 --endian=big -j "$1" -N $((4 * $2)) t.db | xargs; }

# cut CALL NAME LINE: the line on a copy of a file, of which that call of the system and all behind it fail
cut() {
  cp "$2.db" t.db
  FAIL_CALL=$1 FAIL_HOW=from LD_PRELOAD=./fail.so "$program" script t <<< "$3" > out 2> err
}

# commits NAME LINE PAGES: cut short where it just leaves the commit sector armed, the call has redo images of exactly these pages; then it is
# made on the file itself
commits() {
  local n state start count pages=
  for ((n = 1; n < 100; n++)); do
    cut "$n" "$1" "$2"
    read -r state _ start count <<< "$(numbers 8 4)"
    if [ "$state" = 1 ]; then
      for ((i = start; i < start + count; i++)); do pages="$pages $(numbers $((i * 2048)) 1)"; done
      break
    fi
  done
  [ "$pages" = " $3" ] || wrong "${2:0:8} commits other pages than $3:$pages"
  [ "$("$program" script "$1" <<< "$2")" = 0 ] || wrong "${2:0:8} is refused"
}

"$program" create new --limit 100 && cp new.db t2.db || exit 1
commits t2 'S 6b 76' '1 3'

# Two pairs, of which each fills most of a page, so that the second one has an overflow page.
long=$(printf '07%.0s' $(seq 1499))
cp new.db t3.db && [ "$("$program" script t3 <<< "S 61 $long")" = 0 ] || exit 1
commits t3 "S 62 $long" '1 3 4'
commits t3 'S 63 01' '1 3'
commits t3 'D 62' '1 3 4'
commits t3 "S 62 $long" '1 3 4'

# The least calls with which a store is acknowledged: `DBMREDO1`, armed, end 4, two redo images from page 4 on.
for ((n = 1; n < 100; n++)); do
  cut "$n" new 'S 6b 76'
  [ "$(cat out)" != 0 ] || break
done
[ "$(cat err)" = 'dbmtool: fault 2' ] || wrong "a closing that fails tells $(cat err)"
[ "$(head -c 512 t.db | od -An -v -tx1 | tr -d ' \n')" = "44424d5245444f3100000001000000040000000400000002$(printf '%0976d' 0)" ] ||
  wrong "another commit sector waits for the closing"
cp t.db armed.db
[ "$("$program" dump t)" = '6b 76' ] && cmp -s t.db armed.db || wrong "a dump of an armed file changes it, or lacks the pair"
"$program" store t other 1 && [ "$("$program" fetch t k)" = v ] && [ "$("$program" stat t | head -n 1)" = 'pairs 2' ] ||
  wrong "a store on an armed file loses the pair"

# traced NAME LINES WANTED: the calls of the system of a script on a copy of a file; a place and a size are in bytes
traced() {
  cp "$1.db" t.db && rm -f trace
  FAIL_TRACE=trace LD_PRELOAD=./fail.so "$program" script t <<< "$2" > out 2> err
  cmp trace - <<< "$3" || wrong "$1: other calls of the system"
}

# pages READ|WRITE N..: a call for each of these pages
pages() {
  local page
  for page in "${@:2}"; do echo "$1 $((page * 2048)) 2048"; done
}

# Eight pairs; the ninth opens a bucket, which is page 4, so that the images of pages 1 to 4 stand from page 5 on.
"$program" create t8 --limit 100 || exit 1
for digit in 1 2 3 4 5 6 7 8; do echo "6$digit 0$digit"; done | "$program" load t8 || exit 1
# An opening for writing looks what the commit sector says, and writes it back before its first sync.
begins=$(printf 'read 0 512\nread 0 512\nwrite 0 512\nsync\nread 0 512')
opening=$begins$'\n'$(pages read 1)
store=$(pages read 2 3; pages write 5 6 7 8; printf 'sync\nwrite 0 512\nsync')
closing=$(pages write 1 2 3 4; printf 'sync\nwrite 0 512\nsync')
traced t8 'S 69 09' "$opening"$'\n'"$store"$'\n'"$closing"

# The same store without its closing: the next opening reads the commit sector, and each image to check it; it reads each again and writes its
# page, and clears the sector.
cut 16 t8 'S 69 09'
cp t.db armed.db
settling=$(pages read 5 6 7 8; for n in 1 2 3 4; do pages read $((n + 4)); pages write "$n"; done; printf 'sync\nwrite 0 512\nsync')
traced armed '' "$begins"$'\n'"$settling"$'\n'"$(pages read 1)"

# Opened for reading, the commit sector and each image are read once, and with each page in an image no other. Cut short before any of these
# nothing is printed. The file stays as it was.
cp armed.db t.db && rm -f trace
FAIL_TRACE=trace LD_PRELOAD=./fail.so "$program" dump t > out 2> err && [ "$(tail -n 1 out)" = '69 09' ] || wrong "an armed file is not read: $(cat err)"
cmp trace - <<< "$(printf 'read 0 512\n'; pages read 5 6 7 8)" || wrong "an armed file is read by other calls"
for n in 1 2 3 4 5; do
  status=0
  FAIL_CALL=$n FAIL_HOW=from LD_PRELOAD=./fail.so "$program" dump t > out 2> err || status=$?
  [ "$status $(cat out err)" = '2 dbmtool: fault 2' ] || wrong "an armed file, read $n cut short: status $status, $(cat out err)"
done
cmp -s t.db armed.db || wrong "a dump changes an armed file"

# Of three stores in a row the second one writes its redo images behind those of the first, and the third in the place of the first one's. The pages
# of the one before are those of the next, so none comes to its place before the closing. Each takes two syncs, and reads nothing.
all=$(pages read 2 3; pages write 4 5; printf 'sync\nwrite 0 512\nsync\n'
  pages write 6 7; printf 'sync\nwrite 0 512\nsync\n'; pages write 4 5; printf 'sync\nwrite 0 512\nsync\n'
  pages write 1 3; printf 'sync\nwrite 0 512\nsync')
traced new $'S 61 01\nS 62 02\nS 63 03' "$opening"$'\n'"$all"

# A commit with 16 new pages, those of a content in pages of its own, writes these in their places once, and redo images of the other two alone. Behind
# it, where these two wait, such a commit writes all of its pages as images, the same two among them. So does one with 15 new
# pages where none waits.
"$program" create far --limit 100 --v2 || exit 1
far=$(printf '07%.0s' $(seq 32512)) shorter=$(printf '07%.0s' $(seq 30480))
armed=$(printf 'sync\nwrite 0 512\nsync') home=$(pages write 1 3; printf 'sync\nwrite 0 512\nsync')
# shellcheck disable=SC2046
first=$(pages read 2 3; pages write $(seq 4 19) 20 21)$'\n'$armed
# shellcheck disable=SC2046
second=$(pages write $(seq 36 53))$'\n'$armed
# shellcheck disable=SC2046
traced far "S 61 $far"$'\n'"S 62 $far" "$opening"$'\n'"$first"$'\n'"$second"$'\n'"$(pages write 1 3 $(seq 20 35); printf 'sync\nwrite 0 512\nsync')"
# shellcheck disable=SC2046
traced far "S 61 $shorter" "$opening"$'\n'"$(pages read 2 3; pages write $(seq 19 35))"$'\n'"$armed"$'\n'"$(pages write 1 $(seq 3 18); printf 'sync\nwrite 0 512\nsync')"

# A file that leaves its device room for two pages alone: the second store brings the pages of the first to their places before it writes its own
# images over those. With room for four it does not. The device has 68,250,498 pages.
for left in 2 3 4; do
  end=$((68250498 - left)) next=$((68250498 - left))
  cp new.db full.db
  printf '%08x' $end | xxd -r -p | dd of=full.db bs=1 seek=12 conv=notrunc status=none
  home="$(pages write 1 3)"$'\n'"$(printf 'sync\nwrite 0 512\nsync')" between=$'\n'
  if [ $left = 4 ]; then next=$((end + 2)) between=; else between="$home"$'\n'; fi
  armed=$(printf 'sync\nwrite 0 512\nsync')
  second="$between$(pages write $next $((next + 1)))"$'\n'
  traced full $'S 61 01\nS 62 02' "$opening"$'\n'"$(pages read 2 3; pages write $end $((end + 1)))"$'\n'"$armed"$'\n'"$second$armed"$'\n'"$home"
done
exit $bad
