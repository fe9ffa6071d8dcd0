#!/usr/bin/env bash
# Whole files, byte by byte, against bytes worked out by hand from docs/FORMAT.md: a new one, one with a pair, eight pairs in one bucket and
# nine in two; overflow pages that are taken, given back and taken again; pages that a pair fits just so.
. "$(dirname "$0")/common"
. "$top/tests/by_hand"

# meta PAIRS LEVEL FREE_HEAD FREE_COUNT: the numbers of a meta page, from its byte 16 on: version, limit, pairs, level, split, the first free
# page, how many are free, and the count of segments
meta() { printf '%08x' 1 100 "$1" "$2" 0 "$3" "$4" 1; }

"$program" create new --limit 100 || exit 1
spelled new 4 \
  0 "${magic}0000000000000004" \
  2048 0000000101 2064 "$(meta 0 0 0 0)" 2112 00000002 \
  4096 0000000202 4112 00000003 \
  6144 00000003030000000000000008000000
[ "$(tail -c +8193 new.db | tr -d '\0' | wc -c)" = 0 ] || wrong "there is something behind a new file's pages"

# The pair `k` and `v`.
cp new.db pair.db
said pair 'S 6b 76' '0/'
spelled pair 4 \
  0 "${magic}0000000000000004" \
  2048 0000000101 2064 "$(meta 1 0 0 0)" 2112 00000002 \
  4096 0000000202 4112 00000003 \
  6144 000000030300000100000000 6156 07fe0000 6160 07fe00010001 8190 6b76

# Eight pairs in one bucket, and then nine: bucket 1 of two gets those whose key is even, since the hash of one byte is odd where the byte is even.
cp new.db nine.db
for digit in 1 2 3 4 5 6 7 8; do said nine "S 6$digit 0$digit" '0/'; done
spelled nine 4 \
  0 "${magic}0000000000000004" \
  2048 0000000101 2064 "$(meta 8 0 0 0)" 2112 00000002 \
  4096 0000000202 4112 00000003 \
  6144 000000030300000800000000 6156 07f00000 \
  6160 07fe0001000107fc0001000107fa0001000107f80001000107f60001000107f40001000107f20001000107f000010001 \
  8176 68086707660665056404630362026101
said nine 'S 69 09' '0/'
counted nine '9 100 2 1 0 5 0'
spelled nine 5 \
  0 "${magic}0000000000000005" \
  2048 0000000101 2064 "$(meta 9 1 0 0)" 2112 00000002 \
  4096 0000000202 4112 0000000300000004 \
  6144 000000030300000500000000 6156 07f60000 6160 07fe0001000107fc0001000107fa0001000107f80001000107f600010001 8182 69096707650563036101 \
  8192 000000040300000400000000 8204 07f80000 8208 07fe0001000107fc0001000107fa0001000107f800010001 10232 6808660664046202
for digit in 1 2 3 4 5 6 7 8 9; do said nine "F 6$digit" "0$digit/"; done
counted nine '9 100 2 1 0 5 0'

# Pairs of which each fills more than half a page: a key of one byte, and 1,499 bytes of content, whose record begins at byte 0224.
long=$(printf '07%.0s' $(seq 1499))
# page N KIND NEXT KEY: the places and bytes of a page of such a pair. Its record is the key and the content behind it, up to the end of the page.
page() {
  local at=$(($1 * 2048))
  printf '%s ' $at "$(printf '%08x%s000001%08x02240000' "$1" "$2" "$3")" $((at + 16)) 0224000105db $((at + 548)) "$4$long"
}
# table END META: the commit sector, the meta page, and a segment of one bucket, which is page 3
table() { printf '%s ' 0 "$magic$(printf '%016x' "$1")" 2048 0000000101 2064 "$2" 2112 00000002 4096 0000000202 4112 00000003; }
# longs NAME END META PLACE HEX..: the file has this table, and these pages behind it
# shellcheck disable=SC2046
longs() { spelled "$1" "$2" $(table "$2" "$3") "${@:4}"; }

cp new.db long.db
said long "S 61 $long/S 62 $long" '0/0/'
counted long '2 100 1 0 0 5 0'
# shellcheck disable=SC2207
two=($(page 3 03 4 61) $(page 4 04 0 62))
longs long 5 "$(meta 2 0 0 0)" "${two[@]}"
# An absent key changes nothing.
said long 'D 63' '-1 absent/'
longs long 5 "$(meta 2 0 0 0)" "${two[@]}"
# The first one deleted: its head page is empty and stays, in front of page 4.
cp long.db head.db
said head 'D 61' '0/'
counted head '1 100 1 0 0 5 0'
# shellcheck disable=SC2046
longs head 5 "$(meta 1 0 0 0)" 6144 0000000303000000000000040800 $(page 4 04 0 62)
# The second one deleted: page 4 is free, and the head page has no next one.
cp long.db free.db
said free 'D 62' '0/'
counted free '1 100 1 0 0 5 1'
# shellcheck disable=SC2046
longs free 5 "$(meta 1 0 4 1)" $(page 3 03 0 61) 8192 0000000405
said free "S 62 $long" '0/'
counted free '2 100 1 0 0 5 0'
longs free 5 "$(meta 2 0 0 0)" "${two[@]}"

# A pair goes to the first page that it fits. Each of two pages lacks a byte for one of 521 bytes and its slot of 6, which takes a third page,
# and is filled by one of 520. Then not even a key alone fits them.
short=$(printf '01%.0s' $(seq 519))
cp long.db fits.db
said fits "S 63 01$short/S 64 $short/S 65 $short/S 66 ." '0/0/0/0/'
counted fits '6 100 1 0 0 6 0'
longs fits 6 "$(meta 6 0 0 0)" \
  6144 000000030300000200000004001c0000 6160 0224000105db001c00010207 6172 "64$short" 6692 "61$long" \
  8192 000000040400000200000005001c0000 8208 0224000105db001c00010207 8220 "65$short" 8740 "62$long" \
  10240 00000005040000020000000005f60000 10256 05f70001020805f600010000 11766 "666301$short"

# Of two pages that are given the last one is taken first, and then one from the end.
cp new.db four.db
said four "S 61 $long/S 62 $long/S 63 $long/S 64 $long" '0/0/0/0/'
# shellcheck disable=SC2046
longs four 7 "$(meta 4 0 0 0)" $(page 3 03 4 61) $(page 4 04 5 62) $(page 5 04 6 63) $(page 6 04 0 64)
said four 'D 62/D 63' '0/0/'
counted four '2 100 1 0 0 7 2'
# shellcheck disable=SC2046
longs four 7 "$(meta 2 0 5 2)" $(page 3 03 6 61) 8192 0000000405 10240 000000050500000000000004 $(page 6 04 0 64)
said four "S 65 $long/S 66 $long/S 67 $long" '0/0/0/'
counted four '5 100 1 0 0 8 0'
# shellcheck disable=SC2046
longs four 8 "$(meta 5 0 0 0)" $(page 3 03 6 61) $(page 6 04 5 64) $(page 5 04 4 65) $(page 4 04 7 66) $(page 7 04 0 67)
exit $bad
