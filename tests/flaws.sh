#!/usr/bin/env bash
# Damaged files: which page `dbmtool --verbose verify` says is wrong, and by which rule of docs/FORMAT.md. It goes over the meta page, the segment
# pages, each bucket's chain with its contents, the counted pairs and the free list, and tells the first rule that is broken.
. "$(dirname "$0")/common"
. "$top/tests/damage"

# What it says of each rule but that of the meta page: an opening refuses a file that breaks this one.
limit='the file has more pages than its limit asks for'
outside='the file has no such page'
twice='it stands in two places'
segment='it is no segment page of these buckets'
head='it is no head page of a bucket'
overflow='it is no overflow page'
empty='it is an overflow page that has no pair'
slots='its header or its slots break the format'
bucket='a pair stands there that is in another bucket'
key='a key stands there twice, here and on an earlier page of its bucket'
content='it is no content page, or has other bytes than zeros behind its content'
content_short='a content ends there too soon'
content_long='a content goes on there behind its end'
free='it is no free page'
free_count='the free list is longer or shorter than it counts'
pair_count='there are more or fewer pairs than it counts'
unused='no other page leads to it'
# shellcheck disable=SC2016
damaged='the file is damaged: restore a backup or load a dump, or take what `dbmtool salvage` prints'

# tells PAGE WORDS: what is said of t.db, in words and without them; no command changes it
tells() {
  run 2 '' 'dbmtool: fault 9' verify t
  run 2 '' $'dbmtool: fault 9\ndbmtool: t.db: page '"$1: $2" --verbose verify t
  stays
}
# flawed FILE PAGE WORDS PLACE HEX..: what is said of that file with these bytes. A page has 2,048 bytes.
flawed() {
  changed "$3, page $2 ($1 ${*:4})" "$1" "${@:4}"
  tells "$2" "$3"
}

# ---- nine pairs in two buckets: page 3 has the odd keys, and page 4 the even ones
"$program" create nine --limit 100 || exit 1
for digit in 1 2 3 4 5 6 7 8 9; do echo "6$digit 0$digit"; done | "$program" load nine --group 1 || exit 1
rule='a good file'
run 0 9 '' --verbose verify nine

flawed nine.db 1 "$twice" 2048+64 00000001
flawed nine.db 5 "$outside" 2048+64 00000005
flawed nine.db 4 "$segment" 2048+64 00000004
for place in 0 4 5 8 12 15 24 2047; do flawed nine.db 2 "$segment" 2*2048+"$place" 04; done
for page in 0 5 9; do flawed nine.db $page "$outside" 2*2048+20 0000000$page; done
flawed nine.db 3 "$twice" 2*2048+20 00000003
flawed nine.db 2 "$head" 2*2048+16 00000002
flawed nine.db 3 "$head" 3*2048 00000004
flawed nine.db 4 "$head" 4*2048+4 04
flawed nine.db 3 "$slots" 3*2048+7 ff
flawed nine.db 4 "$slots" 4*2048+5 01
flawed nine.db 3 "$slots" 3*2048+13 00
# The last byte of a key says its bucket of two. `k` is an odd one, and `l` an even one.
flawed nine.db 4 "$bucket" 5*2048-2 6b
flawed nine.db 3 "$bucket" 4*2048-2 6c
flawed nine.db 1 "$pair_count" 2048+24 00000008
flawed nine.db 1 "$pair_count" 2048+24 0000000a
# The first one is told: bucket 0 comes before bucket 1, and both before the count.
flawed nine.db 3 "$head" 3*2048+4 05 4*2048+4 05 2048+24 00000008
flawed nine.db 4 "$head" 4*2048+4 05 2048+24 00000008

# ---- three pairs by hand: the head page 3 has `a` and `b`, and the overflow page 4 `c`
"$program" create none --limit 100 || exit 1
changed 'three pairs by hand' none.db 12 00000005 3*2048 00000003030000020000000407fc000007fe0001000107fc00010001 4*2048-4 62326131 \
  2048+24 00000003 4*2048 00000004040000010000000007fe000007fe00010001 5*2048-2 6333
cp t.db three.db
run 0 3 '' --verbose verify t
flawed three.db 4 "$overflow" 4*2048 00000005
flawed three.db 4 "$overflow" 4*2048+4 03
flawed three.db 2 "$overflow" 3*2048+8 00000002
flawed three.db 3 "$overflow" 3*2048+8 00000003
flawed three.db 9 "$outside" 3*2048+8 00000009
flawed three.db 4 "$twice" 4*2048+8 00000004
flawed three.db 5 "$outside" 4*2048+8 00000005
flawed three.db 4 "$empty" 4*2048 "00000004040000000000000008000000$(printf '%012d' 0)" 5*2048-2 0000
flawed three.db 4 "$key" 5*2048-2 61
flawed three.db 4 "$key" 5*2048-2 62
flawed three.db 3 "$slots" 4*2048-4 61
flawed three.db 4 "$unused" 2048+24 00000002 3*2048+8 00000000

# ---- one pair of 1,500 bytes. Another one had page 4 and was taken out, so that this page is free.
long=$(printf '%01499d' 0)
"$program" create chain --limit 100 && "$program" store chain a "$long" && "$program" store chain b "$long" && "$program" delete chain b || exit 1
rule='a good file with a free page'
run 0 1 '' --verbose verify chain
for place in 0 4 5 7 12 15 16 2047; do flawed chain.db 4 "$free" 4*2048+"$place" 01; done
flawed chain.db 3 "$free" 2048+36 00000003
flawed chain.db 9 "$outside" 2048+36 00000009
flawed chain.db 1 "$free_count" 2048+40 00000002
flawed chain.db 1 "$free_count" 4*2048+8 00000003
flawed chain.db 4 "$twice" 2048+40 00000002 4*2048+8 00000004
flawed chain.db 4 "$unused" 2048+36 0000000000000000

# ---- version 2: page 3 has two far pairs. The content of the first is in pages 4, 5 and 6, and that of the second in pages 7 and 8.
"$program" create far --limit 100 --v2 || exit 1
printf '66 %s\n6f %s\n' "$(printf '%010000d' 0)" "$(printf '%04200d' 0)" | "$program" load far --group 1 || exit 1
rule='a good file with two contents'
run 0 2 '' --verbose verify far
flawed far.db 5 "$content" 5*2048+4 05
flawed far.db 4 "$content" 4*2048 00000005
flawed far.db 6 "$content" 6*2048+2047 01
flawed far.db 4 "$content_short" 4*2048+8 00000000
flawed far.db 7 "$content_short" 7*2048+8 00000000
flawed far.db 6 "$content_long" 6*2048+8 00000007
flawed far.db 7 "$twice" 4*2048+8 00000007
flawed far.db 4294967295 "$outside" 5*2048+8 ffffffff
flawed far.db 3 "$slots" 2048+16 00000001

# ---- with a limit of 1 there are at most 5 pages in version 1, with page 0
"$program" create small --limit 1 && "$program" store small k v || exit 1
flawed small.db 5 "$limit" 12 00000006

# ---- what else a damaged file is told by, and where no page is known
changed 'a meta page of another kind' nine.db 2048+4 02
run 2 '' $'dbmtool: fault 9\ndbmtool: t.db: '"$damaged" --verbose verify t
stays
changed 'a head page of another kind' nine.db 3*2048+4 05
for words in 'fetch t a' 'store t a new' 'dump t'; do
  # shellcheck disable=SC2086
  run 2 '' $'dbmtool: fault 9\ndbmtool: t.db: '"$damaged" --verbose $words
done
export DBMTOOL_VERBOSE=1
run 2 '' $'dbmtool: fault 9\ndbmtool: t.db: page 3: '"$head" verify t
stays
exit $bad
