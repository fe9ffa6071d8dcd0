#!/usr/bin/env bash
# Damaged files: what the commands answer where a field breaks a rule of docs/FORMAT.md. A refused command leaves the file as it is.
. "$(dirname "$0")/common"
. "$top/tests/damage"

refused() { are "$1" 'verify t' 'fetch t a' 'store t a new' 'dump t'; }

# Nine keys: the odd ones stay in bucket 0, which is page 3, and the others go to bucket 1, which is page 4. The ninth one's redo images are
# those of pages 1 to 4, from page 5 on, since no pages wait when it comes.
"$program" create nine --limit 100 || exit 1
for digit in 1 2 3 4 5 6 7 8 9; do echo "6$digit 0$digit"; done > nine.text
head -n 8 nine.text | "$program" load nine && tail -n 1 nine.text | "$program" load nine || exit 1
rule='a good file'
run 0 9 '' verify nine

# ---- the commit sector: magic, state, end, start and count, and zeros behind
changed 'the magic of something else' nine.db 0 47
refused 10
changed 'the last letter of the magic' nine.db 7 33
refused 10
changed 'a first sector of something else' nine.db 0 00010001000100016b76
refused 10
changed 'a commit sector of zeros' nine.db 0 "$(printf '%01024d' 0)"
refused 10
changed 'a state that is none' nine.db 8 00000002
refused 9
changed 'an end below four' nine.db 12 00000003
refused 9
changed 'an end far beyond the device' nine.db 12 ffffffff
refused 9
# The device of a file is of 273,001,992 sectors, so of 68,250,498 pages (hexadecimal 4116b82).
changed 'an end just beyond the device' nine.db 12 04116b83
refused 9
changed 'an end that fills the device' nine.db 12 04116b82
run 0 01 '' fetch t 61 -x
are 8 'store t a new' 'store t 61 02 -x' 'delete t 61 -x'
changed 'a start where there are no redo images' nine.db 16 00000005
refused 9
changed 'a count where there are no redo images' nine.db 20 00000001
refused 9
changed 'an armed file with no redo image' nine.db 8 00000001000000050000000500000000
refused 9
changed 'redo images in front of the end' nine.db 8 00000001000000050000000400000001
refused 9
changed 'redo images beyond the device' nine.db 8 000000010000000504116b8200000001
refused 9
for place in 24 511; do
  changed "a byte behind the numbers, $place" nine.db $place 01
  refused 9
done

# ---- redo images. An armed file is settled by the commands that may write, and read as it will be settled by those that may not.
armed=(8 00000001000000050000000500000004)
changed 'an armed file' nine.db "${armed[@]}"
run 0 "$(cat nine.text)" '' dump t
run 0 9 '' verify t
stays
run 0 '' '' store t 61 01 -x
run 0 "$(cat nine.text)" '' dump t
images=(5*2048 "$(tail -c +$((6 * 2048 + 1)) nine.db | head -c 2048 | od -An -v -tx1 | tr -d ' \n')"
  6*2048 "$(tail -c +$((5 * 2048 + 1)) nine.db | head -c 2048 | od -An -v -tx1 | tr -d ' \n')")
changed 'redo images in another order' nine.db "${armed[@]}" "${images[@]}"
refused 9
changed 'a redo image of page 0' nine.db "${armed[@]}" 5*2048 00000000
refused 9
changed 'two redo images of a page' nine.db "${armed[@]}" 6*2048 00000001
refused 9
changed 'a redo image of a page behind the file' nine.db "${armed[@]}" 8*2048 00000005
refused 9

# ---- the meta page. What is wrong with the header comes first, then another version, then the rest.
changed 'another version' nine.db 2048+16 00000009
refused 11
changed 'another version and a limit of 0' nine.db 2048+16 0000000300000000
refused 11
changed 'another version and a next page' nine.db 2048+8 00000003 2048+16 00000003
refused 9
zeros=$(printf '%04096d' 0)
changed 'a meta page of zeros' nine.db 2048 "$zeros"
refused 9
# damaged RULE PLACE HEX..: the nine pairs with these bytes in their meta page
damaged() {
  changed "$1" nine.db "${@:2}"
  refused 9
}
damaged 'the number of another page' 2048 00000002
damaged 'another kind' 2048+4 02
damaged 'slots' 2048+6 0001
damaged 'a next page' 2048+8 00000003
damaged 'a limit of 0' 2048+20 00000000
damaged 'a limit above a million' 2048+20 000f4241
damaged 'more pairs than the limit' 2048+20 000000090000000a00000001
damaged 'more buckets than the limit has' 2048+20 000000080000000800000001
damaged 'more pairs than eight to a bucket' 2048+24 00000011
damaged 'a split that is none of the buckets' 2048+32 00000002
damaged 'a free page and none counted' 2048+36 00000004
damaged 'a free page counted and none there' 2048+40 00000001
damaged 'no segment' 2048+44 00000000
damaged 'two segments for two buckets' 2048+44 00000002 2048+68 00000003
damaged 'more segments than there is room for' 2048+44 000001f1
damaged 'a byte behind the counts' 2048+60 01
damaged 'a segment that is no page' 2048+64 00000000
damaged 'an entry behind the last segment' 2048+68 00000003

# ---- the segment page
for place in 0 4 5 8 12 15 24 2047; do damaged "byte $place of the segment page" 2*2048+"$place" 04; done
changed 'a segment names a head twice' nine.db 2*2048+20 00000003
run 0 01 '' fetch t 61 -x
run 1 '' '' fetch t 62 -x
are 9 'list t' 'dump t' 'verify t'
for head in 00000000 00000005; do
  changed "the head page $head" nine.db 2*2048+20 "$head"
  run 0 01 '' fetch t 61 -x
  are 9 'fetch t 62 -x' 'store t 62 02 -x' 'delete t 62 -x' 'dump t' 'verify t'
done

# ---- head pages
for count in 00000000 00000008 0000000a 00000010; do
  changed "nine pairs, and counted are $count" nine.db 2048+24 "$count"
  run 0 01 '' fetch t 61 -x
  run 0 09 '' fetch t 69 -x
  are 9 'list t' 'dump t' 'dump --text t' 'verify t'
done
changed 'a page with the number of another' nine.db 4*2048 00000003
run 0 01 '' fetch t 61 -x
are 9 'fetch t 62 -x' 'store t 62 02 -x' 'dump t' 'verify t'
changed 'more slots than there is room for' nine.db 3*2048+7 ff
are 9 'fetch t 61 -x' 'verify t'
run 0 02 '' fetch t 62 -x
changed 'a head page of zeros' nine.db 3*2048 "$zeros"
are 9 'fetch t a' 'fetch t y' 'insert t a v' 'store t a v' 'delete t y' 'list t'
# A key where no pair is counted is told by a delete.
"$program" create none --limit 100 || exit 1
changed 'a pair where none is counted' none.db 3*2048 00000003030000010000000007fe000007fe00010001 4*2048-2 6b76
run 2 '' 'dbmtool: fault 9' delete t k
run 0 v '' fetch t k
run 1 '' '' insert t k w

# ---- chains. By hand: the head page has `a` and `b`, and the overflow page behind it `c`.
head=(12 00000005 3*2048 00000003030000020000000407fc000007fe0001000107fc00010001 4*2048-4 62326131)
changed 'three pairs by hand' none.db "${head[@]}" 2048+24 00000003 4*2048 00000004040000010000000007fe000007fe00010001 5*2048-2 6333
cp t.db three.db
run 0 3 '' verify t
for pair in a1 b2 c3; do run 0 "${pair:1}" '' fetch t "${pair:0:1}"; done
run 1 '' '' fetch t d
run 0 $'a\t1\nb\t2\nc\t3' '' dump --text t
stays
changed 'an empty head page before another page' three.db 2048+24 00000001 3*2048 "00000003030000000000000408000000$(printf '%024d' 0)" 4*2048-4 00000000
run 0 1 '' verify t
run 0 3 '' fetch t c
run 1 '' '' fetch t a
run 0 63 '' list t
# broken RULE PLACE HEX..: those pairs with these bytes are no chain
broken() {
  changed "$1" three.db "${@:2}"
  are 9 'fetch t d' 'insert t d v' 'store t d v' 'delete t d' 'list t' 'dump t' 'verify t'
}
broken 'a head page of another kind' 3*2048+4 04
for next in 00000002 00000003 00000009; do
  broken "the page behind the head, $next" 3*2048+8 "$next"
  run 0 1 '' fetch t a
done
broken 'an overflow page with no pair' 4*2048 "00000004040000000000000008000000$(printf '%012d' 0)" 5*2048-2 0000
run 0 1 '' fetch t a
broken 'an overflow page with the number of another' 4*2048 00000005
run 0 1 '' fetch t a
broken 'an overflow page of another kind' 4*2048+4 03
run 0 1 '' fetch t a
for next in 00000003 00000004 00000005; do
  broken "the page behind the last, $next" 4*2048+8 "$next"
  run 0 1 '' fetch t a
  run 0 3 '' fetch t c
  run 0 $'pairs 3\nlimit 100\nbuckets 1\nlevel 0\nsplit 0\npages 5\nfree 0' '' stat t
done

# ---- free pages. Two pairs of 1,500 bytes, of which the second had an overflow page; then it was taken out, so that page 4 is free.
long=$(printf '%01499d' 0)
"$program" create both --limit 100 && "$program" store both a "$long" && "$program" store both b "$long" || exit 1
cp both.db chain.db && "$program" delete chain b || exit 1
rule='a good file with a free page'
run 0 1 '' verify chain
# listed RULE PLACE HEX..: that file with these bytes has no list of free pages, so a pair that needs a page is refused
listed() {
  changed "$1" chain.db "${@:2}"
  are 9 "store t b $long" 'verify t'
  run 0 "$long" '' fetch t a
}
for place in 0 4 5 7 12 15 16 2047; do listed "byte $place of a free page" 4*2048+"$place" 01; done
listed 'a free page that names itself' 4*2048+8 00000004
listed 'a free page more than is counted' 4*2048+8 00000003
listed 'a free page of another kind' 2048+36 00000003
listed 'a free page behind the file' 2048+36 00000009
listed 'a free page less than is counted' 2048+40 00000002
changed 'as many free pages as the file has' both.db 2048+36 0000000200000005
are 9 'delete t b' 'verify t'
run 0 "$long" '' fetch t b
# ---- scripts and loads answer each line as the command of its call does
changed 'a head page of another kind' nine.db $((3 * 2048 + 4)) 05
input=$work/input
printf 'S 61 02\nI 61 02\nI 6b 02\nF 61\nD 61\nF 62\nS 6b 02\n' > "$input"
run 0 $'-1 fault 9\n-1 fault 9\n-1 fault 9\n-1 fault 9\n-1 fault 9\n02\n-1 fault 9' '' script t
stays
for line in '61 02' '6b 02'; do
  echo "$line" > "$input"
  run 2 '' 'dbmtool: fault 9' load t
  run 2 '' 'dbmtool: fault 9' load t --group 1
  stays
done
printf 'a\t2\n' > "$input"
run 2 '' 'dbmtool: fault 9' load --text t
stays
exit $bad
