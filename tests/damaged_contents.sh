#!/usr/bin/env bash
# Damaged files of version 2: what the commands answer where a field of a far slot or of a content page breaks a rule of docs/FORMAT.md, or where
# the version is another. A refused command leaves the file as it is. What `verify` says is compared with a plain look at the file.
. "$(dirname "$0")/common"
. "$top/tests/damage"
cc -O1 -o count "$top/tests/plain_count.c" "$top/tests/plain_check.c" || exit 1

# content SIZE FROM: so many bytes of a content, the numbers from FROM on in two bytes each
numbers=$(printf '%04x' {0..39999})
content() { echo "${numbers:4 * $2:2 * $1}"; }
# times COUNT HEX: this so often
times() { printf "$2%.0s" $(seq "$1"); }
# made NAME LIMIT VERSION LINES: a database in which these calls were made; `/` stands for the end of a line
# shellcheck disable=SC2046
made() {
  "$program" create "$1" --limit "$2" $([ "$3" = 1 ] || echo --v2) && tr / '\n' <<< "$4" | "$program" script "$1" > out || exit 1
  [ "$(sort -u out)" = 0 ] || { echo "$1 isn't made"; exit 1; }
}

# verified PAIRS: what `verify` says, and a plain look; -1 where it is no good file
verified() {
  if [ "$1" = -1 ]; then run 2 '' 'dbmtool: fault 9' verify t; else run 0 "$1" '' verify t; fi
  [ "$(./count t.db)" = "$1" ] || wrong "$rule: a plain look says $(./count t.db)"
}
# answered LINES REPLIES: the calls of a script, and the reply to each
answered() {
  local input=$work/input
  tr / '\n' <<< "$1" > "$input"
  run 0 "$(tr / '\n' <<< "$2")" '' script t
}

# has PLACE HEX: t.db has these bytes there
has() { [ "$(od -An -v -tx1 -j"$1" -N$((${#2} / 2)) t.db | tr -d ' \n')" = "$2" ] || wrong "$rule: other bytes at $1"; }

# ---- three pairs in page 3: `n` is near, the content of `f` is in pages 4, 5 and 6, and that of `o` in pages 7 and 8. Pages 10 and 9 are free.
f=$(content 5000 257) o=$(content 2100 5000)
made three 100 2 "S 6e 01/S 66 $f/S 6f $o/S 78 $o/D 78"
changed 'a good file' three.db
has $((3 * 2048)) 00000003030000030000000007f4000007fe0001000107f98001138807f480010834
has $((3 * 2048 + 2036)) 6f0000000766000000046e01
slot_n=$((3 * 2048 + 16)) slot_f=$((3 * 2048 + 22)) first_f=$((3 * 2048 + 2042))
verified 3
run 0 $'66\n6e\n6f' '' list t
run 0 "66 $f"$'\n6e 01\n'"6f $o" '' dump t
run 0 $'pairs 3\nlimit 100\nbuckets 1\nlevel 0\nsplit 0\npages 11\nfree 2' '' stat t

# unreadable RULE PLACE HEX..: with these bytes page 3 is none, so that none of its keys is found, and none is known to be absent
unreadable() {
  changed "$1" three.db "${@:2}"
  are 9 'fetch t f' 'fetch t n' 'fetch t z' 'insert t f v' 'store t f v' 'store t n v' 'store t z v' 'delete t f' 'delete t n' 'delete t z'
  are 9 'list t' 'dump t'
  verified -1
  run 0 $'pairs 3\nlimit 100\nbuckets 1\nlevel 0\nsplit 0\npages 11\nfree 2' '' stat t
}
unreadable 'a far slot without its highest bit' $slot_f+2 0001
unreadable 'a near slot with the highest bit' $slot_n+2 8001
unreadable 'a far slot of a longer key' $slot_f+2 8002
unreadable 'a far slot of a shorter key' $slot_f+2 8000
unreadable 'a far slot that begins a byte later' $slot_f 07fa
unreadable 'a far slot of a near pair' $slot_f+4 07e9
unreadable 'a far slot of no content' $slot_f+4 0000
unreadable 'a content that begins in page 0' $first_f 00000000
unreadable 'the key of a far pair once more' 3*2048+2046 66
# A byte less of this content, which ends in a zero, would be near, and its page would say it.
made edge 100 2 "S 6b $(content 2025 9)00"
changed 'a far pair of 2,027 bytes' edge.db
verified 1
changed 'a far pair of 2,026 bytes' edge.db 3*2048+16+4 07e9
are 9 'fetch t k' 'fetch t z' 'store t k v' 'delete t k' 'list t' 'dump t'
verified -1
# Of a key of 1,024 bytes a content of 1,004 would not be near, but the key is too long.
k=$(times 1023 6b)
made long 100 2 "S $k $(content 1004 1)"
changed 'a far key of 1,023 bytes' long.db
has $((3 * 2048)) 00000003030000010000000003fd000003fd83ff03ec
verified 1
changed 'a far key of 1,024 bytes' long.db 3*2048+12 03fc 3*2048+16 03fc8400 3*2048+1020 6b
are 9 "fetch t 6b$k -x" "fetch t $k -x" 'fetch t z' 'store t z v' "delete t 6b$k -x" 'list t' 'dump t'
verified -1

# ---- contents that can't be read. The key is there, and the other pairs are, which also change.
# broken RULE PLACE HEX..: with these bytes the content of `f` can't
broken() {
  changed "$1" three.db "${@:2}"
  are 9 'fetch t f' 'store t f v' 'delete t f' 'dump t'
  verified -1
  run 0 $'66\n6e\n6f' '' list t
  answered "F 66/I 66 00/S 66 $o/D 66/F 6e/F 6f/F 7a/E" "-1 fault 9/1/-1 fault 9/-1 fault 9/01/$o/none/9"
  stays
  answered "S 6e 02/F 6e/D 6e/D 7a/S 7a 03/F 66/F 6f" "0/02/0/-1 absent/0/-1 fault 9/$o"
  verified -1
}
for length in 17d1 ffff 0fe0 07ea; do broken "a content of $length bytes in three pages" $slot_f+4 $length; done
for page in 00000001 00000002 00000003 00000005 00000007 00000008 00000009 0000000a 0000000b ffffffff; do
  broken "a content that begins in page $page" $first_f $page
done
for place in 0 3 5 6 7 12 13 14 15; do broken "byte $place of a content's second page" 5*2048+"$place" 09; done
for page in 4 5 6; do
  for kind in 00 03 04 05 07; do broken "page $page is of kind $kind" $page*2048+4 $kind; done
done
for page in 4 6; do
  for place in 3 5 7 13 15; do broken "byte $place of page $page" $page*2048+"$place" 09; done
done
broken 'a content page of zeros' 5*2048 "$(printf '%04096d' 0)"
# followed N NEXT..: page N names another page
followed() { for next in "${@:2}"; do broken "page $next is behind page $1" "$1"*2048+8 "$next"; done; }
followed 4 00000000 00000001 00000003 00000004 00000006 00000008 0000000a 0000000b ffffffff
followed 5 00000000 00000003 00000004 00000005 00000007 0000000a 0000000b
followed 6 00000003 00000004 00000005 00000006 00000007 0000000a 0000000b

# Bytes behind a content's end, in its last page. No fetch gives the content. But its pages can be given back, and then the file is a good one.
# loose RULE PLACE HEX..
loose() {
  changed "$1" three.db "${@:2}"
  are 9 'fetch t f' 'dump t'
  verified -1
  run 0 $'66\n6e\n6f' '' list t
  answered "F 66/I 66 00/F 6e/F 6f" "-1 fault 9/1/01/$o"
  stays
  run 0 '' '' delete t f
  verified 2
  cp damaged.db t.db
  run 0 '' '' store t f v
  run 0 v '' fetch t f
  verified 3
}
for place in 952 953 2047; do loose "byte $place of a content's last page" 6*2048+"$place" 01; done
loose 'a content of 4,999 bytes, and one more' $slot_f+4 1387
loose 'a content of 4,065 bytes, and more' $slot_f+4 0fe1

# What can't be seen: another byte, and zeros behind the end that count as the content's
# good RULE CONTENT PLACE HEX..: with these bytes the file is a good one, and `f` has this content
good() {
  changed "$1" three.db "${@:3}"
  verified 3
  run 0 "$2" '' fetch t 66 -x
  stays
  run 0 '' '' delete t f
  verified 2
}
good 'another byte of a content' "ff${f:2}" 4*2048+16 ff
good 'a content of 5,001 bytes' "${f}00" $slot_f+4 1389
good 'a content of 6,096 bytes' "$f$(times 1096 00)" $slot_f+4 17d0

# ---- pages in two places. The content of `f` goes on in that of `o`, behind which zeros stand: so it is read, but `verify` tells.
changed 'a content that goes on in another' three.db 4*2048+8 00000007
mixed=${f:0:4064}$o$(times 868 00)
run 0 "$mixed" '' fetch t 66 -x
run 0 "66 $mixed"$'\n6e 01\n'"6f $o" '' dump t
verified -1
stays
# Its pages are given back with it, and then `o` has none.
run 0 '' '' delete t f
run 2 '' 'dbmtool: fault 9' fetch t o
run 0 01 '' fetch t 6e -x
verified -1
# Two contents of one length, of which `q` was taken out. A slot of `q` with the page of `p` is all that is wrong then.
made twins 100 2 "S 70 $o/S 71 $f/D 71"
changed 'one of two pairs' twins.db
verified 1
changed 'two contents in the same pages' twins.db 2048+24 00000002 3*2048 00000003030000020000000007f6 3*2048+22 07f680010834 3*2048+2038 7100000004
answered 'F 70/F 71' "$o/$o"
run 0 "70 $o"$'\n'"71 $o" '' dump t
verified -1
stays
answered 'D 70/F 71/D 71' '0/-1 fault 9/-1 fault 9'
verified -1
# A page is of one kind. So one of a content and of the free list is wrong in one of the two.
changed 'a free list that begins in a content' three.db 2048+36 00000004
are 9 "store t 7a $o -x" "store t 7a $(content 2020 9) -x"
run 0 "$f" '' fetch t 66 -x
verified -1
changed 'a free list that goes on in a content' three.db 10*2048+8 00000006
are 9 "store t 7a $o -x"
run 0 "$f" '' fetch t 66 -x
verified -1
# The first free page is taken before the second one is read.
for place in 3 4 5 8 15 16 2047; do
  changed "byte $place of the second free page" three.db 9*2048+"$place" 0b
  are 9 "store t 7a $o -x"
  verified -1
  run 0 '' '' store t 7a "$(content 2026 9)" -x
  run 0 "$(content 2026 9)" '' fetch t 7a -x
  verified -1
done
changed 'a free page that names itself' three.db 10*2048+8 0000000a
are 9 "store t 7a $o -x"
verified -1
changed 'as many free pages as the file has' three.db 2048+36 0000000a0000000b
are 9 'delete t f' 'store t f v'
run 0 "$f" '' fetch t 66 -x
verified -1

# ---- the version. In version 1 a page with a far slot is none.
changed 'far slots in version 1' three.db 2048+16 00000001
are 9 'fetch t f' 'fetch t n' 'fetch t z' 'insert t f v' 'store t n v' 'store t z v' 'delete t f' 'delete t n' 'list t' 'dump t'
verified -1
run 0 $'pairs 3\nlimit 100\nbuckets 1\nlevel 0\nsplit 0\npages 11\nfree 2' '' stat t
# An upgrade looks at no other page, and brings them back.
run 0 '' '' upgrade t
cmp <(head -c $((11 * 2048)) t.db) <(head -c $((11 * 2048)) three.db) || wrong "$rule: an upgrade changes more than the version"
verified 3
run 0 "$f" '' fetch t 66 -x
# A pair of 2,026 bytes fills page 3, and the far one's record is in page 7 behind it. What is found before that page is as it was.
made chain 100 2 "S 6e $(content 2025 9)/S 66 $f"
changed 'a far slot in the second page of a chain' chain.db
has $((7 * 2048)) 00000007040000010000000007fb000007fb80011388
verified 2
changed 'a far slot in the second page of a chain of version 1' chain.db 2048+16 00000001
are 9 'list t' 'dump t' 'delete t f' 'delete t z' 'store t z v' 'insert t f v'
answered "F 6e/I 6e 00/F 66/F 7a/S 66 00/D 7a" "$(content 2025 9)/1/-1 fault 9/-1 fault 9/-1 fault 9/-1 fault 9"
stays
answered 'S 6e 02/F 6e/D 6e/F 6e' '0/02/0/-1 fault 9'
verified -1
changed 'a far slot of a near pair in the second page of a chain' chain.db 7*2048+16+4 07e9
are 9 'list t' 'dump t' 'delete t f' 'delete t z' 'store t z v' 'insert t f v' 'fetch t f' 'fetch t z'
answered 'S 6e 02/F 6e/D 6e/F 6e' '0/02/0/-1 fault 9'
verified -1
changed 'a key in a page, and again in a far slot behind it' chain.db 7*2048+2043 6e
are 9 'list t' 'dump t'
run 0 "$(content 2025 9)" '' fetch t 6e -x
run 1 '' '' fetch t f
verified -1
# Nine keys in two buckets, of which the odd ones are in page 3 with two far pairs, and the even ones in page 9.
made nine 100 2 "S 61 01/S 62 02/S 63 03/S 64 04/S 65 $f/S 66 06/S 67 07/S 68 08/S 69 $o"
changed 'a far slot in another bucket' nine.db
verified 9
changed 'a far slot in another bucket of version 1' nine.db 2048+16 00000001
are 9 'fetch t e' 'fetch t a' 'store t a v' 'delete t c' 'insert t k v' 'list t' 'dump t'
answered 'F 62/S 64 0404/D 66/I 6a 10/F 68/F 64/F 61' '02/0/0/0/08/0404/-1 fault 9'
verified -1
changed 'a far key of another bucket' nine.db 3*2048+2039 64
run 1 '' '' fetch t e
run 0 04 '' fetch t 64 -x
verified -1
changed 'another far key of the bucket' nine.db 3*2048+2039 6b
run 0 "$f" '' fetch t 6b -x
run 1 '' '' fetch t e
verified 9
# The ninth pair opens a bucket, for which the records of the first one are read and no content.
made eight 100 2 "S 61 01/S 62 02/S 63 03/S 64 $o/S 65 $f/S 66 06/S 67 07/S 68 08"
changed 'a damaged content in a bucket that is split' eight.db 7*2048+4 05
are 9 'fetch t e'
answered "S 69 09/F 64/F 65/F 61/F 69/D 65" "0/$o/-1 fault 9/01/09/-1 fault 9"
run 0 $'pairs 9\nlimit 100\nbuckets 2\nlevel 1\nsplit 0\npages 10\nfree 0' '' stat t
verified -1
changed 'a far slot in a bucket that is split, in version 1' eight.db 2048+16 00000001
are 9 'store t i v' 'store t j v'
# A content page that no slot names
page_of_none=0000000406$(printf '%04086d' 0)
for version in 1 2; do
  made none$version 100 $version 'S 6b 76'
  changed "a content page that is in no content, in version $version" none$version.db 12 00000005 4*2048 "$page_of_none"
  run 0 v '' fetch t k
  run 0 '' '' store t k w
  verified -1
done
# A page of a chain, a head page and a free one that are of kind 6
made pages 100 2 "S 61 $(content 1500 1)/S 62 $(content 1500 2)/S 63 $(content 1500 3)/D 63"
changed 'a good file with a page of each kind but content pages' pages.db
verified 2
run 0 $'pairs 2\nlimit 100\nbuckets 1\nlevel 0\nsplit 0\npages 6\nfree 1' '' stat t
for page in 1 2 3 4 5; do
  changed "page $page is a content page" pages.db $page*2048+4 06
  verified -1
  changed "page $page is a content page" pages.db $page*2048 "$(printf '%08x06%04086d' $page 0)"
  verified -1
done
# A good file of version 1 is one of version 2.
made first 100 1 'S 61 01/S 62 02/S 63 03/S 64 04/S 65 05/S 66 06/S 67 07/S 68 08/S 69 09'
"$program" dump first > first.text
changed 'a file of version 1' first.db
verified 9
are 5 "store t 6b $f -x"
changed 'a file of version 1 with the version 2' first.db 2048+16 00000002
verified 9
run 0 "$(cat first.text)" '' dump t
run 0 '' '' upgrade t
stays
answered "S 6b $f/F 6b" "0/$f"
verified 10
for version in 00000000 00000003 02000000; do
  for file in three first; do
    changed "version $version of $file" $file.db 2048+16 $version
    are 11 'verify t' 'fetch t f' 'fetch t n' 'store t n v' 'insert t z v' 'delete t n' 'list t' 'dump t' 'stat t' 'upgrade t'
    [ "$(./count t.db)" = -1 ] || wrong "$rule: a plain look finds it good"
  done
done

# ---- how many pages there may be: with a limit of 1 at most 5 in version 1, and 38 in version 2
# free N NEXT: a free page
free() { printf '%08x05000000%08x%04072d' "$1" "$2" 0; }
made small 1 1 'S 6b 76'
made large 1 2 "S 6b $(content 65535 1)"
for version in 1 2; do
  changed "5 pages in version $version" small.db 2048+16 0000000$version 12 00000005 2048+36 0000000400000001 4*2048 "$(free 4 0)"
  verified 1
  changed "6 pages in version $version" small.db 2048+16 0000000$version 12 00000006 2048+36 0000000500000002 4*2048 "$(free 4 0)$(free 5 4)"
  if [ $version = 1 ]; then verified -1; else verified 1; fi
  run 0 v '' fetch t k
done
changed '38 pages in version 2' large.db 12 00000026 2048+36 0000002500000001 37*2048 "$(free 37 0)"
verified 1
changed '39 pages in version 2' large.db 12 00000027 2048+36 0000002600000002 37*2048 "$(free 37 0)$(free 38 37)"
verified -1
run 0 "$(content 65535 1)" '' fetch t 6b -x
stays

# ---- redo images. One store's are those of pages 1, 3, 4, 5 and 6, from page 7 on, since no pages wait when it comes.
made armed 100 2 "S 66 $f"
armed=(8 00000001000000070000000700000005)
changed 'an armed file' armed.db "${armed[@]}" 4*2048 "$(printf '%012288d' 0)"
for image in 7=1 8=3 9=4 10=5 11=6; do
  has $((${image%=*} * 2048)) "0000000${image#*=}"
done
verified 1
run 0 "$f" '' fetch t 66 -x
stays
changed 'an armed file, of which an image is no content page' armed.db "${armed[@]}" 10*2048+4 05
run 2 '' 'dbmtool: fault 9' fetch t f
run 0 66 '' list t
verified -1
stays
answered 'F 66/S 6e 02/F 6e/D 66' '-1 fault 9/0/02/-1 fault 9'
verified -1

# ---- loads answer a line as the command of its call does
changed 'a load into a damaged content' three.db 5*2048+4 05
input=$work/input
for line in "66 $o" '66 .'; do
  echo "$line" > "$input"
  run 2 '' 'dbmtool: fault 9' load t
  run 2 '' 'dbmtool: fault 9' load t --group 1
  stays
done
# The lines before it are stored.
printf 'n\tv\nf\tv\n' > "$input"
for group in '' '--group 1'; do
  cp damaged.db t.db
  # shellcheck disable=SC2086
  run 2 '' 'dbmtool: fault 9' load --text t $group
  run 0 v '' fetch t n
done
exit $bad
