#!/usr/bin/env bash
# What a salvage prints of files that are damaged in one place: the pairs of every page that reads as a bucket page of its own number, whatever
# the commit sector, the meta page, the segment pages and the chains say. A salvage leaves the file as it is.
. "$(dirname "$0")/common"
. "$top/tests/damage"

# content SIZE FROM: so many bytes of a content, the numbers from FROM on in two bytes each
numbers=$(printf '%04x' {0..39999})
content() { echo "${numbers:4 * $2:2 * $1}"; }

# made NAME LINES: a database of version 2 in which these calls were made; `/` stands for the end of a line
made() {
  "$program" create "$1" --limit 100 --v2 && tr / '\n' <<< "$2" | "$program" script "$1" > out || exit 1
  [ "$(sort -u out)" = 0 ] || { echo "$1 isn't made"; exit 1; }
}

# salvaged LINE..: these lines are printed of t.db, in this order, which stays as it is
salvaged() {
  "$program" salvage t > out 2> err
  if [ $# -eq 0 ]; then : > wanted; else printf '%s\n' "$@" > wanted; fi
  cmp -s out wanted || wrong "$rule: $(wc -l < out) lines and not $#, or others: $(cut -c1-60 out | head -n 3) $(head -c 200 err)"
  stays
}
# tells PAGE..: these pages are told to be in trouble, of those in front of the file's end
tells() {
  local found
  found=$(grep -o 'page [0-9][0-9]*:' err | tr -d ':' | cut -d' ' -f2 | awk -v end="$end" '$1 < end' | tr '\n' ' ')
  [ "$found" = "${*:+$* }" ] || wrong "$rule: told of the pages $found and not $*"
}

# has PLACE HEX: t.db has these bytes there
has() { [ "$(od -An -v -tx1 -j"$1" -N$((${#2} / 2)) t.db | tr -d ' \n')" = "$2" ] || wrong "$rule: other bytes at $1"; }

# ---- three pairs in page 3: `n` is near, the content of `f` is in pages 4, 5 and 6, and that of `o` in pages 7 and 8. Pages 10 and 9 are free.
f=$(content 5000 257) o=$(content 2100 5000)
made three "S 6e 01/S 66 $f/S 6f $o/S 78 $o/D 78"
changed 'a good file' three.db
has $((3 * 2048)) 00000003030000030000000007f4000007fe0001000107f98001138807f480010834
end=11
near='6e 01' long="66 $f" other="6f $o"
salvaged "$near" "$long" "$other"
tells

# nothing but the bucket page and the content pages is needed
noise=ffffffffffffffffffffffff
changed 'no commit sector' three.db 0 $noise
salvaged "$near" "$long" "$other"
changed 'a commit sector of zeros' three.db 0 0000000000000000
salvaged "$near" "$long" "$other"
changed 'a damaged meta page' three.db 2048+16 00000007
salvaged "$near" "$long" "$other"
tells 1
changed 'no meta page' three.db 2048 $noise
salvaged "$near" "$long" "$other"
tells 1
changed 'no segment page' three.db 2*2048 $noise
salvaged "$near" "$long" "$other"
tells 2
changed 'a segment page of another bucket' three.db 2*2048+16 00000009
salvaged "$near" "$long" "$other"
tells

# a far content that isn't whole is not printed, and its bucket page is told; the other pairs are
changed 'a content page of another number' three.db 5*2048 00000006
salvaged "$near" "$other"
tells 3 5
changed 'a content page of another kind' three.db 5*2048+4 05
salvaged "$near" "$other"
tells 3 5
changed 'a content page that names another' three.db 4*2048+8 00000008
salvaged "$near" "$other"
tells 3
changed 'a content that goes on' three.db 6*2048+8 00000007
salvaged "$near" "$other"
tells 3
changed 'a byte behind a content' three.db 6*2048+2047 01
salvaged "$near" "$other"
tells 3
changed 'a content in a page behind the file' three.db 3*2048+2042 00ffffff
salvaged "$near" "$other"
tells 3
changed 'another byte in a content' three.db 5*2048+100 ff
salvaged "$near" "66 ${f:0:2 * 2116}ff${f:2 * 2117}" "$other"
tells

# the bucket page itself
changed 'a bucket page of another number' three.db 3*2048 00000002
salvaged
tells 3
changed 'a bucket page of another kind' three.db 3*2048+4 05
salvaged
tells 3
changed 'a key that comes twice' three.db 3*2048+2046 66
salvaged
tells 3

# ---- two pages of one chain: each is read by itself
a=$(content 1500 1) b=$(content 1500 2000)
made chain "S 61 $a/S 62 $b"
changed 'a chain of two pages' chain.db
has $((3 * 2048)) 000000030300000100000004
end=5
salvaged "61 $a" "62 $b"
changed 'no head page' chain.db 3*2048 $noise
salvaged "62 $b"
tells 3
changed 'no overflow page' chain.db 4*2048 $noise
salvaged "61 $a"
tells 4
changed 'a chain that ends early' chain.db 3*2048+8 00000000
salvaged "61 $a" "62 $b"
changed 'a blank head page' chain.db
dd if=/dev/zero of=t.db bs=2048 seek=3 count=1 conv=notrunc status=none && cp t.db damaged.db
salvaged "62 $b"
tells 3
# a file that ends within a header, and one of the commit sector alone
changed 'a file that was cut' chain.db
truncate -s $((4 * 2048 + 13)) t.db && cp t.db damaged.db
salvaged "61 $a"
truncate -s $((4 * 2048)) t.db && cp t.db damaged.db
salvaged "61 $a"
truncate -s 512 t.db && cp t.db damaged.db
salvaged

# ---- the system fails to read a page, each in turn: it is told, and all other pages are printed. The first read is of the commit sector.
preloadable fail
rule='a read that fails'
"$program" create unread --limit 100 && for key in 61 62 63 64 65; do echo "$key $(content 1500 $((0x$key * 9)))"; done > five &&
  "$program" load unread < five || exit 1
FAIL_CALL=0 LD_PRELOAD=./fail.so "$program" salvage unread > out 2> err
reads=$(sed -n 's/^calls //p' err) pages=$("$program" stat unread | sed -n 's/^pages //p')
cmp -s out five && [ "$reads" = "$pages" ] || wrong "$rule: $(wc -l < out) lines of 5, with $reads reads of $pages pages"
for ((n = 2; n <= reads; n++)); do
  status=0
  FAIL_CALL=$n LD_PRELOAD=./fail.so "$program" salvage unread > out 2> err || status=$?
  [ "$status $(head -n 1 err)" = "2 dbmtool: page $((n - 1)): the system failed to read it" ] || wrong "$rule: read $n, status $status, $(head -c 200 err)"
  # a page of a pair is none of the first three
  [ "$(comm -12 five out | wc -l)" = $((n > 3 ? 4 : 5)) ] && [ -z "$(comm -13 five out)" ] || wrong "$rule: read $n, other lines"
done

# ---- a whole file: the same pairs as a dump, and a load of them gives that dump
"$program" create many --limit 2000 || exit 1
for n in {1..1000}; do printf 'S %04x %08x\n' "$n" $((n * n)); done | "$program" script many > out || exit 1
rule='1,000 pairs'
"$program" dump many > dumped && "$program" salvage many > out 2> err
sort out | cmp -s - dumped || wrong "$rule: other pairs than the dump's"
"$program" create again --limit 2000 && "$program" load again < out && "$program" dump again | cmp -s - dumped || wrong "$rule: a load gives another dump"

exit $bad
