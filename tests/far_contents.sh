#!/usr/bin/env bash
# Whole files of version 2, byte by byte, against bytes worked out by hand from docs/FORMAT.md: contents of each length in pages of their own, which
# are taken, given back and taken again in other orders; buckets that are split over them. Which pairs are too long; and a file that is upgraded.
. "$(dirname "$0")/common"
. "$top/tests/by_hand"

# content SIZE FROM: so many bytes of a content, the numbers from FROM on in two bytes each
numbers=$(printf '%04x' {0..39999})
content() { echo "${numbers:4 * $2:2 * $1}"; }
# times COUNT HEX: this so often
times() { printf "$2%.0s" $(seq "$1"); }

# meta LIMIT PAIRS LEVEL FREE_HEAD FREE_COUNT: the numbers of a meta page, from its byte 16 on: version, limit, pairs, level, split, the first free
# page, how many are free, and the count of segments
meta() { printf '%08x' 2 "$1" "$2" "$3" 0 "$4" "$5" 1; }
# table END META HEAD..: the commit sector, the meta page, and a segment with these heads
table() { printf '%s ' 0 "$magic$(printf '%016x' "$1")" 2048 0000000101 2064 "$2" 2112 00000002 4096 0000000202 4112 "$(printf '%08x' "${@:3}")"; }
# bucket N KIND NEXT LOW SLOTS RECORDS: the places and bytes of a bucket page
bucket() {
  local at=$(($1 * 2048))
  printf '%s ' $at "$(printf '%08x%s00%04x%08x%s0000' "$1" "$2" $((${#5} / 12)) "$3" "$4")" $((at + 16)) "$5" $((at + 0x$4)) "$6"
}
# contents HEX N..: those of the pages in which a content stands, in order
contents() {
  local hex=$1
  shift
  while [ $# -gt 0 ]; do
    printf '%s ' $(($1 * 2048)) "$(printf '%08x06000000%08x00000000' "$1" "${2:-0}")${hex:0:4064}"
    hex=${hex:4064}
    shift
  done
}
# freed N..: those of the free pages, from the first one on
freed() { while [ $# -gt 0 ]; do printf '%s ' $(($1 * 2048)) "$(printf '%08x05000000%08x' "$1" "${2:-0}")"; shift; done; }
# laid NAME END META PLACE HEX..: the file has one bucket, and these pages behind its table
# shellcheck disable=SC2046
laid() { spelled "$1" "$2" $(table "$2" "$3" 3) "${@:4}"; }

# ---- one pair, the key `k`. With 2,025 bytes it fills its page, and with 2,026 its content has a page of its own.
"$program" create one --limit 1 --v2 || exit 1
laid one 4 "$(meta 1 0 0 0 0)" 6144 00000003030000000000000008000000
near=$(content 2025 1) far=$(content 2026 2) longest=$(content 65535 3)
said one "S 6b $near" '0/'
counted one '1 1 1 0 0 4 0'
# shellcheck disable=SC2046
laid one 4 "$(meta 1 1 0 0 0)" $(bucket 3 03 0 0016 0016000107e9 "6b$near")
said one "S 6b $far" '0/'
counted one '1 1 1 0 0 5 0'
# shellcheck disable=SC2207
with_far=(6144 000000030300000100000000 6156 07fb0000 6160 07fb800107ea 8187 6b00000004 8192 00000004060000000000000000000000 8208 "$far")
laid one 5 "$(meta 1 1 0 0 0)" "${with_far[@]}"
said one "F 6b/I 6b 77/1/N" "$far/1/6b/end/"
laid one 5 "$(meta 1 1 0 0 0)" "${with_far[@]}"
# Page 4 is given back and taken again, and 32 pages come from the end. The last one has 511 bytes of the content.
said one "S 6b $longest" '0/'
counted one '1 1 1 0 0 37 0'
# shellcheck disable=SC2046
laid one 37 "$(meta 1 1 0 0 0)" $(bucket 3 03 0 07fb 07fb8001ffff 6b00000004) $(contents "$longest" $(seq 4 36))
said one 'F 6b' "$longest/"
# All of them are given back, in order. Then the last one comes first.
said one 'D 6b' '0/'
counted one '0 1 1 0 0 37 33'
# shellcheck disable=SC2046
laid one 37 "$(meta 1 0 0 36 33)" 6144 00000003030000000000000008000000 $(freed $(seq 36 -1 4))
said one "S 6b $(content 2033 4)" '0/'
# shellcheck disable=SC2046
laid one 37 "$(meta 1 1 0 34 31)" $(bucket 3 03 0 07fb 07fb800107f1 6b00000024) $(contents "$(content 2033 4)" 36 35) $(freed $(seq 34 -1 4))
said one 'S 6b 76' '0/'
# shellcheck disable=SC2046
laid one 37 "$(meta 1 1 0 35 33)" $(bucket 3 03 0 07fe 07fe00010001 6b76) $(freed 35 36 $(seq 34 -1 4))

# A page has 2,032 bytes of a content: SIZE PAGES, in a new file
while read -r size pages; do
  rm -f t.db && "$program" create t --limit 100 --v2 || exit 1
  hex=$(content "$size" "$pages")
  said t "S 6b $hex/F 6b" "0/$hex/"
  # shellcheck disable=SC2046
  laid t $((4 + pages)) "$(meta 100 1 0 0 0)" $(bucket 3 03 0 07fb "07fb8001$(printf '%04x' "$size")" 6b00000004) \
    $(contents "$hex" $(seq 4 $((3 + pages))))
  [ "$("$program" fetch t 6b -x) $("$program" verify t)" = "$hex 1" ] || wrong "$size bytes don't come back"
done <<'END'
2026 1
2031 1
2032 1
2033 2
4064 2
4065 3
65024 32
65025 33
END

# ---- which pairs there may be: key and content together have at most 2,026 bytes, or the key at most 1,023 and the content at most 65,535
"$program" create sizes --limit 100 --v2 || exit 1
short=$(times 1023 6b) long=$(times 1024 6b)
said sizes "S $long $(content 1002 1)" '0/'
# shellcheck disable=SC2207
near_page=($(bucket 3 03 0 0016 0016040003ea "$long$(content 1002 1)"))
laid sizes 4 "$(meta 100 1 0 0 0)" "${near_page[@]}"
said sizes "S $long $(content 1003 1)/I $long $(content 1003 1)/S $long $longest" '-1 fault 5/-1 fault 5/-1 fault 5/'
said sizes "F $long" "$(content 1002 1)/"
laid sizes 4 "$(meta 100 1 0 0 0)" "${near_page[@]}"
said sizes "D $long/S $short $(content 1003 1)" '0/0/'
# shellcheck disable=SC2046
laid sizes 4 "$(meta 100 1 0 0 0)" $(bucket 3 03 0 0016 001603ff03eb "$short$(content 1003 1)")
said sizes "S $short $(content 1004 1)" '0/'
# shellcheck disable=SC2046
laid sizes 5 "$(meta 100 1 0 0 0)" $(bucket 3 03 0 03fd 03fd83ff03ec "${short}00000004") $(contents "$(content 1004 1)" 4)
said sizes "S $short $longest/S $short ${longest}00/F $short" "0/-1 fault 5/$longest/"
# shellcheck disable=SC2046
laid sizes 37 "$(meta 100 1 0 0 0)" $(bucket 3 03 0 03fd 03fd83ffffff "${short}00000004") $(contents "$longest" $(seq 4 36))
said sizes "S $short ." '0/'
# shellcheck disable=SC2046
laid sizes 37 "$(meta 100 1 0 36 33)" $(bucket 3 03 0 0401 040103ff0000 "$short") $(freed $(seq 36 -1 4))
# The key of no bytes
rm -f t.db && "$program" create t --limit 100 --v2 || exit 1
said t "S . $(content 2026 1)" '0/'
# shellcheck disable=SC2046
laid t 4 "$(meta 100 1 0 0 0)" $(bucket 3 03 0 0016 0016000007ea "$(content 2026 1)")
said t "S . $(content 2027 1)/F ." "0/$(content 2027 1)/"
# shellcheck disable=SC2046
laid t 5 "$(meta 100 1 0 0 0)" $(bucket 3 03 0 07fc 07fc800007eb 00000004) $(contents "$(content 2027 1)" 4)

# What a line and a word can hold: the longest pair, and one of a byte more. A word of 131,072 digits is too long for the system.
# refuses WORD..: the command refuses the pair as too long
refuses() {
  local status=0
  "$program" "$@" < input > out 2> err || status=$?
  [ "$status" = 2 ] && [ "$(cat err)" = 'dbmtool: fault 5' ] && [ ! -s out ] || wrong "${*:1:2}: status $status, $(head -c 80 err)"
}
# is_longest WHAT: the pair is there, and nothing else
is_longest() { [ "$("$program" dump t)" = "$short $longest" ] || wrong "$1: the longest pair isn't there"; }
rm -f t.db && "$program" create t --limit 100 --v2 || exit 1
escaped() { sed 's/../\\x&/g' <<< "$1"; }
v=$(times 65536 v)
: > input
refuses store t k "$v"
refuses insert t k "$v"
[ "$("$program" verify t)" = 0 ] || wrong 'a pair that was refused is there'
"$program" store t k "${v:1}" && [ "$("$program" fetch t k)" = "${v:1}" ] && "$program" delete t k || wrong 'store holds no 65,535 bytes'
"$program" store t "$short" "$longest" -x && is_longest store && "$program" delete t "$short" -x || wrong 'store -x holds no 65,535 bytes'
for group in '' '--group 10'; do
  # shellcheck disable=SC2086
  { echo "$short $longest" > input && "$program" load t $group < input && is_longest load && "$program" delete t "$short" -x; } || wrong "load $group"
  # shellcheck disable=SC2086
  { printf '%s\t%s\n' "$(escaped "$short")" "$(escaped "$longest")" > input && "$program" load --text t $group < input && is_longest 'load --text' &&
    "$program" delete t "$short" -x; } || wrong "load --text $group"
  echo "6b ${longest}00" > input
  # shellcheck disable=SC2086
  refuses load t $group
  echo "$long $longest" > input
  # shellcheck disable=SC2086
  refuses load t $group
  printf 'k\t%s\n' "$(escaped "${longest}00")" > input
  # shellcheck disable=SC2086
  refuses load --text t $group
done
[ "$("$program" verify t)" = 0 ] || wrong 'a pair that was refused is there'

# ---- zero bytes of a content are as good as others
zeros=$(times 4065 00)
rm -f t.db && "$program" create t --limit 100 --v2 || exit 1
said t "S 61 $zeros/S 62 $(content 3000 1)${zeros:0:2130}/S 63 ${zeros:0:4052}" '0/0/0/'
said t "F 61/F 62/F 63" "$zeros/$(content 3000 1)${zeros:0:2130}/${zeros:0:4052}/"
# shellcheck disable=SC2046
laid t 11 "$(meta 100 3 0 0 0)" $(bucket 3 03 0 07f1 07fb80010fe107f680010fe107f1800107ea 630000000a62000000076100000004) \
  $(contents 00 4 5 6) $(contents "$(content 3000 1)00" 7 8 9) $(contents 00 10)

# ---- pages between others. `a` is near, `b` has three pages, `c` two. Those of `b` are given back. `d` takes them, the last one first, and two more.
rm -f t.db && "$program" create t --limit 100 --v2 || exit 1
b=$(content 5000 100) c=$(content 4064 200) d=$(content 10000 300) e=$(content 2032 400) f=$(content 2000 500) g=$(content 2100 600)
said t "S 61 01/S 62 $b/S 63 $c" '0/0/0/'
# shellcheck disable=SC2046
laid t 9 "$(meta 100 3 0 0 0)" $(bucket 3 03 0 07f4 07fe0001000107f98001138807f480010fe0 630000000762000000046101) \
  $(contents "$b" 4 5 6) $(contents "$c" 7 8)
said t "D 62/S 64 $d" '0/0/'
# shellcheck disable=SC2046
laid t 11 "$(meta 100 3 0 0 0)" $(bucket 3 03 0 07f4 07fe0001000107f980010fe007f480012710 640000000663000000076101) \
  $(contents "$d" 6 5 4 9 10) $(contents "$c" 7 8)
# `c` gives pages 7 and 8; `e` takes page 8; `f` is near and lacks four bytes in page 3, so that page 7 is the next of its bucket.
said t "D 63/S 65 $e" '0/0/'
counted t '3 100 1 0 0 11 1'
said t "S 66 $f" '0/'
# shellcheck disable=SC2046
laid t 11 "$(meta 100 4 0 0 0)" $(bucket 3 03 7 07f4 07fe0001000107f98001271007f4800107f0 650000000864000000066101) \
  $(contents "$d" 6 5 4 9 10) $(contents "$e" 8) $(bucket 7 04 0 002f 002f000107d0 "66$f")
# `d` gives its five pages, and `g` takes two.
said t "D 64/S 67 $g" '0/0/'
# shellcheck disable=SC2046
laid t 11 "$(meta 100 4 0 4 3)" $(bucket 3 03 7 07f4 07fe0001000107f9800107f007f480010834 670000000a65000000086101) \
  $(contents "$g" 10 9) $(contents "$e" 8) $(bucket 7 04 0 002f 002f000107d0 "66$f") $(freed 4 5 6)
# Two far pairs whose keys are long: the record of the first fits page 3. The other one's content takes page 5, and then its record page 6.
h=$(times 1023 68) i=$(times 1023 69)
said t "S $h $(content 1004 700)/S $i $(content 1005 800)" '0/0/'
# shellcheck disable=SC2207
without_i=($(contents "$g" 10 9) $(contents "$e" 8) $(contents "$(content 1004 700)" 4)
  $(bucket 3 03 7 03f1 07fe0001000107f9800107f007f48001083403f183ff03ec "${h}00000004670000000a65000000086101"))
# shellcheck disable=SC2046
laid t 11 "$(meta 100 6 0 0 0)" "${without_i[@]}" $(bucket 7 04 6 002f 002f000107d0 "66$f") \
  $(bucket 6 04 0 03fd 03fd83ff03ed "${i}00000005") $(contents "$(content 1005 800)" 5)
counted t '6 100 1 0 0 11 0'
for pair in "61 01" "65 $e" "66 $f" "67 $g" "$h $(content 1004 700)" "$i $(content 1005 800)"; do said t "F ${pair% *}" "${pair#* }/"; done
# It gives its content's page, and then the page of its record, which is empty.
said t "D $i" '0/'
# shellcheck disable=SC2046
laid t 11 "$(meta 100 5 0 6 2)" "${without_i[@]}" $(bucket 7 04 0 002f 002f000107d0 "66$f") $(freed 6 5)
[ "$("$program" verify t)" = 5 ] || wrong 'the file with pages between others is no good one'

# ---- a split. Of nine keys the even ones go to the new bucket with their records, and the contents of three far ones stay where they are.
rm -f t.db && "$program" create t --limit 100 --v2 || exit 1
said t "S 61 01/S 62 $(content 2030 1)/S 63 03/S 64 04/S 65 $(content 4100 2)/S 66 06/S 67 07/S 68 08" '0/0/0/0/0/0/0/0/'
counted t '8 100 1 0 0 8 0'
said t "S 69 $g" '0/'
counted t '9 100 2 1 0 11 0'
# shellcheck disable=SC2046
spelled t 11 $(table 11 "$(meta 100 9 1 0 0)" 3 10) $(contents "$(content 2030 1)" 4) $(contents "$(content 4100 2)" 5 6 7) $(contents "$g" 8 9) \
  $(bucket 3 03 0 07f0 07fe0001000107fc0001000107f78001100407f50001000107f080010834 69000000086707650000000563036101) \
  $(bucket 10 03 0 07f5 07fb800107ee07f90001000107f70001000107f500010001 6808660664046200000004)
said t "F 62/F 65/F 69/F 68" "$(content 2030 1)/$(content 4100 2)/$g/08/"
# Far pairs with long keys, so that a page has one record of them. Of three pages of the bucket the last becomes the head of the new bucket, and the
# other one is taken again. A key of an even number of odd bytes goes to the new bucket, since its hash is odd.
rm -f t.db && "$program" create t --limit 100 --v2 || exit 1
a=$(times 1023 61) b=$(times 1023 62) c=$(times 1023 63)
said t "S $a $(content 1004 1)/S $b $(content 1005 2)/S $c $(content 1006 3)" '0/0/0/'
# shellcheck disable=SC2207
of_each=($(contents "$(content 1004 1)" 4) $(contents "$(content 1005 2)" 5) $(contents "$(content 1006 3)" 7))
# shellcheck disable=SC2046
laid t 9 "$(meta 100 3 0 0 0)" "${of_each[@]}" $(bucket 3 03 6 03fd 03fd83ff03ec "${a}00000004") $(bucket 6 04 8 03fd 03fd83ff03ed "${b}00000005") \
  $(bucket 8 04 0 03fd 03fd83ff03ee "${c}00000007")
said t "S 61 01/S 62 02/S 63 03/S 64 04/S 65 05/S 66 06" '0/0/0/0/0/0/'
# shellcheck disable=SC2046
spelled t 9 $(table 9 "$(meta 100 9 1 0 0)" 3 8) "${of_each[@]}" \
  $(bucket 3 03 6 03f7 03fd83ff03ec03fb0001000103f90001000103f700010001 "650563036101${a}00000004") \
  $(bucket 6 04 0 03fd 03fd83ff03ee "${c}00000007") \
  $(bucket 8 03 0 03f7 07fe0001000107fc0001000107fa0001000103f783ff03ed "${b}00000005660664046202")
said t "F $a/F $b/F $c" "$(content 1004 1)/$(content 1005 2)/$(content 1006 3)/"

# ---- an upgrade: of the file's pages the version changes alone, which is byte 19 of page 1, counted from 0; cmp counts from 1
# upgraded NAME PAGES
upgraded() {
  cp "$1.db" before.db
  local said_before
  said_before=$("$program" stat "$1" && "$program" dump "$1" && "$program" verify "$1")
  said "$1" "S 6b $far" '-1 fault 5/'
  cmp "$1.db" before.db || wrong "$1: a pair that was refused changed the file"
  [ "$("$program" upgrade "$1" 2>&1) $?" = ' 0' ] || wrong "$1: isn't upgraded"
  [ "$(cmp -l <(head -c $(($2 * 2048)) "$1.db") <(head -c $(($2 * 2048)) before.db) | xargs)" = '2068 2 1' ] ||
    wrong "$1: an upgrade changes more than the version"
  [ "$("$program" stat "$1" && "$program" dump "$1" && "$program" verify "$1")" = "$said_before" ] || wrong "$1: an upgrade changes what there is"
  cp "$1.db" before.db
  [ "$("$program" upgrade "$1" 2>&1) $?" = ' 0' ] && cmp "$1.db" before.db || wrong "$1: a second upgrade changes the file"
  said "$1" "S 6b $far/F 6b" "0/$far/"
}
"$program" create empty --limit 1 || exit 1
upgraded empty 4
laid empty 5 "$(meta 1 1 0 0 0)" "${with_far[@]}"
# nine pairs in two buckets; and two pairs of 1,500 bytes, of which one was taken out, so that page 4 is free and taken by the content
"$program" create nine --limit 100 && for digit in 1 2 3 4 5 6 7 8 9; do echo "6$digit 0$digit"; done | "$program" load nine || exit 1
upgraded nine 5
[ "$("$program" verify nine)" = 10 ] || wrong 'nine: other pairs'
"$program" create free --limit 100 || exit 1
said free "S 61 $(content 1500 1)/S 62 $(content 1500 2)/D 62" '0/0/0/'
upgraded free 5
# shellcheck disable=SC2046
laid free 5 "$(meta 100 2 0 0 0)" $(bucket 3 03 0 021e 0223000105dc021e800107ea "6b0000000461$(content 1500 1)") $(contents "$far" 4)
exit $bad
