#!/usr/bin/env bash
# Larger files that are damaged at random: what `verify` says of each is compared with a plain look at the file. Of version 1 one has three
# levels, long chains and a free list, the other two segments. Of version 2 one has long chains, contents in pages of their own of each length,
# and free pages among them, the other 10,000 pairs.
. "$(dirname "$0")/common"
cc -O1 -o hostile "$top/tests/hostile.c" "$top/tests/plain_check.c" || exit 1

# pairs COUNT MOST EACH LONGEST: so many pairs, of contents of up to MOST bytes; but each EACH-th content is far and has up to LONGEST bytes
pairs() {
  awk -v count="$1" -v most="$2" -v each="$3" -v longest="$4" 'BEGIN {
    for (all = "5a"; length(all) < 2 * (most > longest ? most : longest); ) all = all all
    for (i = 1; i <= count; i++) {
      size = i % each ? i * 7919 % most + 1 : 2023 + i * 7919 % (longest - 2022)
      print sprintf("%08x ", i) substr(all, 1, 2 * size)
    } }'
}
# one KEY SIZE: a pair with a content of so many bytes
one() { printf '%08x %s\n' "$1" "$(head -c "$2" /dev/zero | tr '\0' Z | od -An -v -tx1 | tr -d ' \n')"; }

"$program" create levels --limit 100 && pairs 60 1900 100 2023 | "$program" load levels || exit 1
[ "$(pairs 60 1900 100 2023 | awk 'NR % 3 == 0 { print "D " $1 }' | "$program" script levels | sort -u)" = 0 ] || exit 1
"$program" create segments --limit 10000 && pairs 4200 40 10000 2023 | "$program" load segments || exit 1

# Of 60 pairs each third is far, and each fourth is taken out again. Then near ones become far and the other way round, in pages that were given.
"$program" create far --limit 300 --v2 && pairs 60 1900 3 9000 | "$program" load far || exit 1
[ "$(pairs 60 1900 3 9000 | awk 'NR % 4 == 0 { print "D " $1 }' | "$program" script far | sort -u)" = 0 ] || exit 1
{ one 1 65535; one 2 4064; one 5 2023; one 3 2022; one 6 1; one 7 2032; } | "$program" load far || exit 1
# Of 10,000 pairs each twentieth is far, and half of these become near.
"$program" create many --limit 10000 --v2 && pairs 10000 300 20 9000 | "$program" load many --group 1000 || exit 1
pairs 10000 300 20 9000 | awk 'NR % 40 == 0 { print $1, "5a" }' | "$program" load many --group 1000 || exit 1
found="$("$program" verify levels) $("$program" verify segments) $("$program" verify far) $("$program" verify many)"
[ "$found" = '40 4200 45 10000' ] || { echo "the good files have other pairs: $found"; exit 1; }
# kinds FILE: how many of its pages are overflow pages, free ones and those of a content
kinds() {
  od -An -v -w2048 -tu1 "$1" |
    awk -v end="$(od -An -j12 -N4 -tu4 --endian=big "$1")" 'NR > 1 && NR <= end { of[$5]++ } END { print of[4] + 0, of[5] + 0, of[6] + 0 }'
}
for file in far.db many.db; do
  read -r overflow free content <<< "$(kinds "$file")"
  [ "$overflow" -gt 5 ] && [ "$free" -gt 3 ] && [ "$content" -gt 50 ] ||
    wrong "$file has $overflow overflow pages, $free free ones and $content of contents"
done

for seed in 1 2; do
  ./hostile "$program" t levels.db 1500 "$seed" || bad=1
  ./hostile "$program" t segments.db 150 "$seed" || bad=1
  ./hostile "$program" t far.db 1000 "$seed" || bad=1
  ./hostile "$program" t many.db 40 "$seed" || bad=1
done
exit $bad
