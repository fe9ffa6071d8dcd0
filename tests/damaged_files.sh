#!/usr/bin/env bash
# Files with any one byte changed: each command ends, with replies or the one line of a fault, and a refused one leaves the file as it is.
# What `verify` says there is compared with a plain look at the file. Of a file of version 2 these are the bytes that say where far contents stand.
. "$(dirname "$0")/common"
cc -O1 -o each_byte "$top/tests/each_byte.c" "$top/tests/plain_check.c" || exit 1

"$program" create nine --limit 100 || exit 1
for digit in 1 2 3 4 5 6 7 8 9; do echo "6$digit 0$digit"; done > nine.text
"$program" load nine < nine.text || exit 1
{ sed -n 's/ .*//; s/^/F /p' nine.text; echo 1; for _ in 1 2 3 4 5 6 7 8 9; do echo N; done; echo S 62 ff; echo D 61; } > lines
# The first half of its five pages and the second one, side by side.
halves=()
for half in 0 1; do
  mkdir "$half" && cd "$half" || exit 1
  ../each_byte "$program" t ../nine.db $((half * 5120)) $((half * 5120 + 5120)) ../lines > ../told."$half" &
  halves+=($!)
  cd ..
done
for half in "${halves[@]}"; do wait "$half" || bad=1; done
read -r files refused <<< "$(awk '{ files += $1; refused += $2 } END { print files, refused }' told.0 told.1)"
echo "$files files with one byte changed: $refused refused at opening"
if [ "$bad" != 0 ] || [ "$refused" = 0 ] || [ "$refused" = "$files" ]; then cat told.0 told.1; exit 1; fi

# Page 3 has two near pairs and two far ones. The content of `b` is in pages 4 and 5, with 68 bytes in page 5, and that of `d` fills page 6 but for
# its last six bytes. Pages 8 and 7 are free.
# bytes COUNT: so many bytes of a content, none of which is 0
# shellcheck disable=SC2046
bytes() { printf '%02x' $(for ((at = 1; at <= $1; at++)); do echo $((at * 7 % 251 + 1)); done); }
"$program" create far --limit 100 --v2 || exit 1
printf 'S 61 01\nS 62 %s\nS 63 03\nS 64 %s\nS 65 %s\nD 65\n' "$(bytes 2100)" "$(bytes 2026)" "$(bytes 2100)" | "$program" script far > out || exit 1
[ "$("$program" stat far | cut -d' ' -f2 | xargs)" = '4 100 1 0 0 9 2' ] || { echo 'the file of version 2 is another'; exit 1; }
printf 'F 61\nF 62\nF 63\nF 64\n1\nN\nN\nN\nN\nS 66 %s\nS 62 ff\nD 64\nF 66\n' "$(bytes 5000)" > far.lines
# from each first byte to the one behind the last: the numbers of the meta page; slots and records; and the header, begin and end of each other page
: > told.far
for range in 2064:2096 6144:6192 8168:8192 8192:8212 10236:10260 10322:10330 12286:12308 14326:14356 16382:16404 18430:18432; do
  ./each_byte "$program" t far.db "${range%:*}" "${range#*:}" far.lines >> told.far || bad=1
done
read -r files refused <<< "$(awk '{ files += $1; refused += $2 } END { print files, refused }' told.far)"
echo "$files files of version 2 with one byte changed: $refused refused at opening"
if [ "$bad" != 0 ] || [ "$refused" = 0 ] || [ "$refused" = "$files" ]; then cat told.far; exit 1; fi
