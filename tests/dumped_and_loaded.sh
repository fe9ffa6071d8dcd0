#!/usr/bin/env bash
# 10,000 pairs with keys of every length, and one with every byte value, in a real file: they are dumped in order, and the dump
# loads back to the same dump. So do pairs near and far in files of version 2, in both forms; version 1 takes those in front of a far one.
. "$(dirname "$0")/common"
bytes=$(printf '%02x' $(seq 0 255))
{
  echo "$bytes $(printf '%02x' $(seq 255 -1 0))"
  echo '. 00'
  # the number in front makes each key another one; a content of 6 bytes leaves room for 2,020 bytes of key
  awk 'BEGIN {
    for (zeros = "00"; length(zeros) < 4040; ) zeros = zeros zeros
    for (i = 0; i < 10000; i++) { rest = i % 2018; printf "%04x%s %012x\n", i, substr(zeros, 1, 2 * rest), i }
  }'
} > pairs
LC_ALL=C sort -k1,1 pairs > sorted
"$program" create first && "$program" load first < pairs && "$program" dump first > dumped || exit 1
# `.`, the word of no bytes, stands before all digits, as no bytes before all bytes
cmp sorted dumped || { echo "the dump isn't the pairs in order"; exit 1; }
"$program" list first > listed && cut -d' ' -f1 dumped | cmp - listed || { echo "the list isn't the keys of the dump"; exit 1; }
"$program" create second && "$program" load second < dumped && "$program" dump second | cmp - dumped || { echo "the dump doesn't load back"; exit 1; }
# the same in commits of a hundred lines
"$program" create grouped && "$program" load grouped --group 100 < pairs && [ "$("$program" verify grouped)" = "$(wc -l < pairs)" ] &&
  "$program" dump grouped | cmp - dumped || { echo "pairs that share commits are others"; exit 1; }
# fields, of the first thousand
head -n 1000 dumped > some
"$program" create third && "$program" load third < some && "$program" dump --text third > fields || exit 1
"$program" create fourth && "$program" load --text fourth < fields && "$program" dump fourth | cmp - some ||
  { echo "the dump of fields doesn't load back"; exit 1; }
[ "$(LC_ALL=C tr -d '\t\n -~' < fields | wc -c)" = 0 ] || { echo "the dump of fields isn't printable"; exit 1; }
"$program" list --text third > listed && cut -f1 fields | cmp - listed || { echo "the list of fields isn't the keys of the dump"; exit 1; }
echo "$(wc -l < dumped) pairs, in a file of $(stat -c %s first.db) bytes"

# Keys that begin with `#`, and contents that do: no line of a dump begins so, and it loads back, line by line, in groups and in the place of a table.
printf '%s\n' '0a23 .' '2061 23' '23 23' '2323 0a23' '23610a 2309' '5c23 23' '6123 2323' > hashes
"$program" create hashes && "$program" load hashes < hashes && "$program" dump --text hashes > fields || exit 1
printf '%s\n' '\n#'$'\t' ' a'$'\t''#' '\x23'$'\t''#' '\x23#'$'\t''\n#' '\x23a\n'$'\t''#\t' '\\#'$'\t''#' 'a#'$'\t''##' > wanted
cmp fields wanted || { echo "keys that begin with # are dumped as $(cat fields)"; exit 1; }
# with comments and empty lines in front, between and at the end, one of them longer than a line of a pair may be
{ printf '\n# a\tb\n'; sed 's/^/# before\n\n/; s/$/\n#\tbehind/' fields; head -c 300000 /dev/zero | tr '\0' '#'; printf '\n\n#'; } > commented
for group in 1 2 100; do
  "$program" create "hashes-$group" && "$program" load --text "hashes-$group" --group $group < fields && "$program" dump "hashes-$group" | cmp - hashes ||
    { echo "a dump with keys that begin with # doesn't load back, in groups of $group"; exit 1; }
  "$program" create "commented-$group" && "$program" load --text "commented-$group" --group $group < commented && "$program" dump "commented-$group" | cmp - hashes ||
    { echo "a text with comments is loaded as other pairs, in groups of $group"; exit 1; }
done
"$program" load --replace --text third < commented && "$program" dump third | cmp - hashes || { echo "a text with comments replaces a table by other pairs"; exit 1; }
# a text of comments alone: a load stores nothing, and a replacement leaves no pair
printf '# one\n\n#\ttwo\n' > comments
"$program" load --text hashes < comments && "$program" load --text hashes --group 1 < comments && "$program" dump hashes | cmp - hashes ||
  { echo "a text of comments stores pairs"; exit 1; }
"$program" load --replace --text hashes < comments && [ "$("$program" verify hashes)" = 0 ] || { echo "a table that is replaced by comments has pairs"; exit 1; }

# Near pairs and far ones: under a key of each length up to 1,023 a far one, whose content is the shortest that is far, or fills one page or two, or
# is a byte longer than that. Contents begin with each byte value, and have all; each fourth one ends in a thousand zeros, and the last one is the
# longest. In front of each third one there is a near pair, as long as one may be. So the first three lines are near pairs, and the fourth is far.
awk 'function many(text, count,  all) {
  for (all = text; length(all) < count * length(text); ) all = all all
  return substr(all, 1, count * length(text))
}
# so many bytes from this one on, each a number higher than the one before it
function word(from, count) { return count == 0 ? "." : substr(cycle, 2 * (from % 256) + 1, 2 * count) }
BEGIN {
  for (i = 0; i < 256; i++) cycle = cycle "" sprintf("%02x", i)
  cycle = many(cycle, 260)
  zeros = many("00", 1000)
  print "6e656172 01"
  print "6e656172206f6e65 ."
  for (i = 0; i < 1024; i++) {
    if (i % 3 == 0) print "ff" substr(word(i + 128, i + 1), 3), word(i, 2025 - i)
    bytes = i == 1023 ? 65535 : i % 5 == 0 ? 2027 - i : 2032 * (i % 5 < 3 ? 1 : 2) + (i % 5) % 2
    content = word(i, bytes)
    if (i % 4 == 1) content = substr(content, 1, length(content) - 2000) zeros
    print word(i, i), content
  }
}' > mixed
[ "$(wc -l < mixed) $(head -n 4 mixed | awk '{ print length }' | xargs)" = '1368 11 18 4053 4056' ] || { echo "the mixed pairs are others"; exit 1; }
LC_ALL=C sort -k1,1 mixed > sorted
"$program" create mixed --limit 2000 --v2 && "$program" load mixed < mixed && "$program" dump mixed > dumped || exit 1
cmp sorted dumped || { echo "the dump isn't the pairs near and far in order"; exit 1; }
[ "$("$program" verify mixed)" = 1368 ] || { echo "the file with far pairs doesn't verify"; exit 1; }
"$program" dump --text mixed > fields || exit 1
[ "$(LC_ALL=C tr -d '\t\n -~' < fields | wc -c)" = 0 ] || { echo "the dump of far fields isn't printable"; exit 1; }
# from fields to words and to fields
"$program" create again --limit 2000 --v2 && "$program" load again --text --group 100 < fields || exit 1
"$program" dump again | cmp - dumped || { echo "the dump of far fields doesn't load back to words"; exit 1; }
"$program" dump again --text | cmp - fields || { echo "the dump of far fields doesn't load back"; exit 1; }
# in version 1, which takes the first three lines
"$program" create one --limit 2000 || exit 1
head -n 3 mixed | LC_ALL=C sort -k1,1 > first-three
# stops_at_far WORD..: a load into that file is refused by its line, and what it has are those pairs
stops_at_far() {
  local status=0
  "$program" load one "$@" 2> err || status=$?
  [ "$status $(cat err)" = '2 dbmtool: fault 5' ] || { echo "load one $*: a far pair in version 1 has status $status, $(cat err)"; exit 1; }
  "$program" dump one | cmp - first-three || { echo "load one $*: version 1 has other pairs than those in front of the far one"; exit 1; }
}
stops_at_far < mixed
stops_at_far --group 100 < mixed
stops_at_far --text < fields
echo "$(wc -l < mixed) pairs near and far, in a file of $(stat -c %s mixed.db) bytes"
