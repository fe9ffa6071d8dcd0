#!/usr/bin/env bash
# Loads in groups. A load of lines of text in groups has as many syncs as its groups take, and the pairs that it stores are those of the load line
# by line and of the load of words. Of a load in several groups, into a new file and into one whose groups are cut by their pages, at 32 MB, all pairs
# are there, the file verifies, and what is left is whole groups: where it is cut short around each sync of its commits, the unsynced sectors kept or
# lost, and where it is killed. So it is with far pairs among the lines, on a file of version 2.
. "$(dirname "$0")/common"
preloadable syncs
preloadable fail

# 1,050 lines in both forms, and the dump: keys with each byte value among them, no bytes, and a key that comes twice in a group and once more in
# another group, whose last content stays.
awk 'BEGIN {
  for (i = 0; i < 256; i++) { byte[i] = sprintf("\\x%02x", i); hex[i] = sprintf("%02x", i) }
  byte[9] = "\\t"; byte[10] = "\\n"; byte[92] = "\\\\"; byte[97] = "a"
  for (i = 0; i < 1046; i++) {
    high = int(i / 256); low = i % 256
    key = byte[high] byte[low]; content = byte[low] byte[97] byte[high]
    if (i == 5) { key = ""; content = byte[0] }
    if (i == 6) content = ""
    printf "%s\t%s\n", key, content > "fields"
    key = i == 5 ? "." : hex[high] hex[low]
    content = i == 5 ? "00" : i == 6 ? "." : hex[low] "61" hex[high]
    printf "%s %s\n", key, content > "words"
    print key, content > "unsorted"
    if (i == 110 || i == 120 || i == 777) {
      printf "twice\ttake%d\n", i > "fields"
      printf "7477696365 74616b65%s\n", i == 110 ? "313130" : i == 120 ? "313230" : "373737" > "words"
    }
  }
  print "last\tone" > "fields"
  print "6c617374 6f6e65" > "words"
  print "6c617374 6f6e65" > "unsorted"
  print "7477696365 74616b65373737" > "unsorted"
}'
LC_ALL=C sort -k1,1 unsorted > wanted
[ "$(wc -l < fields) $(wc -l < words) $(wc -l < wanted)" = '1050 1050 1048' ] || { echo "the check has other lines than it should have"; exit 1; }

# loads NAME INPUT SYNCS WORD..: a new database, made with $option, is loaded so with as many syncs, and has the pairs of the file $wanted
option=() wanted=wanted
loads() {
  local found
  rm -f log
  "$program" create "$1" --limit 2000 "${option[@]}" || exit 1
  SYNCS_LOG=$PWD/log SYNCS_MADE=no LD_PRELOAD=./syncs.so "$program" load "$1" "${@:4}" < "$2" > out 2> err || wrong "load ${*:4} of $2: status $?, $(cat err)"
  found=$(grep -c '^fdatasync file' log)
  [ "$found" = "$3" ] && [ "$(wc -l < log)" = "$3" ] || wrong "load ${*:4} of $2 has $found syncs and not $3"
  [ "$("$program" verify "$1")" = "$(wc -l < "$wanted")" ] || wrong "load ${*:4} of $2: another number of pairs is verified"
  "$program" dump "$1" | cmp - "$wanted" || wrong "load ${*:4} of $2 stores other pairs"
}

# A commit has two syncs, an opening one, and the closing brings the pages of the last commit to their places with two.
loads text-lines fields $((1 + 2 * 1 + 2)) --text
loads text-ones fields $((1 + 2 * 1050 + 2)) --text --group 1
loads text-groups fields $((1 + 2 * 11 + 2)) --text --group 100
loads text-thirds fields $((1 + 2 * 3 + 2)) --text --group 350
loads text-one-group fields $((1 + 2 * 1 + 2)) --group 100000 --text
# comments and empty lines among them count for no group
{ printf '# %s\n\n' 'first'; sed 's/^/# one more\n/; s/$/\n/' fields; echo '#'; } > commented
[ "$(wc -l < commented)" = $((3 * 1050 + 3)) ] || { echo "the check has another number of commented lines"; exit 1; }
loads text-commented commented $((1 + 2 * 11 + 2)) --text --group 100
loads text-commented-ones commented $((1 + 2 * 1050 + 2)) --text --group 1
loads word-lines words $((1 + 2 * 1 + 2))
loads word-ones words $((1 + 2 * 1050 + 2)) --group 1
loads word-groups words $((1 + 2 * 11 + 2)) --group 100

# 60 lines in both forms. Of three in a row one is as long as a near one may be, one is short and one is far. In the first ten the key of line 3 comes
# again, near in place of far, and that of line 4, far in place of near; the key of line 6 comes again as line 55, far in place of far.
awk 'function many(text, count,  all) {
  for (all = text; length(all) < count * length(text); ) all = all all
  return substr(all, 1, count * length(text))
}
BEGIN {
  for (i = 1; i <= 60; i++) {
    key = i == 8 ? 3 : i == 9 ? 4 : i == 55 ? 6 : i
    bytes = i == 30 ? 65535 : i % 3 == 0 || i == 55 ? 2025 + i : i % 3 == 1 ? 2024 : i
    print sprintf("%02d\t", key) many(sprintf("%c", 97 + i % 26), bytes) > "far-fields"
    line[key] = sprintf("%02x%02x ", 48 + int(key / 10), 48 + key % 10) many(sprintf("%02x", 97 + i % 26), bytes)
    print line[key] > "far-words"
  }
  for (i = 1; i <= 60; i++) if (i in line) print line[i] > "far-wanted"
}'
[ "$(wc -l < far-wanted) $(awk 'length > 4 + 1 + 2 * 2024' far-wanted | wc -l)" = '57 19' ] || { echo "the check has other far lines"; exit 1; }
option=(--v2) wanted=far-wanted
loads far-lines far-words $((1 + 2 * 1 + 2))
loads far-ones far-words $((1 + 2 * 60 + 2)) --group 1
loads far-tens far-words $((1 + 2 * 6 + 2)) --group 10
loads far-text far-fields $((1 + 2 * 9 + 2)) --text --group 7
loads far-one-group far-fields $((1 + 2 * 1 + 2)) --group 100000 --text
# one far pair alone, of 33 pages
head -n 30 far-words | tail -n 1 > far-alone && wanted=far-alone
for group in 1 2 100000; do loads "far-alone-$group" far-alone $((1 + 2 * 1 + 2)) --group $group; done

# is_whole WHERE: t.db has the first ones of the lines in the place of what the file old has for their keys, and the rest of that, and is a good file; how
# many lines they are is in $count. Each content of a line begins with ff, and none of old.
is_whole() {
  "$program" dump t > found 2> err || { wrong "$1: no dump, $(cat err)"; return 1; }
  awk 'substr($2, 1, 2) == "ff"' found > found.new
  count=$(wc -l < found.new)
  head -n "$count" lines | cmp -s - found.new || { wrong "$1: other pairs than the first $count lines"; return 1; }
  awk 'FILENAME == "found.new" { new[$1]; next } !($1 in new)' found.new old | cmp -s - <(awk 'substr($2, 1, 2) != "ff"' found) ||
    { wrong "$1: other pairs beside the first $count lines"; return 1; }
  [ "$("$program" verify t 2>&1)" = "$(wc -l < found)" ] || { wrong "$1: $(wc -l < found) pairs do not verify"; return 1; }
}

# cut CALL LOSE: the load with all calls from that one on failed
cut() {
  local status=0
  cp old.db t.db
  FAIL_CALL=$1 FAIL_HOW=from FAIL_LOSE=$2 LD_PRELOAD=./fail.so "$program" load t --group "$group" < lines > out 2> err || status=$?
  [ "$status $(cat err)" = '2 dbmtool: fault 2' ] || wrong "call $1 fails: status $status, $(cat err)"
}

# field PLACE: a number of t.db
field() { od -An -tu4 --endian=big -j "$1" -N 4 t.db | tr -d ' '; }

# leaves COUNT WHERE: t.db has so many lines
leaves() { is_whole "$2" && [ "$count" = "$1" ] || wrong "$2: $count lines are left, and not $1"; }

# each_commit GROUP BUCKETS LEAST COMMITS MOST: the lines are loaded into old.db in groups of so many, which takes from LEAST to COMMITS commits, each of
# at most MOST redo images, and leaves so many buckets; and their load is cut short around each sync of its commits. $counts are how many lines there are once so many
# commits are done. Before a commit with 512 new pages or more the pages of the one before are brought to their places, and the sector is cleared.
each_commit() {
  local pairs lose sector images
  local -a sectors
  group=$1
  pairs=$(wc -l < lines)
  "$program" dump old > old || exit 1
  cp old.db t.db && rm -f trace
  FAIL_CALL=0 FAIL_TRACE=trace LD_PRELOAD=./fail.so "$program" load t --group "$group" < lines 2> err || wrong "the load ends with status $?"
  leaves "$pairs" 'a whole load'
  [ "$("$program" stat t | sed -n 's/^buckets //p')" = "$2" ] || wrong "there are not $2 buckets"
  # the last write of the commit sector is the closing's
  mapfile -t sectors < <(grep -nx 'write 0 512' trace | sed 's/:.*//' | head -n -1)
  commits=0 counts=(0)
  for sector in "${sectors[@]}"; do
    # before what was written is synced; then with the sector written and not synced, lost and kept; then with all done
    for lose in kept lost; do
      cut $((sector - 1)) $lose
      leaves "${counts[commits]}" "commit $commits, images not synced and $lose"
    done
    cut $((sector + 1)) lost
    leaves "${counts[commits]}" "commit $commits, its sector lost"
    cut $((sector + 1)) kept
    is_whole "commit $commits, its sector kept" || continue
    if [ "$(field 8)" = 1 ]; then
      images=$(field 20)
      [ "$count" -gt "${counts[commits]}" ] && [ "$images" -ge 1 ] && [ "$images" -le "$5" ] ||
        wrong "commit $commits has $images images and leaves $count lines"
      counts+=("$count")
      commits=$((commits + 1))
    fi
    [ "$count" = "${counts[commits]}" ] || wrong "a cleared sector behind commit $commits leaves $count lines"
    cut $((sector + 2)) lost
    leaves "${counts[commits]}" "commit $commits, synced"
  done
  [ "$commits" -ge "$3" ] && [ "$commits" -le "$4" ] || { echo "there are $commits commits, and not $3 to $4"; exit 1; }
  [ "${counts[commits]}" = "$pairs" ] || wrong "the last commit leaves ${counts[commits]} lines"
}

# 13,000 pairs, of which each twentieth is far: 650 pages of far contents, and 1,625 buckets. The first 6,000 of them, into a new file, have more new
# pages than 16, and the last 1,000 fewer than 512.
far=$(printf '5a%.0s' $(seq 2030))
awk -v far="$far" 'BEGIN { for (i = 0; i < 13000; i++) printf "%08x ff%04x%s\n", i, i, i % 20 == 19 ? far : "" }' > lines
"$program" create old --limit 100000 --v2 || exit 1
each_commit 6000 1625 3 3 2048
echo "$commits commits leave ${counts[*]} lines with far pairs among them"

# 140,000 short pairs in 17,500 buckets, and a content for each of 60,000 in the order of their keys. A group ends once it holds 16,384 pages that it changed,
# to which its last line may add some. So it has as many lines at least: there are 4 commits at most. The lines meet more buckets, so there are 2 at least.
awk 'BEGIN { for (i = 0; i < 140000; i++) printf "%08x %08x\n", i, 140000 - i }' > older
rm old.db && "$program" create old --limit 200000 && "$program" load old --group 100000 < older || exit 1
awk 'BEGIN { for (i = 0; i < 60000; i++) printf "%08x ff%06x\n", i, i }' > lines
each_commit 100000 17500 2 4 16400

# Killed at some moment, it leaves the lines of as many of these commits.
began=$EPOCHREALTIME
cp old.db t.db && "$program" load t --group 100000 < lines || wrong "the load ends with status $?"
took=$(awk -v from="$began" -v to="$EPOCHREALTIME" 'BEGIN { print to - from }')
left=
for ((n = 1; n <= 12; n++)); do
  cp old.db t.db
  "$program" load t --group 100000 < lines 2> err &
  pid=$!
  sleep "$(awk -v took="$took" -v n="$n" 'BEGIN { print took * n / 13 }')"
  { kill -9 "$pid"; wait "$pid"; } 2> /dev/null
  is_whole "kill $n" || continue
  left="$left $count"
  [[ " ${counts[*]} " = *" $count "* ]] || wrong "kill $n leaves $count lines, and not those of whole groups: ${counts[*]}"
done
echo "$commits commits leave ${counts[*]} lines of near pairs; kills left$left"
exit $bad
