#!/usr/bin/env bash
# `upgrade` on real files: what it answers, which calls of the system it makes, and that it changes the version of the meta page alone. Cut short
# behind each of these calls, where the sectors that no sync came behind are kept or lost, or each second one is, it leaves the same pairs in
# version 1 or 2; and so does the opening that settles it, cut short likewise. A file that was upgraded takes far pairs and stays of version 2.
. "$(dirname "$0")/common"
preloadable fail
pid=
trap '[ -z "$pid" ] || kill -9 "$pid" 2> /dev/null; rm -rf "$work"' EXIT

# put FILE PLACE HEX: other bytes from that place on
put() { printf '%b' "$(sed 's/../\\x&/g' <<< "$3")" | dd of="$1" bs=1 seek=$(($2)) conv=notrunc status=none; }

# ends STATUS FAULTS WORD..: a command ends so, prints nothing, and says this on standard error
ends() {
  local wanted=$1 faults=$2 status=0
  shift 2
  "${as[@]}" "$tool" "$@" > out 2> err < /dev/null || status=$?
  [ "$status" = "$wanted" ] && [ ! -s out ] && [ "$(cat err)" = "$faults" ] || wrong "dbmtool $*: status $status, $(head -c 100 out err)"
}
as=() tool=$program

# refused FAULT NAME: an upgrade is refused by this fault, and the file stays as it is
refused() {
  cp "$2.db" before
  ends 2 "dbmtool: fault $1" --wait 0 upgrade "$2"
  cmp -s "$2.db" before || wrong "an upgrade that is refused by fault $1 changed the file"
}

# Eleven pairs in two buckets. Of three long ones in bucket 1, which is page 4, the second one had page 5 and the third one has page 6. The second
# one was deleted, so that page 5 is free. Seven pages are 14,336 bytes.
long=$(printf '07%.0s' $(seq 1499))
"$program" create v1 --limit 100 || exit 1
{ printf 'S 6%s 0%s\n' 1 1 2 2 3 3 4 4 5 5 6 6 7 7 8 8 9 9; printf 'S 6%s %s\n' a "$long" c "$long" e "$long"; echo 'D 6c'; } > lines
"$program" script v1 < lines > out || exit 1
"$program" dump v1 > pairs && "$program" stat v1 > stated || exit 1
[ "$(sed 's/.* //' stated | xargs) $(wc -l < pairs)" = '11 100 2 1 0 7 1 11' ] || { echo "the first file is another"; exit 1; }
# the same in version 2
cp v1.db v2.db && put v2.db 2048+16 00000002

# is_file VERSION: the pages of t.db are those of the file of this version
is_file() { cmp -s <(head -c 14336 t.db) <(head -c 14336 "v$1.db"); }

# ---- what it answers
cp v1.db t.db
ends 0 '' upgrade t
is_file 2 || wrong "an upgrade leaves another file"
"$program" dump t | cmp - pairs && "$program" stat t | cmp - stated && [ "$("$program" verify t)" = 11 ] || wrong "an upgrade leaves other pairs"
cp t.db before
ends 0 '' upgrade t
cmp -s t.db before || wrong "an upgrade of a file of version 2 changes it"
for limit in 1 1000000; do
  "$program" create "new$limit" --limit $limit && cp "new$limit.db" wanted && put wanted 2048+16 00000002
  ends 0 '' upgrade "new$limit"
  cmp -s <(head -c 8192 "new$limit.db") <(head -c 8192 wanted) || wrong "an upgrade of a new file of limit $limit leaves another"
  "$program" create "made$limit" --limit $limit --v2 && cp "made$limit.db" before
  ends 0 '' upgrade "made$limit"
  cmp -s "made$limit.db" before || wrong "an upgrade of a file that was made in version 2 changes it"
done

ends 2 'dbmtool: fault 14' upgrade absent
[ ! -e absent.db ] || wrong "an upgrade made a file"
printf hello > text.db && : > none.db && head -c 8192 /dev/zero > blank.db
for name in text none blank; do refused 10 $name; done
mkdir folder.db
ends 2 'dbmtool: fault 2' upgrade folder
# damaged FAULT PLACE HEX: that file with other bytes
damaged() {
  cp v1.db t.db && put t.db "$2" "$3"
  refused "$1" t
}
damaged 10 0 47
damaged 9 12 00000003
# an end that leaves no room for a redo image in the device of 68,250,498 pages, and one behind it
damaged 8 12 04116b82
damaged 9 12 04116b83
damaged 9 2048 00000002
damaged 9 2048+4 02
damaged 9 2048+8 00000003
damaged 9 2048+20 00000000
damaged 9 2048+24 00000065
damaged 9 2048+60 01
damaged 9 2048+44 00000000
damaged 9 2048+2047 01
for version in 00000000 00000003 00000102 01000001; do damaged 11 2048+16 $version; done
# Another page isn't looked at, and stays as it is.
cp v1.db t.db && put t.db 3*2048+4 05 && cp t.db wanted && put wanted 2048+16 00000002
ends 0 '' upgrade t
cmp -s <(head -c 14336 t.db) <(head -c 14336 wanted) || wrong "an upgrade changes a damaged page"

cp v1.db t.db && cp t.db before
for words in upgrade 'upgrade t t' 'upgrade t --v2' 'upgrade t -x' 'upgrade t --limit 100' 'upgrade --memory 100' 'upgrades t'; do
  # shellcheck disable=SC2086
  "$program" $words > out 2> err < /dev/null
  [ $? = 3 ] && [ ! -s out ] && [ -s err ] || wrong "dbmtool $words: no usage"
done
cmp -s t.db before || wrong "words that make no sense changed the file"

# beside a program that has the file open, for writing and for reading
coproc writer { exec "$program" script t; }
pid=$writer_PID
echo 'F 61' >&"${writer[1]}"
read -t 20 -r -u "${writer[0]}" reply && [ "$reply" = 01 ] || wrong "a script's fetch is answered by '$reply'"
refused 2 t
{ kill -9 "$pid"; wait "$pid"; } 2> /dev/null
pid=
exec {held}< t.db
flock -s "$held" || exit 1
refused 2 t
exec {held}<&-

# a file that may be read and not written, for somebody who isn't root
[ "$(id -u)" != 0 ] || as=(setpriv --reuid=65534 --regid=65534 --clear-groups)
chmod 755 . && cp "$program" dbmtool && chmod 755 dbmtool && chmod 444 t.db && tool=./dbmtool
if "${as[@]}" test -r t.db && ! "${as[@]}" test -w t.db; then refused 2 t; else echo "a file that may not be written was not tried"; fi
as=() tool=$program
chmod 644 t.db && is_file 1 || wrong "a refused upgrade changed the file"

# ---- cut short. An opening that settles nothing: the commit sector, read twice and written back; a sync, and reads of the commit sector and of the meta
# page. The upgrade writes one redo image, syncs, writes the commit sector and syncs. The closing writes the page, syncs, writes the commit
# sector and syncs.
opening=6
arming=$((opening + 1 + 1 + 1))
closed=$((arming + 1 + 1 + 1 + 1 + 1))
# An opening that settles it: the commit sector, read twice and written back; a sync and the commit sector; the image, to check it; the image again, and
# its page; a sync, the commit sector and a sync; the meta page.
recovery=$((3 + 1 + 1 + 1 + 2 + 1 + 1 + 1 + 1))

# traced WORD..: the calls of the system of a command on t.db
traced() {
  rm -f trace
  FAIL_TRACE=trace LD_PRELOAD=./fail.so "$program" "$@" < /dev/null > out 2> err || wrong "$*: status $?"
}
traced upgrade t
printf '%s\n' 'read 0 512' 'read 0 512' 'write 0 512' sync 'read 0 512' 'read 2048 2048' 'write 14336 2048' sync 'write 0 512' sync 'write 2048 2048' sync 'write 0 512' sync |
  cmp - trace || wrong "an upgrade makes other calls"
traced upgrade t
printf '%s\n' 'read 0 512' 'read 0 512' 'write 0 512' sync 'read 0 512' 'read 2048 2048' | cmp - trace || wrong "an upgrade of a file of version 2 makes other calls"

# number PLACE: a number of t.db
number() { od -An -tu4 --endian=big -j "$1" -N 4 t.db | tr -d ' '; }

# version: that of t.db by the format, which is that of the meta page's redo image where the commit sector is armed
version() {
  local page=1
  [ "$(number 8)" = 0 ] || page=$(number 16)
  [ "$(number $((page * 2048)))" = 1 ] && number $((page * 2048 + 16))
}

# cut NAME CALLS LOSE WORD..: a command on t.db, a copy of a file, of which each call behind so many fails
cut() {
  cp "$1.db" t.db
  status=0
  FAIL_CALL=$(($2 + 1)) FAIL_HOW=from FAIL_LOSE=$3 LD_PRELOAD=./fail.so "$program" "${@:4}" < lines > out 2> err || status=$?
}
: > lines

# far_ones VERSION: what a store of a far pair is answered, and the fetch behind it
far=$(printf '08%.0s' $(seq 2026))
far_ones() { [ "$(printf 'S 7a %s\nF 7a\n' "$far" | "$program" script t | xargs)" = "$([ "$1" = 1 ] && echo '-1 fault 5 none' || echo "0 $far")" ]; }

# has VERSION: t.db is of this version, and has the pairs for a reader; once it was opened for writing it is the whole file of this version, as it is
# for a far pair
has() {
  [ "$(version)" = "$1" ] && "$program" dump t 2> /dev/null | cmp -s - pairs && "$program" script t < /dev/null && is_file "$1" && far_ones "$1"
}

# opens_again VERSION: cut short behind each call, with each kind of loss, the opening of left.db leaves the file of this version; $calls is how many
# calls it takes
opens_again() {
  local lose sum
  local -A seen=()
  for ((calls = 0; calls < 100; calls++)); do
    for lose in kept lost odd even; do
      cut left "$calls" "$lose" script t
      [ "$status" != 0 ] || return 0
      sum=$(cksum < t.db)
      [ -z "${seen[$sum]:-}" ] || continue
      seen[$sum]=1
      has "$1" || { wrong "an opening cut short behind $calls calls, $lose, leaves another file"; return 1; }
    done
  done
}

declare -A known=()
for ((stop = 0; stop <= closed; stop++)); do
  for lose in kept lost odd even; do
    cut v1 "$stop" "$lose" upgrade t
    cp t.db left.db
    told="$status $(cat out err)"
    [ "$told" = "$( ((stop < closed)) && echo '2 dbmtool: fault 2' || echo '0 ')" ] || wrong "behind $stop calls an upgrade is answered $told"
    # of version 2 from the sync of the armed commit sector on, and before it where that sector is kept
    is=1
    if ((stop > arming)) || { ((stop == arming)) && [[ $lose =~ kept|even ]]; }; then is=2; fi
    sum=$(cksum < t.db)
    if [ -n "${known[$sum]:-}" ]; then
      [ "${known[$sum]}" = $is ] || wrong "behind $stop calls, $lose, the file is not of version $is"
      continue
    fi
    known[$sum]=$is
    has $is || wrong "an upgrade cut short behind $stop calls, $lose, leaves another file than that of version $is"
    cp left.db t.db
    ends 0 '' upgrade t
    is_file 2 || wrong "an upgrade that comes behind one cut short behind $stop calls, $lose, leaves another file"
    opens_again $is || continue
    # the file is settled where the closing has ended, or its last sector happened
    needed=$recovery
    if [ $is = 1 ] || ((stop == closed)) || { ((stop == closed - 1)) && [[ $lose =~ kept|even ]]; }; then needed=$opening; fi
    [ "$calls" = "$needed" ] || wrong "what is left behind $stop calls, $lose, takes $calls calls to open, and not $needed"
  done
done
[ ${#known[@]} -ge 5 ] || wrong "the upgrades that were cut short left ${#known[@]} files alone"

# One call fails, and those behind it do not.
for ((call = 1; call <= closed; call++)); do
  cp v1.db t.db
  FAIL_CALL=$call LD_PRELOAD=./fail.so "$program" upgrade t > out 2> err && wrong "call $call of an upgrade fails, and it is answered $(cat out err)"
  [ "$(cat out err)" = 'dbmtool: fault 2' ] || wrong "call $call of an upgrade fails: $(cat out err)"
  has "$( ((call <= arming)) && echo 1 || echo 2)" || wrong "call $call of an upgrade fails, which leaves another file"
done

# A store that was cut short with its commit sector armed is settled by an upgrade, and its pair is there.
echo 'S 6b 0b' > lines
for ((calls = opening; calls < 100; calls++)); do
  cut v1 $calls kept script t
  [ "$(number 8)" = 0 ] || break
done
{ cat pairs; echo '6b 0b'; } | sort > more
"$program" dump t | cmp -s - more || wrong "no store was cut short with its commit sector armed"
ends 0 '' upgrade t
[ "$(version)" = 2 ] && "$program" dump t | cmp - more || wrong "an upgrade of an armed file leaves other pairs"

# ---- far pairs behind an upgrade. One of 65,535 bytes takes 33 pages: page 5, which is free, and 32 from the end on.
cp v1.db t.db
most=$(printf '09%.0s' $(seq 65535))
echo "7a $most" > one-more
"$program" load t < one-more 2> err; [ "$? $(cat err)" = '2 dbmtool: fault 5' ] || wrong "a file of version 1 takes a far pair"
ends 0 '' upgrade t
"$program" load t < one-more || wrong "a file that was upgraded takes no far pair"
[ "$("$program" stat t | sed 's/.* //' | xargs)" = '12 100 2 1 0 39 0' ] || wrong "a far pair takes other pages: $("$program" stat t | xargs)"
cat pairs one-more > more
"$program" dump t | cmp - more && [ "$("$program" verify t)" = 12 ] || wrong "a file that was upgraded has other pairs than it was given"
[ "$(printf 'D 7a\nS 6c %s\nI 61 %s\nF 6c\nS 61 %s\nF 61\n' "$far" "$far" "$far" | "$program" script t | xargs)" = "0 0 1 $far 0 $far" ] ||
  wrong "a file that was upgraded answers other than a file of version 2"

# Cut short behind each call, a store of one leaves version 2, and its pair whole or absent.
cp v1.db first.db && "$program" upgrade first || exit 1
echo "S 7a $far" > lines
echo "7a $far" > one-more && cat pairs one-more > more
absent=0 there=0
for ((stop = 0; stop < 100; stop++)); do
  for lose in kept lost odd even; do
    cut first "$stop" "$lose" script t
    "$program" dump t > found
    if cmp -s found more; then there=$((there + 1)); else absent=$((absent + 1)); fi
    cmp -s found more || { [ "$(cat out)" != 0 ] && cmp -s found pairs; } || wrong "behind $stop calls, $lose, a far pair leaves other pairs"
    [ "$(version)" = 2 ] || wrong "behind $stop calls, $lose, a store leaves another version"
  done
  [ "$status $(cat out)" != '0 0' ] || break
done
[ "$status $(cat out)" = '0 0' ] && ((there >= 8 && absent >= 8)) || wrong "a store cut short left its pair $there times, and $absent times not"
exit $bad
