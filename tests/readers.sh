#!/usr/bin/env bash
# Commands that read: stat, version, dump, verify, list, fetch, rehearse and script --read answer what the file has, and leave it to the byte as it was, beside a lock that is
# shared, beside another one that reads, on a file and in a folder that may not be written, and on a file system that is mounted for reading alone.
# So they do on a file whose last commit was cut short when its pages weren't in their places. Commands that write are refused there by fault 2.
. "$(dirname "$0")/common"
pid=
trap '[ -z "$pid" ] || kill -9 "$pid" 2> /dev/null; rm -rf "$work"' EXIT
preloadable fail

# 3,000 pairs, whose list is longer than a pipe holds.
awk 'BEGIN { for (i = 0; i < 3000; i++) printf "%032x %04x\n", i, 3000 - i }' > pairs
cut -d' ' -f1 pairs > keys
mkdir folder && "$program" create folder/t --limit 3100 && "$program" load folder/t --group 1000 < pairs || exit 1
# The last store of one more pair is cut short once its commit sector is armed, so that the pair is there and not in its place; a key behind all others.
cp folder/t.db folder/armed.db
for n in $(seq 1 100); do
  FAIL_CALL=$n FAIL_HOW=from LD_PRELOAD=./fail.so "$program" script folder/armed <<< 'S ff 01' > out 2> err
  [ "$(cat out)" != 0 ] || break
  cp folder/t.db folder/armed.db
done
[ "$(cat out)" = 0 ] && [ "$(od -An -tx1 -j8 -N4 folder/armed.db | tr -d ' ')" = 00000001 ] || { echo "no store was cut short behind its answer"; exit 1; }
cp pairs pairs.t && cp keys keys.t
{ cat pairs; echo 'ff 01'; } > pairs.armed
{ cat keys; echo ff; } > keys.armed

# reads WHERE NAME STATUS WANTED WORD..: a command on a file ends so and prints the file of this name
reads() {
  local where=$1 name=$2 wanted=$3 text=$4 status=0
  shift 4
  (cd "$folder" && "${as[@]}" "$tool" "$@") < calls > out 2> err || status=$?
  [ "$status" = "$wanted" ] && [ ! -s err ] && cmp -s out "$text" || wrong "$where, $*: status $status, $(head -c 100 err), or other than $text is printed"
  [ "$(stat -c '%i %s %y %z' "$folder/$name.db")" = "$kept" ] && cmp -s "$folder/$name.db" before || wrong "$where, $*: the file has changed"
}

# refuses WHERE NAME WORD..: a command that doesn't wait is refused by fault 2, and the file stays
refuses() {
  local where=$1 name=$2 status=0
  shift 2
  (cd "$folder" && "${as[@]}" "$tool" --wait 0 "$@") < calls > out 2> err || status=$?
  [ "$status $(cat err)" = '2 dbmtool: fault 2' ] && [ ! -s out ] || wrong "$where, $*: status $status, $(head -c 100 err)"
  [ "$(stat -c '%i %s %y %z' "$folder/$name.db")" = "$kept" ] && cmp -s "$folder/$name.db" before || wrong "$where, $*: the file has changed"
}

# all_read WHERE NAME: each command that reads
all_read() {
  local name=$2 pairs
  pairs=$(wc -l < "pairs.$name")
  kept=$(stat -c '%i %s %y %z' "$folder/$name.db")
  cp "$folder/$name.db" before
  echo "$pairs" > verified
  : > nothing
  reads "$1" "$name" 0 "pairs.$name" dump "$name"
  reads "$1" "$name" 0 "keys.$name" list "$name"
  reads "$1" "$name" 0 verified verify "$name"
  # key 0 has the content 0bb8, which is 3,000
  echo 0bb8 > content
  reads "$1" "$name" 0 content fetch "$name" "$(head -n 1 keys)" -x
  reads "$1" "$name" 1 nothing fetch "$name" absent
  if [ "$name" = armed ]; then echo 01 > content; reads "$1" "$name" 0 content fetch "$name" ff -x; fi
  # a script that reads: its changes are refused, line by line
  printf 'F %s\nS 6b 76\nI 6b 76\nD %s\nC\nF 6b\n' "$(head -n 1 keys)" "$(head -n 1 keys)" > calls
  printf '0bb8\n-1 fault 4\n-1 fault 4\n-1 fault 4\n0\nnone\n' > replies
  reads "$1" "$name" 0 replies script --read "$name"
  reads "$1" "$name" 0 replies script "$name" --read
  # the same in the text form
  printf 'F\t%s\nS\tk\tv\nI\tk\tv\nD\tk\nC\nF\tk\n' "$(printf '\\x00%.0s' {1..16})" > calls
  printf '\\x0b\\xb8\n-1 fault 4\n-1 fault 4\n-1 fault 4\n0\nnone\n' > replies
  reads "$1" "$name" 0 replies script --read --text "$name"
  reads "$1" "$name" 0 replies script --text "$name" --read
  echo 'S 6b 76' > calls
  (cd "$folder" && "${as[@]}" "$tool" stat "$name") > stated 2> err || wrong "$1, stat $name: status $?, $(cat err)"
  [ "$(head -n 2 stated)" = "pairs $pairs"$'\n''limit 3100' ] || wrong "$1, stat $name: $(head -n 2 stated | xargs)"
  (cd "$folder" && "${as[@]}" "$tool" version "$name") > kinds 2> err || wrong "$1, version $name: status $?, $(cat err)"
  [ "$(cat kinds)" = $'version 1\nsyncs 2' ] || wrong "$1, version $name: $(xargs < kinds)"
  (cd "$folder" && "${as[@]}" "$tool" rehearse "$name" --stops 2) < calls > rehearsed 2> err || wrong "$1, rehearse $name: status $?, $(cat err)"
  [ "$(head -n 1 rehearsed) $(tail -n 1 rehearsed)" = 'calls 1 kept 2' ] || wrong "$1, rehearse $name: $(xargs < rehearsed)"
  [ "$(stat -c '%i %s %y %z' "$folder/$name.db")" = "$kept" ] && cmp -s "$folder/$name.db" before || wrong "$1: the file has changed"
}

# none_writes WHERE NAME: no command that writes
none_writes() {
  refuses "$1" "$2" store "$2" a b
  refuses "$1" "$2" insert "$2" a b
  refuses "$1" "$2" delete "$2" "$(head -n 1 keys)" -x
  refuses "$1" "$2" load "$2"
  refuses "$1" "$2" script "$2"
  refuses "$1" "$2" create "$2"
}

as=() tool=$program folder=folder
echo 'S 6b 76' > calls
for name in t armed; do
  all_read 'alone' $name

  # a lock that is shared, as a reader has it
  exec {held}< "folder/$name.db"
  flock -s "$held" || exit 1
  all_read 'beside a shared lock' $name
  none_writes 'beside a shared lock' $name
  exec {held}<&-

  # a listing that has not ended, since nobody reads on
  rm -f listed && mkfifo listed || exit 1
  "$program" list "folder/$name" > listed &
  pid=$!
  exec {from}< listed
  read -t 20 -r -u "$from" line
  [ "$line" = "$(head -n 1 keys)" ] || wrong "a listing begins with '$line'"
  all_read 'beside a listing' $name
  none_writes 'beside a listing' $name
  kill -0 "$pid" || wrong "the listing has ended meanwhile"
  { echo "$line"; cat <&"$from"; } | cmp -s - "keys.$name" || wrong "a listing beside others is another"
  exec {from}<&-
  wait "$pid" || wrong "the listing ends with status $?"
  pid=
done

# scripts that read, side by side, while they are talked to
"$program" script --read folder/t < <(sleep 20 & echo $! > sleeper; wait) > first &
pid=$!
until [ -s sleeper ]; do sleep 0.1; done
for name in armed t; do
  all_read 'beside a script that reads' $name
done
none_writes 'beside a script that reads' t
kill "$(cat sleeper)" 2> /dev/null
wait "$pid" || wrong "a script that reads ends with status $?"
pid=

# a file, and a folder, that somebody who isn't root may read and not write
cp "$program" dbmtool && chmod 755 . dbmtool && tool=$work/dbmtool
if [ "$(id -u)" = 0 ]; then as=(setpriv --reuid=65534 --regid=65534 --clear-groups); fi
chmod 444 folder/*.db && chmod 555 folder
if (cd folder && "${as[@]}" test -r t.db) && ! (cd folder && "${as[@]}" test -w t.db); then
  for name in t armed; do
    all_read 'with no right to write' $name
    none_writes 'with no right to write' $name
  done
  refuses 'with no right to write' armed create new
  [ ! -e folder/new.db ] || wrong "a file is made in a folder that may not be written"
else
  echo "a file with no right to write was not tried: nobody else than root can be had here"
fi
chmod 644 folder/*.db && chmod 755 folder

# A file system that is mounted for reading alone, in a namespace of its own, which ends with the part in brackets. The program itself is on the other.
mkdir mounted
cat > mounts <<'END_OF_MOUNTS'
mount -o bind folder mounted && mount -o remount,bind,ro mounted && ! touch mounted/written 2> nothing && "$@"
END_OF_MOUNTS
as=() tool=$program folder=mounted
if [ "$(id -u)" = 0 ]; then alone=(unshare -m); else alone=(unshare -rm); fi
if "${alone[@]}" bash ./mounts true 2> err; then
  export -f reads refuses all_read none_writes wrong
  export tool folder
  # shellcheck disable=SC2016
  "${alone[@]}" bash ./mounts bash -c 'as=() bad=0
    for name in t armed; do all_read "mounted for reading alone" $name; none_writes "mounted for reading alone" $name; done
    exit $bad' || bad=1
else
  echo "a file system that is mounted for reading alone was not tried: $(head -n 1 err)"
fi
exit $bad
