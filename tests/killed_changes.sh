#!/usr/bin/env bash
# Changes of a real file that are killed at some moment, a thousand times over: stores one after another, deletes one after another, and
# loads, in turn, line by line and in groups. Each change that had ended with status 0 is there afterwards, of the others one a round at
# most, and of a load as many lines as were stored, the first ones, and whole groups of them. A quarter of the rounds are on a file of version 2, and
# each fifth pair of theirs is far.
. "$(dirname "$0")/common"
workers=4
rounds=250
filler=$(printf '5a%.0s' $(seq 2032))

# line ROUND N: the pair of a round. A far one has a content of 2,034 bytes, which takes two pages.
line() {
  local more=
  if [ "$version" = 2 ] && (($2 % 5 == 0)); then more=$filler; fi
  printf '%04x%04x %04x%s\n' "$1" "$2" "$2" "$more"
}

# first_lines ROUND COUNT: its first pairs
first_lines() {
  for n in $(seq 1 "$2"); do line "$1" "$n"; done
}

# What was acknowledged has a short line each in `done`, which is written at once or not at all.
stores() {
  for n in $(seq 1 1000); do
    line "$1" "$n" > next
    "$program" store t $(cat next) -x && echo "$n" >> done
  done
}

deletes() {
  while read -r key content; do
    "$program" delete t "$key" -x && echo "$key" >> done
  done < map
}

loads() {
  "$program" load t --group 1 < lines && seq 1 40 > done
}

grouped() {
  "$program" load t --group 10 < lines && seq 1 40 > done
}

# the maps that may be there, from the one before the round and what was acknowledged
may_be() {
  local count
  count=$(wc -l < done)
  case $1 in
    stores)
      first_lines "$2" "$count" | sort - map > one
      { cat one; line "$2" $((count + 1)); } | sort > two ;;
    deletes)
      tail -n +$((count + 1)) map > one
      tail -n +$((count + 2)) map > two ;;
    loads | grouped)
      [ "$count" != 0 ] || count=$(($(wc -l < found) - $(wc -l < map)))
      [ "$1" = loads ] || count=$((count / 10 * 10))
      head -n "$count" lines | sort - map > one
      cp one two ;;
  esac
}

# worker VERSION: so many rounds on a database of its own, of this version of the format
worker() {
  local kinds=(stores deletes loads grouped) kind round group version=$1 far=0 deleted=0
  local -a option=()
  [ "$version" = 1 ] || option=(--v2)
  # the latest moment of a kill, in milliseconds: later where nothing was done by then, since a change takes longer on
  # another disk, and beside other work
  local -A latest=([stores]=30 [deletes]=30 [loads]=30 [grouped]=30)
  set -m   # each round is a process group of its own, which is killed whole
  "$program" create t --limit 100000 "${option[@]}" || return 1
  : > map
  for round in $(seq 1 "$rounds"); do
    kind=${kinds[$((round % 4))]}
    : > done
    first_lines "$round" 40 > lines
    "$kind" "$round" 2> err &
    group=$!
    sleep "0.$(printf '%03d' $((4 + round * 7 % latest[$kind])))"
    kill -9 -- -"$group" 2> /dev/null
    wait "$group" 2> /dev/null
    flock -x -w 20 t.db true || return 1   # till the program that was killed is gone, and its lock with it
    "$program" dump t > found 2> err || { echo "round $round of $kind: $(cat err)"; return 1; }
    may_be "$kind" "$round"
    cmp -s found one || cmp -s found two || { echo "round $round of $kind left another map"; return 1; }
    cmp -s found one || echo "$kind" >> more
    if [ -s done ]; then
      latest[$kind]=$((latest[$kind] > 30 ? latest[$kind] - 5 : 30))
    else
      latest[$kind]=$((latest[$kind] < 900 ? latest[$kind] + 5 : 900))
    fi
    sed "s/^/$kind /" done >> acknowledged
    cp found map
    [ "$kind" != deletes ] || deleted=$((deleted + far - $(grep -c "$filler" map)))
    far=$(grep -c "$filler" map)
  done
  if [ "$version" = 2 ]; then
    echo "$deleted far pairs were deleted, and $far are left"
    ((far > 0 && deleted > 0)) || { echo "too few to tell anything"; return 1; }
  fi
  [ "$("$program" verify t)" = "$(wc -l < map)" ]
}

for number in $(seq 1 "$workers"); do
  mkdir "$number"
  version=$((number == workers ? 2 : 1))
  ( cd "$number" && : > more && : > acknowledged && worker "$version" && touch passed ) > "$number.text" 2>&1 &
done
wait
cat ./*.text
for number in $(seq 1 "$workers"); do [ -e "$number/passed" ] || exit 1; done
for kind in stores deletes loads grouped; do
  count=$(cat ./*/acknowledged | grep -c "^$kind")
  echo "$count acknowledged by $kind in $((workers * rounds)) rounds, and $(cat ./*/more | grep -c "$kind") more happened"
  [ "$count" -ge 50 ] || { echo "too few to tell anything"; exit 1; }
done
