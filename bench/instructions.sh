#!/usr/bin/env bash
# The instructions that a store, a fetch and a step of a pass take in the program (callgrind): those of a script of many lines, less
# those of a script of its first line. The database is a file with 3,000 pairs of 16 and 100 bytes in no order, and there is one of
# each version of the format. 2,000 stores each replace a content, and there are as many fetches.
# Words: none.
#
# In the environment: DBMTOOL, a built program to measure in place of this tree's.
set -euo pipefail
top=$(cd "$(dirname "$0")/.." && pwd)
# builds
[ -n "${DBMTOOL:-}" ] || printf 'F 00\n' | "$top/dbmtool" script --memory 100 > /dev/null
program=$(realpath "${DBMTOOL:-$top/crates/dbmtool/out/dbmtool}")
work=$(mktemp -d)
trap 'rm -rf "$work"' EXIT
cd "$work"

fail() {
  echo "instructions.sh: $*" >&2
  exit 1
}

# make_database VERSION [OPTION]: a database with all pairs
make_database() {
  "$program" create "v$1" --limit 1000000 "${@:2}" || fail "create ends by $?"
  # shellcheck disable=SC2094
  "$program" load "v$1" < load || fail "load ends by $?"
  "$program" script "v$1" < store > replies || fail "the stores end by $?"
  cmp replies store.right >&2 || fail "wrong replies to the stores"
}

# instructions VERSION SCRIPT: those of the whole program, on a copy of the database. The replies may have the order of `sort`.
instructions() {
  cp "v$1.db" t.db
  valgrind --tool=callgrind --callgrind-out-file=/dev/null "$program" script t < "$2" > replies 2> told || fail "$2 ends by $?"
  if [ -e "$2.right" ]; then cmp <(LC_ALL=C sort replies) <(LC_ALL=C sort "$2.right") >&2 || fail "wrong replies to $2"; fi
  sed -n 's/^==[0-9]*== Collected : //p' told
}

# a line of a script, less the first one; of three digits
per_line() {
  local all one
  head -n 1 "$2" > first
  all=$(instructions "$1" "$2")
  one=$(instructions "$1" first)
  awk -v all="$all" -v one="$one" -v lines="$(wc -l < "$2")" 'BEGIN { printf " %d |", sprintf("%.2e", (all - one) / (lines - 1)) }'
}

python3 "$top/bench/peer_texts.py" . 3000 2000
for which in fetch fetch.right; do head -n 2000 "$which" > some && mv some "$which"; done
make_database 1
make_database 2 --v2
declare -A title=([store]='a store' [fetch]='a fetch' [pass]='a step of a pass')
echo '| Instructions | version 1 | version 2 |'
echo '|---|---|---|'
for what in store fetch pass; do
  printf '| %s |' "${title[$what]}"
  for version in 1 2; do per_line "$version" "$what"; done
  printf '\n'
done
