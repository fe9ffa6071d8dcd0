#!/usr/bin/env bash
# The recipes of docs/MIGRATING.md, as they stand there: what another program keeps comes over and goes back whole. A program that isn't
# installed is named, and its recipes are left out.
. "$(dirname "$0")/common"
mkdir bin && ln -s "$program" bin/dbmtool
PATH=$work/bin:$PATH

# follows HEADING: the commands below this heading are run, one after another
follows() {
  sed -n "/^## $1\$/,/^## /s/^    //p" "$top/docs/MIGRATING.md" > recipe
  [ -s recipe ] || { wrong "no recipe '$1'"; return 1; }
  bash -e recipe > out 2> err || { wrong "$1: status $?: $(cat out err)"; return 1; }
}

# has PROGRAM..: all of them are installed
has() {
  local each
  for each; do command -v "$each" > /dev/null || { echo "left out: $each isn't installed"; return 1; }; done
}

# in a folder of its own, with no table yet
anew() { cd "$work" && rm -rf room && mkdir room && cd room || exit 1; }

# are_there: the table's pairs are those of the file `wanted`, and all that were loaded
are_there() {
  dbmtool dump table > found
  cmp -s found wanted || wrong "$1: other pairs: $(diff found wanted | head -4)"
  follows 'Looking whether all came over'
  [ "$(cat out)" = 'all pairs are there' ] || wrong "$1: the last look says '$(cat out)'"
}

# Pairs of every byte, of no bytes in a content, of words that wrap base64's lines, and that begin as a header does, as a dump has them.
pairs() {
  local all
  all=$(printf '%02x' $(seq 0 255))
  printf '%s\n' '00 .' '01 .' "20 $all" '2323206c656e3d 233a6c656e3d33' '6120620a 09630a' '736b79 626c7565' "$all 00" | LC_ALL=C sort
}
empty='. 6e6f206b6579'

# rows: pairs that lines of tabs can tell
rows() { printf '#a\tb#\na b\tc\td\nempty\t\nsky\tblue\nz\303\274rich\tZ\n'; }

if has gdbm_dump gdbm_load; then
  anew
  pairs > wanted
  dbmtool create table --limit 100 && dbmtool load table < wanted || wrong 'the pairs are not loaded'
  follows 'To gdbm' && rm table.db && follows 'From gdbm' && are_there gdbm
fi
if has gdbm_dump gdbmtool; then
  anew
  printf 'store sky "dark blue"\nstore none ""\nstore "" "no key"\n' | gdbmtool -n table.gdbm
  printf '%s\n' "$empty" '6e6f6e65 .' '736b79 6461726b20626c7565' > wanted
  follows 'From gdbm' && are_there "gdbmtool's"
fi

if has db_dump db_load; then
  anew
  { echo "$empty"; pairs; } > wanted
  dbmtool create table --limit 100 && dbmtool load table < wanted || wrong 'the pairs are not loaded'
  follows 'To Berkeley DB' && rm table.db && follows 'From Berkeley DB' && are_there 'Berkeley DB'
  for type in hash btree; do
    anew
    printf 'sky\ndark blue\nnone\n\n' | db_load -T -t "$type" table.bdb
    printf '6e6f6e65 .\n736b79 6461726b20626c7565\n' > wanted
    follows 'From Berkeley DB' && are_there "Berkeley DB's $type"
  done
fi

if has perl; then
  anew
  cat > table.cf <<'END'
# who gets whose mail

Abuse@Example.org    alice
postmaster  root,
   bob
  # not this

info	carol   and dave  
abuse@example.org  mallory
alone
END
  printf '%s\n' '6162757365406578616d706c652e6f7267 616c696365' '696e666f 6361726f6c202020616e642064617665' \
    '706f73746d6173746572 726f6f742c202020626f62' > wanted
  follows 'From a table of Postfix' && [ "$(cut -c1-30 err)" = $'twice: abuse@example.org\nno value: alone' ] || wrong "Postfix: told $(cat err)"
  are_there Postfix

  anew
  cat > aliases <<'END'
# who gets whose mail
Abuse: alice

root :ann,
   bob
  # not this
"Two Words": carol
"a\"b":dave
info:	"|/usr/bin/count x"  
owner-list: :include:/etc/list
ABUSE: mallory
nocolon admin
END
  printf '%s\n' '612262 64617665' '6162757365 616c696365' '696e666f 227c2f7573722f62696e2f636f756e74207822' '6f776e65722d6c697374 3a696e636c7564653a2f6574632f6c697374' '726f6f74 616e6e2c202020626f62' '74776f20776f726473 6361726f6c' > wanted
  follows 'From aliases(5)' && [ "$(cut -c1-31 err)" = $'twice: ABUSE\nno key and colon: nocolon admin' ] || wrong "aliases(5): told $(cat err)"
  are_there 'aliases(5)'

  anew
  rows > table.tabs
  follows 'From lines of a key, a tab and a content' || wrong 'tabs'
  rows > before && rm table.tabs
  follows 'To lines of a key, a tab and a content' && { cmp -s table.tabs before || wrong "tabs: $(diff table.tabs before)"; }
  printf 'alone\n\n' > table.tabs && rm table.db
  printf '. .\n616c6f6e65 .\n' > wanted
  follows 'From lines of a key, a tab and a content' && { dbmtool dump table | cmp -s - wanted || wrong 'a line with no tab'; }
fi
[ "$bad" = 0 ]
