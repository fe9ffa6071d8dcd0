#!/usr/bin/env bash
# A slice that `fetch`, `firstkey` or `nextkey` lends can't be used after the next call: code that does so is refused with this error's name.
set -eu
top=$(cd "$(dirname "$0")/.." && pwd)
work=$(mktemp -d)
trap 'rm -rf "$work"' EXIT
cp "$top/crates.txt" "$top/HANDLES" "$work/"
cp -r "$top/crates" "$work/crates"
crate=$work/crates/dbm_file
bad=0

# refuses CALL: code that uses what the call lent after the next one
refuses() {
  cp "$top/crates/dbm_file/src/database.rt" "$crate/src/database.rt"
  cat >> "$crate/src/database.rt" <<R

pub fn late<S: PageStore>(db: &mut Database<S>) -> Result<usize, Fault> {
    let held = db.$1?;
    let second = db.fetch(b"a")?;
    Ok(held.map_or(0, |s| s.len()).min(second.map_or(0, |s| s.len())))
}
R
  if (cd "$crate" && rt check) > "$work/log" 2>&1; then
    echo "a late use of what $1 lends compiles"
    bad=1
  elif ! grep -q 'error\[borrow-e0499\]' "$work/log"; then
    echo "$1: refused, but not as a borrow:"
    tail -n 20 "$work/log"
    bad=1
  fi
}

refuses 'fetch(b"ab")'
refuses 'firstkey()'
refuses 'nextkey()'
exit $bad
