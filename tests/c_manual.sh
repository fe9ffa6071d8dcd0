#!/usr/bin/env bash
# docs/ndbm.3: its program compiles as it stands there and prints what the page says; the page names each function of the header,
# and tells of the faults what the crate's texts say. The program of docs/LIBRARY.md compiles and runs as it stands there, too.
. "$(dirname "$0")/common"
has_library
. "$top/tests/c_words"
page=$top/docs/ndbm.3

# literal N: the n-th text of the examples, as a reader sees it
literal() {
  sed -n '/^\.Sh EXAMPLES/,/^\.Sh DIAGNOSTICS/p' "$page" |
    awk -v n="$1" '/^\.Bd -literal/ { text++; next } /^\.Ed/ && text == n { exit } text == n' | sed 's/\\e/\\/g; s/\\&//g'
}
literal 1 > program.c
literal 2 > wanted
[ "$(wc -l < program.c)" -ge 30 ] && [ "$(wc -l < wanted)" = 2 ] || wrong "the examples are read wrong"
cc -std=c11 -Wall -Wextra -Wpedantic -Werror -I"$top/c" program.c "$library/libndbm.a" -o program || exit 1
counted=$(sed -n '/^With the words/,/^and/s/^\.Li \(.*\) ,$/\1/p' "$page")
[ "$counted" = 'red blue red' ] || wrong "the words of the page's program are read as '$counted'"
# shellcheck disable=SC2086
./program $counted > printed 2> err || wrong "the page's program ends with status $?"
[ ! -s err ] || { wrong "the page's program complains:"; cat err; }
sort printed | diff wanted - || wrong "the page's program prints something else (< page, > program)"
mkdir -p folder/words.db
(cd folder && ../program a > out 2> err)
[ $? = 1 ] && [ "$(cat folder/err)" = $'words.db: Is a directory\n'"${words[1]}" ] ||
  wrong "the page's program doesn't tell why it can't open"

# names WHAT: each function of the header stands in this list
cc -E -P -I"$top/c" -x c "$top/c/ndbm.h" | grep -oE '\bdbmx?_[a-z_]+ ?\(' | tr -d ' (' | sort -u > declared
sed -n '/^\.Sh NAME/,/^\.Nd/s/^\.Nm \([a-z_]*\).*/\1/p' "$page" | sort > named
sed -n '/^\.Sh SYNOPSIS/,/^\.Sh DESCRIPTION/s/^\.Fn \([a-z_]*\) .*/\1/p' "$page" | sort > shown
sed '1,/^\.Sh DESCRIPTION/d' "$page" | grep -oE '\bdbmx?_[a-z_]+' | grep -vx 'dbmx_how\|dbmx_' | sort -u > told
for list in named shown told; do
  diff declared "$list" || wrong "the functions that are $list are others than the header's (< header)"
done
grep -oE '^#define [A-Z_0-9]+ ' "$top/c/ndbm.h" | sed 's/#define //; s/ $//' > constants
[ "$(wc -l < constants)" -ge 13 ] || wrong "the constants of the header are read wrong: $(xargs < constants)"
while read -r constant; do
  grep -q "Dv $constant" "$page" || wrong "the page has no $constant"
done < constants
for constant in KUMQUATFEN_NDBM_VERSION DBM_SUFFIX; do
  grep -qxF "$(grep "^#define $constant " "$top/c/ndbm.h")" "$page" || wrong "the page has another $constant than the header"
done

# the faults
printf '%s\n' "${words[@]}" > words
sed '1,/^\.Sh DIAGNOSTICS/d' "$page" | sed -n '/^\.Bl/,/^\.El/p' | grep -A1 '^\.It [0-9]' | grep -v '^--' | paste - - |
  sed 's/^\.It //' > faults
awk '{ print NR "\t" $0 }' words > wanted
sed 's/: [^:]*$//' faults | diff wanted - || wrong "the page has other words for the faults (< wanted, > page)"
sed '1,/^\.Sh ERRORS/d; /^\.Sh SEE/,$d' "$page" | sed -n 's/^\.It Bq Er //p' > numbers
errnos='ENOMEM system EIO EPERM EINVAL ENOSPC EINVAL ENOSPC EIO EINVAL EINVAL ENOSPC EINVAL ENOENT EEXIST'
[ "$(sed "s/.*: //; s/^the system's number$/system/" faults | tr '\n' ' ')" = "$errnos " ] ||
  wrong "the faults of the page have other numbers of errno"
[ "$(xargs < numbers)" = 'EACCES EAGAIN EEXIST EINVAL EIO ENOENT ENOMEM ENOSPC ENOTSUP EPERM' ] ||
  wrong "the page's errors are $(xargs < numbers)"

if command -v mandoc > /dev/null; then
  mandoc -T lint -W warning "$page" > lint || { wrong "the manual page:"; cat lint; }
else
  echo "mandoc isn't installed: the manual page wasn't looked at by it"
fi

# the command line reads what the program wrote, and writes what it reads
"$program" dump words > dumped || wrong "the command line can't read what the page's program wrote"
printf '626c7565 01000000\n726564 02000000\n' | diff - dumped || wrong "the command line reads other pairs"
"$program" store words 677265656e 03000000 -x || wrong "the command line can't store"
[ "$(./program green | grep '^green')" = 'green 4' ] || wrong "the page's program doesn't read what the command line wrote"

# the program of docs/LIBRARY.md
sed -n '/^## A first program/,/^It is compiled/s/^    //p' "$top/docs/LIBRARY.md" > hello.c
[ "$(wc -l < hello.c)" -ge 10 ] || wrong "the program of docs/LIBRARY.md is read wrong"
cc -std=c11 -Wall -Wextra -Wpedantic -Werror -I"$top/c" hello.c "$library/libndbm.a" -o hello || exit 1
[ "$(./hello)" = alice ] && [ "$(./hello)" = alice ] || wrong "the program of docs/LIBRARY.md doesn't print the content"
[ "$("$program" dump --text aliases)" = $'abuse\talice' ] || wrong "the command line reads another pair than the program of docs/LIBRARY.md stored"
[ "$bad" = 0 ]
