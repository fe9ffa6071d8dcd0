#!/usr/bin/env bash
# Pages are kept in memory: where there is room there for all pages of a file, none is read twice, whatever is fetched, stored and deleted. So it is
# in a script, and in the C library, which gives a change up and makes it anew for each sector that it lacks. How many there is room for is said by
# --cache and by dbmx_open, and where there isn't enough, those pages stay that are used again and again. tests/fail.c lists the reads.
. "$(dirname "$0")/common"
preloadable fail
pairs=900 stored=600 deleted=700 many=4000

# line WORD NUMBER [DIGITS]: a line of a key of four bytes, with 90 times these two digits
line() { printf '%s%08x%s\n' "$1" "$2" "${3:+ $(printf "$3%.0s" {1..90})}"; }

fetched() { for ((i = 1; i <= pairs; i++)); do line 'F ' $i; done; }
for ((i = 1; i <= pairs; i++)); do line '' $i 61; done > load
for ((i = 1; i <= stored; i++)); do line 'S ' $i 62; line 'F ' $i; done > script
for ((i = stored + 1; i <= deleted; i++)); do line 'D ' $i; done >> script
fetched >> script
# by its replies, how often each kind of them comes
replies="$((2 * stored)) 62 $((pairs - deleted)) 61 $((deleted - stored)) none $deleted 0"
of() { grep -c "^$1" replies; }

# makes VERSION: the file with all pairs
makes() {
  rm -f t.db
  # shellcheck disable=SC2046
  "$program" create t --limit 10000 $([ "$1" = 2 ] && echo --v2) && "$program" load t < load || wrong "no file of version $1"
}

# The reads that were made more than once, but for those of the commit sector, which an opening for writing reads before it writes it back, and
# behind its first sync. The library reads it with the turn.
again() { grep ^read trace | grep -vxE 'read 0 (512|520)' | sort | uniq -d; }

# is_read_once WHO: no place of the file was read twice, and about as many as it has pages were
is_read_once() {
  local pages reads
  pages=$(($(stat -c %s t.db) / 2048)) reads=$(grep -c ^read trace)
  [ -z "$(again)" ] || wrong "$1 reads these again: $(again | head -n 5)"
  [ "$reads" -ge $((pages * 9 / 10)) ] || wrong "$1 makes $reads reads of a file of $pages pages"
}

for version in 1 2; do
  makes $version
  rm -f trace
  FAIL_CALL=0 FAIL_TRACE=$work/trace LD_PRELOAD=$work/fail.so "$program" script t < script > replies 2> told || wrong "a script of version $version ends by $?"
  [ "$(of 62) 62 $(of 61) 61 $(of none) none $(of '0$') 0" = "$replies" ] || wrong "a script of version $version has other replies"
  is_read_once "a script of version $version"
done

# runs SCRIPT [OPTION..]: the script over the file, whose reads are then in the trace
runs() {
  rm -f trace
  FAIL_CALL=0 FAIL_TRACE=$work/trace LD_PRELOAD=$work/fail.so "$program" "${@:2}" script t < "$1" > replies 2> told || wrong "${*:2} script < $1 ends by $?"
}

# Of a key that is fetched between all others the pages stay, also where there is room for eight pages alone.
line 'F ' 1 > hot
for ((i = 1; i <= pairs; i++)); do line 'F ' $i; line 'F ' 1; done > between
runs hot --cache 8
grep ^read trace | sort > hot.reads
[ -s hot.reads ] || wrong "a fetch reads nothing"
runs between --cache 8
[ -z "$(again | comm -12 - hot.reads)" ] || wrong "pages that are used again and again are read again: $(again | comm -12 - hot.reads)"
[ -n "$(again)" ] || wrong "with --cache 8 all pages are kept"
[ "$(grep -c 62 replies)" = $((stored + pairs)) ] || wrong "other replies with --cache 8"

# A file of more pages than are kept where nobody asks for a number.
for ((i = 1; i <= many; i++)); do line '' $i 61; done > load
makes 2
{ for ((i = 1; i <= many; i++)); do line 'F ' $i; done; for ((i = 1; i <= many; i++)); do line 'F ' $i; done; } > twice
runs twice
[ -n "$(again)" ] || wrong "a file of $(($(stat -c %s t.db) / 2048)) pages is kept without --cache"
runs twice --cache 65536
is_read_once "a script with --cache 65536"
[ "$(grep -c "^$(printf '61%.0s' {1..90})$" replies)" = $((2 * many)) ] || wrong "other replies with --cache 65536"
for ((i = 1; i <= pairs; i++)); do line '' $i 61; done > load

has_library
cat > user.c <<'END'
#include <fcntl.h>
#include <stdlib.h>
#include <string.h>
#include "ndbm.h"

static datum key(unsigned i) {
    static unsigned char bytes[4];
    for (int k = 0; k < 4; k++) bytes[k] = (unsigned char)(i >> (24 - 8 * k));
    return (datum){bytes, 4};
}

int main(int count, char **words) {
    if (count != 5) return 2;
    unsigned pairs = (unsigned)atoi(words[1]), stored = (unsigned)atoi(words[2]), deleted = (unsigned)atoi(words[3]);
    dbmx_how how = {.options = DBMX_PAGES, .pages = (unsigned)atoi(words[4])};
    char content[90];
    DBM *db = how.pages ? dbmx_open("t", O_RDWR, 0, &how, NULL) : dbm_open("t", O_RDWR, 0);
    if (!db) return 3;
    memset(content, 'b', sizeof content);
    for (unsigned i = 1; i <= stored; i++)
        if (dbm_store(db, key(i), (datum){content, sizeof content}, DBM_REPLACE)) return 4;
    for (unsigned i = stored + 1; i <= deleted; i++)
        if (dbm_delete(db, key(i))) return 5;
    for (unsigned i = 1; i <= pairs; i++) {
        datum found = dbm_fetch(db, key(i));
        int is_there = i <= stored || deleted < i;
        if (!found.dptr != !is_there) return 6;
        if (is_there && (found.dsize != sizeof content || *(char *)found.dptr != (i <= stored ? 'b' : 'a'))) return 7;
    }
    dbm_close(db);
    return 0;
}
END
cc -std=c11 -D_GNU_SOURCE "${strict[@]}" -O1 -I"$top/c" -o user user.c "$library/libndbm.a" -pthread || exit 1
# uses PAGES: the library's program, which is asked to keep so many pages, or for no number
uses() {
  rm -f trace
  FAIL_CALL=0 FAIL_TRACE=$work/trace LD_PRELOAD=$work/fail.so ./user $pairs $stored $deleted "$1" 2> told || wrong "the library's program ends by $?"
}

for version in 1 2; do
  makes $version
  uses 0
  is_read_once "the library, of version $version,"
done
makes 2
uses 8
[ -n "$(again)" ] || wrong "the library keeps all pages where it is asked for 8"
makes 2
uses 300
is_read_once "the library, which is asked to keep 300 pages,"
exit $bad
