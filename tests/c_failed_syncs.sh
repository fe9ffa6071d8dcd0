#!/usr/bin/env bash
# As tests/failed_syncs.sh, with calls of the C library, which carries out what its calls list. Some of them bring the pages of the last
# change home.
. "$(dirname "$0")/common"
has_library
. "$top/tests/lossy"
cc -std=c11 -D_GNU_SOURCE "${strict[@]}" -O1 -I"$top/c" -o line_calls "$top/tests/line_calls.c" "$library/libndbm.a" || exit 1

user=(./line_calls)
changes 'S 69 09' Y 'S 61 aa' 'D 62' Y 'S 6a 0a' > row
each_sync row first row 8
each_sync row_stopped first row 8 failed
each_sync one first one 4
each_sync one_stopped first one 4 failed
killed one_killed first one 1
each_sync logged logged row 8
each_sync logged_stopped logged row 8 failed
killed logged_killed logged row 5
each_sync far far far_row 8
judged
exit $bad
