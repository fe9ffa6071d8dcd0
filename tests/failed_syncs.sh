#!/usr/bin/env bash
# Scripts of which a sync fails, on a disk that then loses what it had to write, while that is still read and the next sync answers Ok: each
# sync of changes in a row and of their closing; each of an opening that settles what a killed program has left; each of a program that is
# ended by it at once; one behind another. The file is opened again and changed, and a power cut behind any write, sync or reply since the
# failed sync leaves what was acknowledged, as tests/lossy.py judges. So it does where the file is opened behind a cut, cut and opened
# again. On a disk that keeps for the next sync what a failed one had to write, the same logs are judged too. All of that is
# so of a file whose commits are in a log.
. "$(dirname "$0")/common"
. "$top/tests/lossy"

user=("$program" script)
each_sync row first row 8
each_sync row_stopped first row 8 failed
each_sync one first one 4
each_sync one_stopped first one 4 failed
killed row_killed first row 7
killed one_killed first one 1
twice twice first
each_sync logged logged row 5
each_sync logged_stopped logged row 5 failed
killed logged_killed logged row 5
twice logged_twice logged 5
each_sync far far far_row 8
each_sync emptied emptied deletes 8
judged
exit $bad
