#!/usr/bin/env bash
# A pass over 300 buckets of more than one page each gives each key once, and one over eight keys in an order worked out by hand. Of a pass on
# a device of which a read fails, the key behind it comes at the next call. A page that was read is answered from memory where each further
# read fails.
. "$(dirname "$0")/common"
preloadable fail

# Contents of 500 bytes, so that few pairs fit a page.
long=$(printf '07%.0s' $(seq 500))
"$program" create many --limit 3000 || exit 1
for ((n = 0; n < 2400; n++)); do printf '%04x\n' "$n"; done > keys
sed "s/$/ $long/" keys | "$program" load many || exit 1
[ "$("$program" stat many | sed -n 's/^buckets //p')" = 300 ] || wrong 'there are not 300 buckets'
[ "$("$program" stat many | sed -n 's/^pages //p')" -gt 600 ] || wrong 'there are not more overflow pages than buckets'
{ echo 1; for ((n = 1; n < 2402; n++)); do echo N; done; } | "$program" script many > given
[ "$(tail -n 2 given)" = $'end\nend' ] && head -n 2400 given | sort | cmp -s - keys || wrong 'a pass does not give each of 2,400 keys once'

# Eight keys of one bucket, on three pages, by the reversed bits of their hashes (FNV-1a, 32 bits), then by their bytes. Worked out apart from
# this repository: `a` 34943027, `c` 4a343067, `altarage` and `zinke` 6d1b0627, no bytes a3b93881, `b` a7b430e7, `costarring` and `liquid` b955b27a.
"$program" create order --limit 100 || exit 1
for key in 6c6971756964 . 7a696e6b65 62 616c746172616765 61 636f7374617272696e67 63; do echo "$key $long"; done | "$program" load order
[ "$("$program" stat order | cut -d' ' -f2 | xargs)" = '8 100 1 0 0 6 0' ] || wrong 'eight keys are not on three pages of one bucket'
given=$({ echo 1; for _ in 1 2 3 4 5 6 7 8; do echo N; done; } | "$program" script order | xargs)
[ "$given" = '61 63 616c746172616765 7a696e6b65 . 62 636f7374617272696e67 6c6971756964 end' ] || wrong "eight keys in another order: $given"
# The last one given need not be there any more, and may be new: the reversed hash of `f` is 99e430c7.
given=$(tr / '\n' <<< '1/D 61/N/N/N/S 66 ./N/D 66/N/N/D 62/N/N/N' | "$program" script order | xargs)
[ "$given" = '61 0 63 616c746172616765 7a696e6b65 0 66 0 . 62 0 636f7374617272696e67 6c6971756964 end' ] || wrong "a pass with changes gives $given"

# A second segment: page 0, the meta page, two segments and a page for each of 509 buckets. Then the odd keys are deleted.
"$program" create segments --limit 5000 || exit 1
for ((n = 0; n < 4065; n++)); do printf '%04x\n' "$n"; done > keys
sed 's/.*/S & ./' keys | "$program" script segments > replies
[ "$(sort replies | uniq -c | xargs)" = '4065 0' ] || wrong 'a store is refused'
# counted NUMBERS: what stat tells
counted() { [ "$("$program" stat segments | cut -d' ' -f2 | xargs)" = "$1" ] || wrong "there are other numbers than $1"; }
counted '4065 5000 509 8 253 513 0'
{ sed 's/^/F /' keys; echo 'F 0fe1'; } | "$program" script segments | uniq -c | sed 's/^ *//' > replies
[ "$(cat replies)" = $'4065 .\n1 none' ] || wrong 'not each key of two segments is there, and no other'
sed -n 's/.*[13579bdf]$/D &/p' keys | "$program" script segments > replies
[ "$(sort replies | uniq -c | xargs)" = '2032 0' ] || wrong 'an odd key was absent'
counted '2033 5000 509 8 253 513 0'
sed 's/^/F /' keys | "$program" script segments | sort | uniq -c | xargs > replies
[ "$(cat replies)" = '2033 . 2032 none' ] || wrong 'other keys than the even ones are there'
sed -n 's/.*[02468ace]$/F &/p' keys | "$program" script segments | uniq -c | xargs > replies
[ "$(cat replies)" = '2033 .' ] || wrong 'an even key is lost'

# The calls of the system of an opening: the commit sector, read twice and written back; a sync, and reads of the commit sector and of the meta page. A
# firstkey and a fetch read the segment page and a head page, and what comes behind in the pass the other head page.
opening=6
"$program" create nine --limit 100 || exit 1
for digit in 1 2 3 4 5 6 7 8 9; do echo "6$digit 0$digit"; done | "$program" load nine || exit 1
# fails_at CALL HOW LINES REPLIES: a script on the nine pairs with that call failed so; `/` stands for the end of a line
fails_at() {
  local given
  given=$(tr / '\n' <<< "$3" | FAIL_CALL=$1 FAIL_HOW=$2 LD_PRELOAD=./fail.so "$program" script nine 2> /dev/null | tr '\n' /)
  [ "$given" = "$4" ] || wrong "call $1 fails ($2): '$3' is answered '$given'"
}
fails_at $((opening + 3)) once '1/N/N/N/N/N/N/E' '65/69/61/63/67/-1 fault 2/66/2/'
fails_at $((opening + 2)) from 'F 61' '-1 fault 2/'
fails_at $((opening + 3)) from 'F 61/F 61/F 63/F 62/F 61' '01/01/03/-1 fault 2/01/'
exit $bad
