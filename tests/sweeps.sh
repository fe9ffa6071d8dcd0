#!/usr/bin/env bash
# Passes over a table that changes: each third key of a thousand deleted as it comes, ten stores between any two of a thousand keys, so
# that buckets are split, and keys of one hash, of no bytes and of 2,026 bytes deleted as the last one given. A key that is there
# throughout comes once, none twice, and all in the order of their hashes' bits from the lowest up, then of their bytes.
. "$(dirname "$0")/common"
cc -O1 -o ranks "$top/tests/ranks.c" || exit 1
export LC_ALL=C

wrong() { echo "$1"; exit 1; }
# starts KEYS: a script on a new file with these keys, in a file of lines
starts() {
  rm -f t.db
  "$program" create t --limit 20000 && sed 's/$/ 01/' "$1" | "$program" load t || exit 1
  coproc script { exec "$program" script t; }
}
# asks LINE: its reply, in $reply
asks() { echo "$1" >&"${script[1]}"; read -r -t 20 -u "${script[0]}" reply || wrong "no reply to '$1'"; }
# answered REPLY LINE: that reply comes
answered() { asks "$2"; [ "$reply" = "$1" ] || wrong "'$2': '$reply', and not '$1'"; }
# ends: the script ends well
ends() { local process=$script_PID; eval "exec ${script[1]}>&-"; wait "$process" || wrong 'the script failed'; }
# ordered FILE: its keys in the order of a pass; a key of the same rank and fewer bytes comes first
ordered() { ./ranks < "$1" | sed 's/ \.$/ /' | sort | sed 's/^[^ ]* $/&./; s/^[^ ]* //'; }

seq 1 1000 | while read -r n; do printf '%08x\n' $((n * 2654435761 % 4294967296)); done > keys
ordered keys > keys.ordered

# Each third key is deleted as it comes: each comes once, and what is left is the others.
starts keys
: > given; : > left
asks 1
for ((n = 1; ; n++)); do
  [ "$reply" != end ] || break
  key=$reply
  echo "$key" >> given
  if ((n % 3 == 0)); then answered 0 "D $key"; else echo "$key" >> left; fi
  asks N
done
answered end N
ends
cmp -s given keys.ordered || wrong 'a sweep does not give each key once, in order'
[ "$("$program" list t)" = "$(sort left)" ] || wrong 'what is left of a sweep is not the others'

# Ten stores between any two: each key that was there at first comes once, and no key twice.
starts keys
: > given
asks 1
for ((n = 0; ; n++)); do
  [ "$reply" != end ] || break
  echo "$reply" >> given
  if ((n < 1000)); then
    for ((i = 0; i < 10; i++)); do printf 'S %08x%04x 02\n' $((n * 10 + i)) 7 >&"${script[1]}"; done
    for ((i = 0; i < 10; i++)); do read -r -t 20 -u "${script[0]}" reply && [ "$reply" = 0 ] || wrong 'a store between is not done'; done
  fi
  asks N
done
ends
[ "$(./ranks < given | sort -u)" = "$(./ranks < given)" ] || wrong 'a pass over a growing table gives a key twice, or out of order'
[ "$(grep -cxFf keys given)" = 1000 ] || wrong 'a pass over a growing table leaves a lasting key out'
[ "$(wc -l < given)" -gt 1500 ] || wrong 'no key of the stores between came'
[ "$("$program" stat t | sed -n 's/buckets //p')" -gt 1000 ] || wrong 'no bucket was split meanwhile'

# Keys of one hash (costarring and liquid, altarage and zinke), of no bytes, and of 2,026 bytes, each deleted as the last one given.
long() { head -c 2025 /dev/zero | tr '\0' "$1" | od -An -v -tx1 | tr -d ' \n'; }
{ for word in costarring liquid altarage zinke; do printf %s "$word" | od -An -tx1 | tr -d ' \n'; echo; done; echo .; } > few
for end in 00 01 02 03; do echo "$(long k)$end"; done > longest
rm -f t.db
"$program" create t --limit 100 || exit 1
{ sed 's/$/ ./' longest; sed 's/$/ 01/' few; } | "$program" load t || exit 1
cat few longest > all
ordered all > all.ordered
coproc script { exec "$program" script t; }
asks 1
while [ "$reply" != end ]; do
  echo "$reply"
  answered 0 "D $reply"
  asks N
done > given
ends
cmp -s given all.ordered || wrong 'keys of one hash, of no bytes or of 2,026 bytes do not come once, in order'
[ "$("$program" verify t)" = 0 ] || wrong 'a swept table is not empty'
