#!/usr/bin/env bash
# The program's words, statuses, output and messages.
set -u
top=$(cd "$(dirname "$0")/.." && pwd)
work=$(mktemp -d)
trap 'rm -rf "$work"' EXIT
bad=0

# expects STATUS OUTPUT MESSAGE INPUT WORDS.. ('*' as a message: any that isn't empty)
expects() {
  local status=$1 output=$2 message=$3 input=$4 got=0
  shift 4
  printf -- "$input" | "$top/dbmtool" "$@" > "$work/out" 2> "$work/err" || got=$?
  printf -- "$output" > "$work/wanted"
  if [ "$got" != "$status" ] || { [ "$output" != '*' ] && ! cmp -s "$work/out" "$work/wanted"; }; then
    echo "dbmtool $*: status $got"; cat "$work/out"; bad=1
  fi
  if [ "$message" = '*' ]; then
    [ -s "$work/err" ] || { echo "dbmtool $*: no message"; bad=1; }
  elif [ "$(cat "$work/err")" != "$message" ]; then
    echo "dbmtool $*:"; cat "$work/err"; bad=1
  fi
}

expects 0 '0\n76\n' '' 'S 6b 76\nF 6b\n' script --memory 100
expects 0 '0\n76\n1\n76\n0\n-1 absent\nnone\n' '' 'S 6b 76\nF 6b\nI 6b 77\nF 6b\nD 6b\nD 6b\nF 6b\n' script --memory 100
expects 0 '0\n.\nnone\n' '' 'S . .\nF .\nF 00' script --memory 100
expects 0 '-1 line\n-1 line\n-1 line\n-1 line\nnone\n' '' 'Q\nS 6\nF 6b 6b\n\nF 6B\n' script --memory 100
expects 0 '0\n-1 fault 6\n1\n0\n02\n' '' 'S 61 01\nS 62 01\nI 61 03\nS 61 02\nF 61\n' script --memory 1
expects 0 '-1 fault 7\nend\nend\n7\n' '' 'N\n1\nN\nE\n' script --memory 100
expects 0 '0\n61\n01\n1\nend\nend\n' '' 'S 61 01\n1\nF 61\nI 61 02\nN\nN\n' script --memory 100
expects 0 '0\n61\n0\nend\n61\n' '' 'S 61 01\n1\nS 61 02\nN\n1\n' script --memory 100
expects 0 '0\n1\na\\tb\n0\n\nnone\n' '' 'S\tk\ta\\tb\nI\tk\tc\nF\tk\nS\tl\t\nF\tl\nF\tm\n' script --text --memory 100
expects 0 '0\nk\nend\n0\n-1 absent\nend\n0\n0\n' '' 'S\tk\tv\n1\nN\nD\tk\nD\tk\n1\nE\nC\n' script --memory 100 --text
expects 0 '0\n\\x6eone\n-1 fault 6\n6\n' '' 'S\tk\tnone\nF\tk\nS\tl\tend\nE' script --v2 --text --memory 1
expects 0 '-1 line\n-1 line\n-1 line\n-1 line\n-1 line\n-1 line\nnone\n' '' 'Q\nS\tk\nF\tk\tk\n\nF k\nF\t\\q\nF\tk\n' script --text --memory 100
expects 2 '' 'dbmtool: fault 13' 'S\tk\tv\n' script --text --memory 0
expects 3 '' 'dbmtool: script needs FILE or --memory' '' script --text
expects 0 '' '' '' script --memory 1000000
expects 2 '' 'dbmtool: fault 13' 'S 6b 76\n' script --memory 0
expects 2 '' 'dbmtool: fault 13' 'S 6b 76\n' script --memory 1000001
expects 3 '' '*' '' script --memory 4294967296
expects 3 '' '*' '' script --memory many
expects 3 '' '*' '' script
expects 3 '' '*' '' store t
expects 3 '' '*' ''
expects 0 '*' '' '' --help

long=$(head -c 4050 /dev/zero | tr '\0' '0')
expects 0 "0\n$long\n-1 fault 5\n5\n0\n5\n0\n0\n" '' "S 6b $long\nF 6b\nS 6b ${long}00\nE\nD 6b\nE\nC\nE\n" script --memory 100

# a pass gives both keys, in either order
for order in '61\n62' '62\n61'; do
  printf '0\n0\n%b\nend\n' "$order" > "$work/$order.pass"
done
printf 'S 61 01\nS 62 02\n1\nN\nN\n' | "$top/dbmtool" script --memory 100 > "$work/pass"
cmp -s "$work/pass" "$work/61\n62.pass" || cmp -s "$work/pass" "$work/62\n61.pass" || { echo "a pass over two keys:"; cat "$work/pass"; bad=1; }

# a full device
if [ -e /dev/full ]; then
  got=0
  printf 'F 6b\n' | "$top/dbmtool" script --memory 100 > /dev/full 2> "$work/err" || got=$?
  [ "$got" = 2 ] && [ "$(cat "$work/err")" = 'dbmtool: write' ] || { echo "/dev/full: status $got"; cat "$work/err"; bad=1; }
fi
exit $bad
