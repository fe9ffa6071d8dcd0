#!/usr/bin/env bash
# Scripts, loads, dumps, lists and whole commands on real files, worked out by hand, in tables: in a text, `/` stands for the end of a line. A row is
# tried in both versions of the format, and one that begins with `v1` or `v2` in that one alone.
. "$(dirname "$0")/common"
rows=0

# runs WORD..: over the input in the file `in`; what it prints is in the files out and err, its status in $status
runs() { "$program" "$@" < in > out 2> err; status=$?; }

# lines TEXT: its bytes
lines() { printf '%s' "$1" | tr '/' '\n'; }

# says FILE TEXT: whether the file holds exactly this
says() { lines "$2" | cmp -s - "$1"; }

# told ROW: a row of a table that isn't so
told() { wrong "row $1, in $version: status $status"; head -c 300 out err; }

# option: what says $version where a database is made
option() { [ "$version" = v1 ] || echo --v2; }

# repeated TEXT: it, with each `09*3` in it replaced by as many digits in pairs, `090909`
repeated() {
  local text=$1 many
  while [[ $text =~ ([0-9a-f]{2})\*([0-9]+) ]]; do
    many=${BASH_REMATCH[0]}
    printf '%s' "${text%%"$many"*}"
    text=${text#*"$many"}
    # shellcheck disable=SC2046,SC2059
    printf "${many%\**}%.0s" $(seq "${many#*\*}")
  done
  printf '%s' "$text"
}

# fields ROW: the versions that it is tried in in $versions, its words in front of the first bracket in $before, the texts in brackets in $texts, what
# stands behind in $behind
fields() {
  local rest=$1
  versions='v1 v2'
  if [[ $rest = v[12]' '* ]]; then versions=${rest:0:2} rest=${rest:3}; fi
  read -ra before <<< "$(repeated "${rest%%[*}")"
  rest=${rest#"${rest%%[*}"} texts=()
  while [ "${rest:0:1}" = '[' ]; do
    rest=${rest:1}
    texts+=("$(repeated "${rest%%]*}")")
    rest=${rest#*]} rest=${rest# }
  done
  behind=$rest
  rows=$((rows + 1))
}

# LIMIT [script] [answer]
while IFS= read -r row; do
  fields "$row"
  lines "${texts[0]}" > in
  for version in $versions; do
    # shellcheck disable=SC2046
    runs script --memory "${before[0]}" $(option)
    [ "$status" = 0 ] && says out "${texts[1]}" && [ ! -s err ] || told "$row"
  done
done <<'ROWS'
100 [S 6b 76/F 6b/] [0/76/]
100 [S . ./F ./F 00/] [0/./none/]
1 [S 61 01/S 62 01/S 61 02/F 61/] [0/-1 fault 6/0/02/]
100 [Q/S 6/F 6b 6b//F 6B/] [-1 line/-1 line/-1 line/-1 line/none/]
100 [S 6B fF/F 6b] [0/ff/]
100 [I 61 01/I 61 02/F 61/D 61/D 61/F 61/] [0/1/01/0/-1 absent/none/]
100 [N/1/N/E/] [-1 fault 7/end/end/7/]
100 [S 61 01/1/F 61/I 61 02/N/N/] [0/61/01/1/end/end/]
100 [S 61 01/1/S 61 02/N/1/] [0/61/0/end/61/]
100 [S 61 01/S 62 02/1/N/N/] [0/0/61/62/end/]
100 [S 64 00/S 63 00/S 62 00/S 61 00/1/N/N/N/N/] [0/0/0/0/61/63/62/64/end/]
100 [S 64 00/S 63 00/S 62 00/S 61 00/1/D 63/N/S 63 00/N/N/] [0/0/0/0/61/0/62/0/64/end/]
100 [S 61 00/S 62 00/S 63 00/S 64 00/1/S 65 00/S 66 00/S 67 00/S 68 00/S 69 00/N/N/N/N/N/N/N/1/N/N/N/N/N/N/N/N/N/] [0/0/0/0/61/0/0/0/0/0/63/67/66/62/64/68/end/65/69/61/63/67/66/62/64/68/end/]
100 [1/S 61 00/N/N/] [end/0/61/end/]
1 [S 61 01/S 62 01/N/E/C/E/] [0/-1 fault 6/-1 fault 7/6/0/0/]
100 [S . 01/1/D ./E/] [0/./0/0/]
100 [1 /N 61/e/C/I 61/D 61 62/ 1/] [-1 line/-1 line/-1 line/0/-1 line/-1 line/-1 line/]
100 [F  61/F 61 /S 61 01 /s 61 01/F 6g/] [-1 line/-1 line/-1 line/-1 line/-1 line/]
100 [] []
2 [S 61 01*2025/S 62 02*2025/S 62 03*2025/D 61/S 61 04*2025/D 62/] [0/0/0/0/0/0/]
v1 100 [S 6b 09*2026/F 6b/E/] [-1 fault 5/none/5/]
v2 100 [S 6b 09*2026/F 6b/E/] [0/09*2026/0/]
v1 1 [S 61 01/S 62 09*2026/S 61 09*2026/I 61 09*2026/F 61/] [0/-1 fault 5/-1 fault 5/-1 fault 5/01/]
v2 1 [S 61 01/S 62 09*2026/S 61 09*2026/I 61 09*2026/F 61/] [0/-1 fault 6/0/1/09*2026/]
v1 100 [S 6b*1023 01*1003/S 6b*1023 02*1004/F 6b*1023/S 6b*1024 01*1002/S 6b*1024 02*1003/F 6b*1024/] [0/-1 fault 5/01*1003/0/-1 fault 5/01*1002/]
v2 100 [S 6b*1023 01*1003/S 6b*1023 02*1004/F 6b*1023/S 6b*1024 01*1002/S 6b*1024 02*1003/F 6b*1024/] [0/0/02*1004/0/-1 fault 5/01*1002/]
v2 100 [S 6b*1023 01*65535/F 6b*1023/S 6b*1023 01*65536/I 6b*1023 ./D 6b*1023/F 6b*1023/] [0/01*65535/-1 fault 5/1/0/none/]
v2 100 [I 61 07*3000/I 61 08/I 61 09*65536/F 61/E/] [0/1/-1 fault 5/07*3000/5/]
v2 100 [S 61 01/S 61 07*2032/F 61/S 61 02/F 61/S 61 07*2033/S 61 08*4065/F 61/S 61 09*2031/F 61/] [0/0/07*2032/0/02/0/0/08*4065/0/09*2031/]
v2 100 [S . 01*2026/S . 01*2027/F ./1/N/D ./D ./F ./] [0/0/01*2027/./end/0/-1 absent/none/]
v2 1 [S 61 01*65535/S 61 02*65535/S 61 03/S 61 04*65535/D 61/S 62 05*65535/F 62/F 61/] [0/0/0/0/0/0/05*65535/none/]
v2 100 [S 64 00*2026/S 63 00*2026/S 62 00*2026/S 61 00*2026/1/N/N/N/N/] [0/0/0/0/61/63/62/64/end/]
v2 100 [S 64 00*2026/S 63 00*2026/S 62 00/S 61 00*4065/1/D 63/N/S 63 00*2026/S 64 00/N/N/] [0/0/0/0/61/0/62/0/0/64/end/]
v2 9 [S 61 01*2026/S 62 02*2033/S 63 03*2026/S 64 04*4065/S 65 05/S 66 06/S 67 07/S 68 08*2026/S 69 09*2026/F 61/F 62/F 64/F 65/F 68/F 69] [0/0/0/0/0/0/0/0/0/01*2026/02*2033/04*4065/05/08*2026/09*2026/]
ROWS

# LIMIT [lines to load] [faults] [dump] STATUS, whatever number of lines shares a commit
while IFS= read -r row; do
  fields "$row"
  lines "${texts[0]}" > in
  for version in $versions; do
    for group in '' '--group 1' '--group 2' '--group 100000'; do
      # shellcheck disable=SC2046
      rm -f t.db; "$program" create t --limit "${before[0]}" $(option) || wrong "no file was made"
      # shellcheck disable=SC2086
      runs load t $group
      [ "$status" = "$behind" ] && [ ! -s out ] && says err "${texts[1]}" || told "$row"
      runs dump t
      says out "${texts[2]}" || told "$row"
    done
  done
done <<'ROWS'
100 [61 FF/62 ./zz/] [dbmtool: line 3/] [61 ff/62 ./] 2
100 [] [] [] 0
100 [62 02/61 01] [] [61 01/62 02/] 0
100 [zz/61 01/] [dbmtool: line 1/] [] 2
1 [61 01/62 02/61 03/] [dbmtool: fault 6/] [61 01/] 2
1 [61 01/61 aBcD/] [] [61 abcd/] 0
3 [61 01/62 02/63 03/64 04/65 05/] [dbmtool: fault 6/] [61 01/62 02/63 03/] 2
v1 100 [61 01/62 02/6b 09*2026/6c 01/] [dbmtool: fault 5/] [61 01/62 02/] 2
v2 100 [61 01/62 02/6b 09*2026/6c 01/] [] [61 01/62 02/6b 09*2026/6c 01/] 0
v2 100 [61 01/62 02/6b 09*65536/6c 01/] [dbmtool: fault 5/] [61 01/62 02/] 2
v2 100 [61 01/62 02/6b*1024 09*1003/6c 01/] [dbmtool: fault 5/] [61 01/62 02/] 2
v2 100 [62 01*4065/6b*1023 02*65535/61 01/6c 03*2033/6c 04*2033/62 02] [] [61 01/62 02/6b*1023 02*65535/6c 04*2033/] 0
v2 1 [61 01/61 07*2033/62 08*2033/61 09*2033/] [dbmtool: fault 6/] [61 07*2033/] 2
v2 100 [61 07*2033/61 08*2033 ] [dbmtool: line 2/] [61 07*2033/] 2
100 [61 01//62 02/] [dbmtool: line 2/] [61 01/] 2
100 [61] [dbmtool: line 1/] [] 2
100 [61 ] [dbmtool: line 1/] [] 2
100 [ 61 01] [dbmtool: line 1/] [] 2
100 [61 01 ] [dbmtool: line 1/] [] 2
100 [61  01] [dbmtool: line 1/] [] 2
100 [61 01 02] [dbmtool: line 1/] [] 2
100 [6 01] [dbmtool: line 1/] [] 2
100 [61 0g] [dbmtool: line 1/] [] 2
100 [61	01] [dbmtool: line 1/] [] 2
ROWS
printf '61 01\r\n' > in
runs load t; [ "$status" = 2 ] && says err 'dbmtool: line 1/' || wrong "a line that ends as on Windows is loaded"

# Lines at the greatest length, which is 139,264 bytes, and above it: so many bytes of zero behind these words.
zeros=$(printf '%0139266d' 0)
long() { printf '%s%s\n' "$1" "${zeros:0:$((2 * $2))}"; }
# answers_long WORDS BYTES ANSWER [ANSWER]: the second answer is that of version 2, where it is another
answers_long() {
  { long "$1" "$2"; echo 'F 61'; } > in
  version=v1; runs script --memory 100
  [ "$status" = 0 ] && says out "$3" || wrong "a script's line of '$1' and $2 bytes"
  version=v2; runs script --memory 100 --v2
  [ "$status" = 0 ] && says out "${4-$3}" || wrong "a script's line of '$1' and $2 bytes, in version 2"
}
answers_long 'S 6b ' 2025 '0/none/'
answers_long 'S 6b ' 2026 '-1 fault 5/none/' '0/none/'
answers_long 'S 6b ' 65535 '-1 fault 5/none/' '0/none/'
answers_long 'S 6b ' 65536 '-1 fault 5/none/'
answers_long 'S . ' 69630 '-1 fault 5/none/'
answers_long 'S 6b ' 69630 '-1 line/none/'
# text_answers_long FIELD ANSWER: the same of a line in the text form, whose greatest length is 266,240 bytes
text_answers_long() {
  printf 'S\tk\t%s\nF\tm\n' "$1" > in
  version=v2; runs script --text --memory 100 --v2
  [ "$status" = 0 ] && says out "$2" || wrong "a script's line of ${#1} bytes of text"
}
plain=$(printf '%0266237d' 0)
text_answers_long "${plain:0:65535}" '0/none/'
text_answers_long "$(printf '\\x00%.0s' $(seq 65535))" '0/none/'
text_answers_long "${plain:0:65536}" '-1 fault 5/none/'
text_answers_long "${plain:0:266236}" '-1 fault 5/none/'
text_answers_long "$plain" '-1 line/none/'
# loads_long WORDS BYTES FAULTS [FAULTS]: the second ones are those of version 2
loads_long() {
  long "$1" "$2" > in
  for group in 1 2; do
    rm -f t.db; "$program" create t --limit 100
    runs load t --group "$group"
    says err "$3" || wrong "a line to load of '$1' and $2 bytes"
    rm -f t.db; "$program" create t --limit 100 --v2
    runs load t --group "$group"
    says err "${4-$3}" || wrong "a line to load of '$1' and $2 bytes, in version 2"
  done
}
loads_long '6b ' 2025 ''
loads_long '6b ' 2026 'dbmtool: fault 5/' ''
loads_long '6b ' 65535 'dbmtool: fault 5/' ''
loads_long '6b ' 65536 'dbmtool: fault 5/'
loads_long '. ' 69631 'dbmtool: fault 5/'
loads_long '6b ' 69631 'dbmtool: line 1/'

# whole: each row of a table of commands in $version, one after another. A row is a command line [input] [output] [faults] STATUS.
whole() {
  local row
  rm -f ./*.db
  while IFS= read -r row; do
    fields "$row"
    [[ $versions = *$version* ]] || continue
    lines "${texts[0]}" > in
    # shellcheck disable=SC2046
    [ "${before[0]}" != create ] || before+=($(option))
    runs "${before[@]}"
    [ "$status" = "$behind" ] && says out "${texts[1]}" && says err "${texts[2]}" || told "$row"
  done < table
}
cat > table <<'ROWS'
create tool --limit 100 [] [] [] 0
list tool [] [] [] 0
dump tool [] [] [] 0
store tool k v [] [] [] 0
fetch tool k [] [v/] [] 0
insert tool k w [] [] [] 1
fetch tool 6B -x [] [76/] [] 0
fetch -x tool 6b [] [76/] [] 0
insert tool -x 61 02 [] [] [] 0
store -x tool 61 03 [] [] [] 0
fetch tool 61 -x [] [03/] [] 0
delete -x tool 61 [] [] [] 0
fetch tool a [] [] [] 1
list tool [] [6b/] [] 0
dump tool [] [6b 76/] [] 0
delete tool k [] [] [] 0
delete tool k [] [] [] 1
fetch tool 6 -x [] [] [dbmtool: not hex/] 3
create tool [] [] [dbmtool: fault 15/] 2
script [] [] [dbmtool: script needs FILE or --memory/] 3
script tool --memory 5 [] [] [dbmtool: script needs FILE or --memory/] 3
script --v2 [] [] [dbmtool: script needs FILE or --memory/] 3
script tool --v2 [] [] [dbmtool: --v2 needs --memory/] 3
rehearse tool --v2 [] [] [dbmtool: --v2 needs --memory/] 3
script tool [S 6b 76/F 6b/I 6b 77/Q/D 6b/E/] [0/76/1/-1 line/0/0/] [] 0
insert tool 00 00 -x [] [] [] 0
script tool [I . ./] [0/] [] 0
dump tool [] [. ./00 00/] [] 0
list tool [] [./00/] [] 0
create nine --limit 0 [] [] [dbmtool: fault 13/] 2
create nine --limit=100 [] [] [] 0
load nine [61 01/62 02/63 03/64 04/65 05/66 06/67 07/68 08/69 09/] [] [] 0
stat nine [] [pairs 9/limit 100/buckets 2/level 1/split 0/pages 5/free 0/] [] 0
verify nine [] [9/] [] 0
load nine [61 FF/62 ./zz/63 00/] [] [dbmtool: line 3/] 2
dump nine [] [61 ff/62 ./63 03/64 04/65 05/66 06/67 07/68 08/69 09/] [] 0
create t2 --limit 4294967295 [] [] [dbmtool: fault 13/] 2
create seven --limit 7 [] [] [] 0
verify seven [] [0/] [] 0
stat seven [] [pairs 0/limit 7/buckets 1/level 0/split 0/pages 4/free 0/] [] 0
create --limit=1 one [] [] [] 0
stat one [] [pairs 0/limit 1/buckets 1/level 0/split 0/pages 4/free 0/] [] 0
create most [] [] [] 0
stat most [] [pairs 0/limit 1000000/buckets 1/level 0/split 0/pages 4/free 0/] [] 0
fetch absent x [] [] [dbmtool: fault 14/] 2
load absent [] [] [dbmtool: fault 14/] 2
verify absent [] [] [dbmtool: fault 14/] 2
upgrade absent [] [] [dbmtool: fault 14/] 2
create calls --limit 100 [] [] [] 0
script calls [I 61 01/I 61 02/F 61/S 61 02/F 61/] [0/1/01/0/02/] [] 0
stat calls [] [pairs 1/limit 100/buckets 1/level 0/split 0/pages 4/free 0/] [] 0
script calls [D 61/F 61/D 61/] [0/none/-1 absent/] [] 0
stat calls [] [pairs 0/limit 100/buckets 1/level 0/split 0/pages 4/free 0/] [] 0
script calls [F ./S . ./S 61 ./F ./S . 01/F ./D ./F ./] [none/0/0/./0/01/0/none/] [] 0
stat calls [] [pairs 1/limit 100/buckets 1/level 0/split 0/pages 4/free 0/] [] 0
create split --limit 100 [] [] [] 0
script split [S 61 9e/S 62 9d/S 63 9c/S 64 9b/S 65 9a/S 66 99/S 67 98/S 68 97/S 69 96/] [0/0/0/0/0/0/0/0/0/] [] 0
script split [S 6a 95/S 6b 94/S 6c 93/S 6d 92/S 6e 91/S 6f 90/S 70 8f/S 71 8e/] [0/0/0/0/0/0/0/0/] [] 0
stat split [] [pairs 17/limit 100/buckets 3/level 1/split 1/pages 6/free 0/] [] 0
script split [F 61/F 62/F 63/F 64/F 65/F 66/F 67/F 68/F 69/] [9e/9d/9c/9b/9a/99/98/97/96/] [] 0
script split [F 6a/F 6b/F 6c/F 6d/F 6e/F 6f/F 70/F 71/] [95/94/93/92/91/90/8f/8e/] [] 0
create full --limit 1 [] [] [] 0
script full [S 61 01/S 62 01/I 62 01/I 61 02/F 61/S 61 02/F 61/] [0/-1 fault 6/-1 fault 6/1/01/0/02/] [] 0
script full [D 61/S 62 01/F 61/F 62/] [0/0/none/01/] [] 0
create long --limit 1 [] [] [] 0
v1 script long [S 61 09*2026/S 61 09*2025/F 61/I 61 09*2026/S 09*2027 ./S 09*2026 ./] [-1 fault 5/0/09*2025/-1 fault 5/-1 fault 5/-1 fault 6/] [] 0
v2 script long [S 61 09*2026/S 61 09*2025/F 61/I 61 09*2026/S 09*2027 ./S 09*2026 ./] [0/0/09*2025/1/-1 fault 5/-1 fault 6/] [] 0
script long [F 09*3000/D 09*3000/D 61/S 09*2026 ./F 09*2026/] [none/-1 absent/0/0/./] [] 0
create two --limit 2 [] [] [] 0
script two [S 61 01*2025/S 62 02*2025/] [0/0/] [] 0
stat two [] [pairs 2/limit 2/buckets 1/level 0/split 0/pages 5/free 0/] [] 0
script two [S 62 03*2025/] [0/] [] 0
stat two [] [pairs 2/limit 2/buckets 1/level 0/split 0/pages 5/free 0/] [] 0
script two [D 61/S 61 04*2025/] [0/0/] [] 0
stat two [] [pairs 2/limit 2/buckets 1/level 0/split 0/pages 5/free 0/] [] 0
script two [D 62/] [0/] [] 0
stat two [] [pairs 1/limit 2/buckets 1/level 0/split 0/pages 5/free 1/] [] 0
create pass --limit 100 [] [] [] 0
load pass [61 01/62 02/63 03/64 04/65 05/66 06/67 07/68 08/69 09/] [] [] 0
script pass [1/N/N/N/N/N/N/N/N/N/] [65/69/61/63/67/66/62/64/68/end/] [] 0
script pass [1/F 62/D 7a/N/F 62/D 7a/N/F 62/D 7a/N/F 62/D 7a/N/F 62/D 7a/N/F 62/D 7a/N/F 62/D 7a/N/F 62/D 7a/N/N/N/1/] [65/02/-1 absent/69/02/-1 absent/61/02/-1 absent/63/02/-1 absent/67/02/-1 absent/66/02/-1 absent/62/02/-1 absent/64/02/-1 absent/68/end/end/65/] [] 0
v1 script pass [N/E/S 6b 00*2026/E/C/E/1/D 69/N/D 61/S 65 00/S 63 00/N/S 61 00/N/S 69 00/S 6b 00*2026/N/] [-1 fault 7/7/-1 fault 5/7/0/0/65/0/61/0/0/0/63/0/67/0/-1 fault 5/66/] [] 0
v2 script pass [N/E/S 6b 00*65536/E/C/E/1/D 69/N/D 61/S 65 00/S 63 00/N/S 61 00/N/S 69 00/S 6b 00*65536/N/] [-1 fault 7/7/-1 fault 5/7/0/0/65/0/61/0/0/0/63/0/67/0/-1 fault 5/66/] [] 0
script pass [D 61/D 63/D 65/D 67/D 69/1/N/N/N/N/] [0/0/0/0/0/66/62/64/68/end/] [] 0
create fields --limit 10 [] [] [] 0
load --text fields [sky	blue/a\tb	\\/\x00	/	z/] [] [] 0
dump fields [] [. 7a/00 ./610962 5c/736b79 626c7565/] [] 0
dump fields --text [] [	z/\x00	/a\tb	\\/sky	blue/] [] 0
load fields --text [one/] [] [dbmtool: line 1/] 2
load --text fields [a	b	c/] [] [dbmtool: line 1/] 2
load --text fields [k	v/k	\q/] [] [dbmtool: line 2/] 2
load --text fields [k	\x4/] [] [dbmtool: line 1/] 2
fetch fields k [] [v/] [] 0
create comments --limit 10 [] [] [] 0
load --text comments [# a	b//a	b/# /	z/#/c	# d//] [] [] 0
dump comments [] [. 7a/61 62/63 232064/] [] 0
load --text comments --group 1 [//#/a	1/# a	2/ # x	y] [] [] 0
dump comments [] [. 7a/20232078 79/61 31/63 232064/] [] 0
load --text comments [#//# only/] [] [] 0
load --text comments [/] [] [] 0
load --text comments --group 1 [#] [] [] 0
verify comments [] [4/] [] 0
load --text comments [#//k	v/##//bad/x	y/] [] [dbmtool: line 6/] 2
load --text comments --group 1 [/# bad/bad/x	y/] [] [dbmtool: line 3/] 2
fetch comments k [] [v/] [] 0
fetch comments x [] [] [] 1
load comments [61 02//62 03/] [] [dbmtool: line 2/] 2
load comments [# 62 03/] [] [dbmtool: line 1/] 2
load --replace --text comments [/# none/#	a/] [] [] 0
verify comments [] [0/] [] 0
script comments [S 2361 23/S 23 ./S . ./S 6123 2323/] [0/0/0/0/] [] 0
dump --text comments [] [	/\x23	/\x23a	#/a#	##/] [] 0
list --text comments [] [/#/#a/a#/] [] 0
load --replace --text comments [	/\x23	/\x23a	#/# a	b/] [] [] 0
dump comments [] [. ./23 ./2361 23/] [] 0
create talk --limit 100 [] [] [] 0
script --text talk [S	k	a\tb/F	k/I	k	c/I	l	/F	l/F	m/S		/F	/D	/D	l/D	l/1/N/E/C/] [0/a\tb/1/0//none/0//0/0/-1 absent/k/end/0/0/] [] 0
script --text talk [Q/q/S	k/F	k	/f	k/F k/F		k/S	\q	v/S	k	\x4/N	//F	k/] [-1 line/-1 line/-1 line/-1 line/-1 line/-1 line/-1 line/-1 line/-1 line/-1 line/-1 line/a\tb/] [] 0
script talk [F 6b/S 6b 00FF/] [610962/0/] [] 0
script --text talk [F	k/S	\x00	\\\n/I	\x00	/] [\x00\xff/0/1/] [] 0
script talk --text [F	\x6B/] [\x00\xff/] [] 0
script talk [F 00/D 00/] [5c0a/0/] [] 0
script --read --text talk [F	k/S	k	v/E/] [\x00\xff/-1 fault 4/4/] [] 0
script talk --text --read [1/N/D	k/] [k/end/-1 fault 4/] [] 0
create marked --limit 100 [] [] [] 0
script --text marked [S	none	end/S	end	-1 x/S	e	none/S	f	ends/S	g	-1/S	h	0/] [0/0/0/0/0/0/] [] 0
script --text marked [F	none/F	end/F	e/F	f/F	g/F	h/F	\x6eone/F	i/] [\x65nd/\x2d1 x/\x6eone/ends/-1/0/\x65nd/none/] [] 0
script marked [F 6e6f6e65/F 65/] [656e64/6e6f6e65/] [] 0
create keyed --limit 100 [] [] [] 0
script --text keyed [S	none	/1/N/D	\x6eone/1/S	-1 absent	/1/] [0/\x6eone/end/0/end/0/\x2d1 absent/] [] 0
script --memory 1 --text [S	k	v/F	k/S	l	v/E/] [0/v/-1 fault 6/6/] [] 0
script --text --memory 100 [S	k	aa*1014/F	k/] [-1 fault 5/none/] [] 0
script --v2 --text --memory 100 [S	k	aa*1014/F	k/] [0/aa*1014/] [] 0
create old --limit 100 [] [] [] 0
v1 insert -x old 61 07*2026 [] [] [dbmtool: fault 5/] 2
v1 load --text old [a	bb*1013/] [] [dbmtool: fault 5/] 2
upgrade old [] [] [] 0
insert -x old 61 07*2026 [] [] [] 0
fetch -x old 61 [] [07*2026/] [] 0
v2 create far --limit 100 [] [] [] 0
v2 insert -x far 61 07*2033 [] [] [] 0
v2 stat far [] [pairs 1/limit 100/buckets 1/level 0/split 0/pages 6/free 0/] [] 0
v2 fetch -x far 61 [] [07*2033/] [] 0
v2 insert far a x [] [] [] 1
v2 store far b aa*1500 [] [] [] 0
v2 list far [] [61/62/] [] 0
v2 list --text far [] [a/b/] [] 0
v2 dump far [] [61 07*2033/62 61*3000/] [] 0
v2 stat far [] [pairs 2/limit 100/buckets 1/level 0/split 0/pages 8/free 0/] [] 0
v2 store far a x [] [] [] 0
v2 stat far [] [pairs 2/limit 100/buckets 1/level 0/split 0/pages 8/free 2/] [] 0
v2 dump --text far [] [a	x/b	aa*1500/] [] 0
v2 store far a cc*1500 [] [] [] 0
v2 stat far [] [pairs 2/limit 100/buckets 1/level 0/split 0/pages 8/free 0/] [] 0
v2 delete far b [] [] [] 0
v2 fetch far b [] [] [] 1
v2 fetch far a [] [cc*1500/] [] 0
v2 stat far [] [pairs 1/limit 100/buckets 1/level 0/split 0/pages 8/free 2/] [] 0
v2 store -x far 6b*1023 01*65535 [] [] [] 0
v2 fetch -x far 6b*1023 [] [01*65535/] [] 0
v2 stat far [] [pairs 2/limit 100/buckets 1/level 0/split 0/pages 39/free 0/] [] 0
v2 store far c dd*32768 [] [] [dbmtool: fault 5/] 2
v2 verify far [] [2/] [] 0
v2 create lines --limit 100 [] [] [] 0
v2 load --text lines [k	aa*1014/e	\x00\t\n\\dd*1016/a	b/] [] [] 0
v2 dump lines [] [61 62/65 00090a5c64*2032/6b 61*2028/] [] 0
v2 dump --text lines [] [a	b/e	\x00\t\n\\dd*1016/k	aa*1014/] [] 0
v2 load --text lines [k	c/l	aa*32768/m	d/] [] [dbmtool: fault 5/] 2
v2 dump lines [] [61 62/65 00090a5c64*2032/6b 63/] [] 0
v2 script lines [F 65/I 65 ./D 65/F 65/S 61 09*4064/S 61 09*4065/F 61/] [00090a5c64*2032/1/0/none/0/0/09*4065/] [] 0
v2 stat lines [] [pairs 2/limit 100/buckets 1/level 0/split 0/pages 7/free 0/] [] 0
v2 create keys --limit 2 [] [] [] 0
v2 script keys [S 6b*1023 01*1004/S 6c*1023 02*1004/S 6d 01/] [0/0/-1 fault 6/] [] 0
v2 stat keys [] [pairs 2/limit 2/buckets 1/level 0/split 0/pages 7/free 0/] [] 0
v2 delete -x keys 6c*1023 [] [] [] 0
v2 stat keys [] [pairs 1/limit 2/buckets 1/level 0/split 0/pages 7/free 2/] [] 0
v2 fetch -x keys 6b*1023 [] [01*1004/] [] 0
v2 create apart --limit 100 [] [] [] 0
v2 load apart [61 01*2026/62 02*2033/63 03*2026/64 04*2026/65 05*2026/66 06*2026/67 07*2026/68 08*2026/69 09*2026/] [] [] 0
v2 stat apart [] [pairs 9/limit 100/buckets 2/level 1/split 0/pages 15/free 0/] [] 0
v2 script apart [1/N/N/N/N/N/N/N/N/N/F 62/F 61/F 69/] [65/69/61/63/67/66/62/64/68/end/02*2033/01*2026/09*2026/] [] 0
ROWS
version=v1; whole
version=v2; whole

# a content of no bytes
: > in
runs store tool k ''; [ "$status" = 0 ] || wrong "a content of no bytes isn't stored"
runs fetch tool k; [ "$status" = 0 ] && says out '/' || wrong "a content of no bytes isn't there"

printf hello > text.db
runs fetch text a; [ "$status" = 2 ] && says err 'dbmtool: fault 10/' || wrong "a file of something else is read"
runs create text; [ "$status" = 2 ] && says err 'dbmtool: fault 15/' || wrong "a file of something else is made anew"
[ "$(cat text.db)" = hello ] || wrong "a file of something else is changed"

# command line | what the line that tells of it names: each is usage
while IFS='|' read -r words named; do
  rows=$((rows + 1))
  # shellcheck disable=SC2086
  runs $words
  [ "$status" = 3 ] && [ ! -s out ] && grep -qF -- "$named" err || { wrong "dbmtool $words: status $status"; cat err; }
done <<'ROWS'
|dbmtool
check t|'check'
create|<FILE>
create t --limit 4294967296|'4294967296'
create t --limit many|'many'
create t --limit|--limit
create t --v2 --v2|--v2
create t --v2=1|--v2
store t k|<CONTENT>
store t k v w|'w'
store t k v --v2|'--v2'
insert t -k v|'-k'
fetch t|<KEY>
fetch t k -x -x|-x
list|<FILE>
upgrade|<FILE>
version|<FILE>
version t t|'t'
version t --v2|'--v2'
upgrade t --v2|'--v2'
dump t --memory 5|'--memory'
dump t --group 5|'--group'
load t --group 0|'0'
rehearse --memory 5 --stops 0|'0'
list t --text --text|--text
load t --group 100001|'100001'
load t --group many|'many'
load t --limit 5|dbmtool: --limit needs --replace
load --replace --replace t|--replace
resize|<FILE>
resize t --limit 4294967296|'4294967296'
backup t|<TO>
salvage t --text|'--text'
script --memory -1|-1
script --memory 5 --read|dbmtool: --read needs FILE
script --read|dbmtool: script needs FILE or --memory
script t --read --memory 5|dbmtool: script needs FILE or --memory
script t --read --v2|dbmtool: --v2 needs --memory
script --text|dbmtool: script needs FILE or --memory
script t --text --text|--text
script t --text --v2|dbmtool: --v2 needs --memory
script --memory 5 --text --read|dbmtool: --read needs FILE
rehearse t --text|'--text'
rehearse t --read|'--read'
fetch t k --read|'--read'
--wait many fetch t k|'many'
--wait 86401 fetch t k|'86401'
fetch t k --wait 1|'--wait'
ROWS

# help, and each command's own, with an example that names it
for words in --help -h help; do
  runs "$words"
  [ "$status" = 0 ] && [ ! -s err ] && grep -A1 '^Example:' out | grep -q '^  dbmtool create' || wrong "dbmtool $words"
done
commands='create store insert fetch delete list dump load stat verify version upgrade resize backup salvage script'
for command in $commands; do
  grep -qE "^  $command " out || wrong "the help doesn't name $command"
done
for command in $commands; do
  runs "$command" --help
  [ "$status" = 0 ] && grep -q "Usage: dbmtool $command " out && sed -E '1,/^Examples?:/d' out | grep -q "dbmtool $command " ||
    wrong "the help of $command"
done
for line in 'S KEY CONTENT' 'I KEY CONTENT' 'F KEY' 'D KEY' 1 N E C; do
  grep -q "^  $line " out || wrong "the help of scripts lacks $line"
done

echo "$rows rows"
[ "$rows" = 468 ] || wrong "not each row was read"
exit $bad
