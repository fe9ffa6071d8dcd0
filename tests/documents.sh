#!/usr/bin/env bash
# The manual page and the completions name the commands and options that the help names, each command's its own, and no other. What is
# installed runs, and all of it is taken away again. Links and names of checks in the documents lead to files, and the lines of definitions
# that docs/PROOFS.md tells are those that tools/spec_path prints.
. "$(dirname "$0")/common"
page=$top/docs/dbmtool.1

# agrees WHERE FOUND WANTED: two lists of words are one, whatever their order
agrees() {
  local found wanted
  found=$(tr -s ' ' '\n' <<< "$2" | sort -u | xargs)
  wanted=$(tr -s ' ' '\n' <<< "$3" | sort -u | xargs)
  [ "$found" = "$wanted" ] || wrong "$1: '$found', and not '$wanted'"
}

# the options in a text
options_in() { grep -oE -- '(^|[^a-zA-Z-])--?[a-zA-Z][a-zA-Z0-9]*' | grep -oE -- '--?[a-zA-Z][a-zA-Z0-9]*'; }

# the options that a help lists, before what it says of each
help_options() { sed -n '/^Options:/,/^$/p' | sed -E 's/^ +//; s/  +.*//' | options_in; }

# the options that the manual page has in a row, as `.It Cm create Oo Fl -limit Ar n Oc Ar file`
page_options() { grep -oE 'Fl [^ ]+' | sed 's/Fl /-/'; }

# the words that bash offers behind these, for the last of them
offered() {
  COMP_WORDS=("$@") COMP_CWORD=$(($# - 1))
  _dbmtool
  echo "${COMPREPLY[@]}"
}
# shellcheck source=/dev/null
. "$top/completions/dbmtool.bash"
zsh=$top/completions/_dbmtool

# the program
"$program" --help > help
commands=$(sed -n '/^Commands:/,/^$/s/^  \([a-z]*\) .*/\1/p' help)
options=$(help_options < help)
[ "$(wc -w <<< "$commands")" -ge 12 ] && [ "$(wc -w <<< "$options")" -ge 4 ] || wrong "the help is read wrong: $commands $options"
agrees "the page's commands" "$(sed -n 's/^\.It Cm \([a-z]*\).*/\1/p' "$page")" "$commands"
agrees "bash's commands" "$(offered dbmtool '' | tr ' ' '\n' | grep -v '^-')" "$commands"
agrees "bash's commands behind help" "$(offered dbmtool help '')" "$commands"
agrees "bash's options" "$(offered dbmtool -)" "$options"
agrees "zsh's commands" "$(sed -n "s/^    '\([a-z]*\):.*/\1/p" "$zsh")" "$commands"
agrees "zsh's options" "$(grep -E "^    '(\(- \*\)'|--)" "$zsh" | options_in)" "$options"

# each command; help is the parser's own, and has no options
every=$options
for command in $commands; do
  "$program" "$command" --help > command.help 2> /dev/null || [ "$command" = help ] || wrong "no help of $command"
  options=$(help_options < command.help)
  own=$(grep -vxE -- '-h|--help' <<< "$options")
  every="$every $own"
  agrees "the page's options of $command" "$(grep -E "^\.It Cm $command( |$)" "$page" | page_options)" "$own"
  agrees "bash's options of $command" "$(offered dbmtool "$command" -)" "$options"
  row=$(grep -E "^        ([a-z|]+\|)?$command(\|[a-z|]+)?\) " "$zsh")
  # shellcheck disable=SC2016
  agrees "zsh's options of $command" "$(sed "s/\$help/-h --help/" <<< "$row" | options_in)" "$options"
done
# what stands behind a redirection is a file of any name, and a backup has a second name
mkdir -p offers/copies && : > offers/notes.text && : > offers/table.db
[ "$(cd offers && offered dbmtool load table '<' no)" = notes.text ] || wrong "bash offers no file behind <"
[ "$(cd offers && offered dbmtool dump table '>' no)" = notes.text ] || wrong "bash offers no file behind >"
[ "$(cd offers && offered dbmtool backup table co)" = copies ] || wrong "bash offers no folder for a backup"
rm -r offers
agrees "the page's options" "$(sed -n '/^The options:/,/^\.Ss/p' "$page" | grep '^\.It' | page_options)" "$every"
grep -q '^  help=.*{-h,--help}' "$zsh" || wrong "zsh's help isn't -h and --help"

agrees "the options that the page names anywhere" "$(page_options < "$page")" "$every"

# a database is offered without `.db`, in the place of FILE alone
mkdir tables && touch mail.db other.text
agrees "bash's names" "$(offered dbmtool fetch '')" 'mail tables'
agrees "bash's names behind an option" "$(offered dbmtool create --limit 7 m)" mail
agrees "bash's names for a number" "$(offered dbmtool create --limit '')" ''
agrees "bash's names behind --verbose" "$(offered dbmtool --verbose fetch '')" 'mail tables'
agrees "bash's names behind --wait" "$(offered dbmtool --wait 7 --verbose fetch '')" 'mail tables'
agrees "bash's names behind --cache" "$(offered dbmtool --cache 7 --wait 7 fetch '')" 'mail tables'
agrees "bash's names behind --wait=" "$(offered dbmtool --verbose --wait = 7 fetch '')" 'mail tables'
agrees "bash's names for seconds" "$(offered dbmtool --wait '')" ''
agrees "bash's commands behind --wait" "$(offered dbmtool --wait 7 fet)" fetch
agrees "bash's names behind --read" "$(offered dbmtool script --read '')" 'mail tables'
agrees "bash's names for a key" "$(offered dbmtool fetch mail '')" ''

# the page says of the statuses and the faults what the program says
"$program" faults > faults
sed '1,/^Faults:/d' faults | tr -s ' ' '\n' | sed '/^$/d' > told
sed '1,/^The faults, by/d' "$page" | sed -n '/^\.Bl/,/^\.El/p' | sed '/^\.[BE]l/d; s/^\.It //' | tr -s ' ' '\n' > page.told
[ "$(wc -l < told)" -ge 100 ] || wrong "the faults are read wrong"
diff told page.told || wrong "the page says something else of the faults (< program, > page)"
agrees "the page's statuses" "$(sed -n '/^\.Sh EXIT STATUS/,/^\.El/s/^\.It //p' "$page")" "$(sed -n '/^Faults:/q; s/^  \([0-9][0-9]*\).*/\1/p' faults)"

if command -v mandoc > lint; then
  mandoc -T lint -W warning "$page" > lint || { wrong "the manual page:"; cat lint; }
else
  echo "mandoc isn't installed: the manual page wasn't looked at by it"
fi
if command -v zsh > /dev/null; then zsh -n "$zsh" || wrong "zsh can't read its completion"; fi

# each link of a document leads to a file, or to a heading of one, and each check that it names is there
heading() { tr 'A-Z ' 'a-z-' <<< "$1" | tr -cd 'a-z0-9_\n-'; }
documents=("$top"/*.md "$top"/docs/*.md "$top"/bench/*.md "$top"/crates/*/README.md)
for text in "${documents[@]}"; do
  folder=$(dirname "$text")
  while IFS='#' read -r file anchor; do
    [ -e "$folder/$file" ] || wrong "$text: no file '$file'"
    [ -n "$anchor" ] || continue
    heading "$(sed -n 's/^##* //p' "${file:+$folder/}${file:-$text}")" | grep -qx -- "$anchor" || wrong "$text: no heading '$anchor'"
  done < <(sed 's/`[^`]*`//g' "$text" | grep -oE '\]\([^) ]+\)' | sed 's/^](//; s/)$//' | grep -v '^http')
  for check in $(grep -oE '\btests/[a-z_]+\.(sh|c|h)' "$text" | sort -u); do
    [ -e "$top/$check" ] || wrong "$text: no check '$check'"
  done
done
[ "${#documents[@]}" -ge 40 ] || wrong "the documents are read wrong"

# what docs/PROOFS.md tells of the definitions that a reader has to believe
tr '\n' ' ' < "$top/docs/PROOFS.md" | grep -oE '`tools/spec_path [a-z_]+ [a-z_]+` prints [0-9]+ files, [0-9,]+ lines' > paths
[ "$(wc -l < paths)" -ge 2 ] || wrong "the paths of docs/PROOFS.md are read wrong"
while read -r _ crate function _ count; do
  found=$("$top/tools/spec_path" --count "$crate" "${function%\`}") || wrong "tools/spec_path $crate ${function%\`} fails"
  [ "$found" = "$count" ] || wrong "docs/PROOFS.md tells $count of $crate, and not $found"
done < paths

# installed, run and taken away
prefix=$work/usr
"$top/install" "$prefix" > out 2>&1 || { wrong "./install:"; cat out; }
[ "$("$prefix/bin/dbmtool" --version)" = "$("$program" --version)" ] || wrong "what was installed doesn't run"
"$prefix/bin/dbmtool" create mine --limit 10 && [ -e mine.db ] || wrong "what was installed makes no database"
cmp -s "$page" "$prefix/share/man/man1/dbmtool.1" || wrong "the manual page isn't installed"
cmp -s "$top/completions/dbmtool.bash" "$prefix/share/bash-completion/completions/dbmtool" || wrong "bash's completion isn't installed"
cmp -s "$zsh" "$prefix/share/zsh/site-functions/_dbmtool" || wrong "zsh's completion isn't installed"
[ "$(find "$prefix" -type f | wc -l)" = 7 ] || wrong "another file is installed"
touch "$prefix/bin/another"
"$top/install" --remove "$prefix" || wrong "./install --remove failed"
[ "$(find "$prefix" -type f)" = "$prefix/bin/another" ] || { wrong "left behind:"; find "$prefix" -type f; }
rm "$prefix/bin/another"
"$top/install" "$prefix" && "$top/install" --remove "$prefix" && [ -z "$(find "$prefix" ! -type d)" ] || wrong "the folder holds a file"
"$top/install" --unknown > out 2> err; [ $? = 3 ] && grep -q '^usage: ' err || wrong "./install takes unknown words"
exit $bad
