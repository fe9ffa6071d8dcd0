#!/usr/bin/env bash
# How `build` goes about it, with a stand-in for the kit that proves nothing: each crate is built once, behind those that it uses; a second
# call waits; a crate that isn't built is told; and nothing is left that git sees. What tools/built.py takes for built is tried the same way: what
# makes the program anew, and what is taken over from an `rt ci`, which is a stand-in too.
set -u
top=$(cd "$(dirname "$0")/.." && pwd)
work=$(mktemp -d)
trap 'rm -rf "$work"' EXIT
bad=0
wrong() { echo "$1"; bad=1; }

mkdir -p "$work/kit/bin" "$work/repo"
printf '#!/bin/sh\necho "%s/START-HERE.md"\n' "$work/kit" > "$work/kit/bin/rt"
echo 'kit one' > "$work/kit/KIT-ID"
cat > "$work/kit/bin/rattle" <<'R'
#!/usr/bin/env bash
# build .. --crate-name NAME .. --extern OTHER=RLIB .. -o MADE: each library of the repository has to be built
made=${!#}
while [ $# -gt 0 ]; do
  case $1 in
    --crate-name) name=$2 ;;
    --extern) [[ $2 != *"$REPO"* ]] || [ -d "${2#*=}" ] || { echo "$name comes before ${2%%=*}"; exit 1; } ;;
  esac
  shift
done
[ "$name" = "${FAILS:-}" ] && { echo "$name is wrong on line 7"; exit 1; }
sleep "$PAUSE"
echo "$name" >> "$LOG"
if [ "$name" = dbmtool ]; then touch "$made"; else mkdir "$made"; fi
R
cat > "$work/kit/bin/rattle-link" <<'R'
#!/usr/bin/env bash
while [ "$1" != -o ]; do shift; done
printf '#!/bin/sh\necho built\n' > "$2"
chmod +x "$2"
R
chmod +x "$work"/kit/bin/*
(cd "$top" && tar cf - --exclude=out --exclude=.git .) | tar xf - -C "$work/repo"
cd "$work/repo" || exit 1
git init -q . && git add -A && git -c user.name=t -c user.email=t@t commit -qm t
export PATH="$work/kit/bin:$PATH" LOG="$work/log" REPO="$work/repo" PAUSE=0.3

# the longest way up to the program breaks off
FAILS=page_io ./dbmtool --version > out1 2> err1 && wrong "a crate that isn't proved was passed over"
grep -q 'page_io was not built' err1 && grep -q 'page_io is wrong on line 7' err1 || { wrong "what failed isn't told:"; cat err1; }
[ -e crates/dbmtool/out/dbmtool ] && wrong "a program without proofs"

: > "$LOG"
./dbmtool > out2 2> err2 &
while kill -0 $! 2> /dev/null && ! grep -qs proving err2; do sleep 0.1; done
./dbmtool > out3 2> err3 || wrong "the second call failed"
wait
[ "$(cat out2 out3)" = 'built
built' ] || wrong "the program was not run"
grep -q 'waiting for another build' err3 || wrong "the second call didn't wait"
[ -z "$(sort "$LOG" | uniq -d)" ] || wrong "a crate was built twice"
for crate in page_io dbm_file dbmtool; do grep -qx "$crate" "$LOG" || wrong "$crate was not built"; done
grep -q tests "$LOG" && wrong "a crate of tests was built"
grep -qE 'proved dbmtool in [0-9]+ s \(([0-9]+) of \1\)' err2 || wrong "how far it is isn't told"

# nothing to do, and nothing is told
./dbmtool > out4 2> err4
[ -s err4 ] && wrong "a built program is built again"
rm -f out? err?
[ -z "$(git status --porcelain)" ] || { wrong "git sees:"; git status --porcelain; }

# after a change what stands on it is built anew, and nothing else
: > "$LOG"
echo '// a change' >> crates/linear_hash/src/lib.rt
./dbmtool > /dev/null 2>&1
grep -qx page_io "$LOG" && wrong "what stands below a change is built again"
for crate in linear_hash dbm_file dbmtool; do grep -qx "$crate" "$LOG" || wrong "$crate is not built anew"; done

# what was built while a text was another is built once more, and what stands on it
: > "$LOG"
echo '// a change' >> crates/dbm_model/src/lib.rt
cp crates/linear_hash/src/lib.rt "$work/before"
./dbmtool > /dev/null 2>&1 &
while kill -0 $! 2> /dev/null && ! grep -qx page_model "$LOG"; do sleep 0.1; done
echo '// a change that is taken back' >> crates/linear_hash/src/lib.rt
while kill -0 $! 2> /dev/null && ! grep -qx dbm_file "$LOG"; do sleep 0.1; done
cp "$work/before" crates/linear_hash/src/lib.rt
wait
tools/built.py is-built && wrong "a change while the program is built goes unseen"
: > "$LOG"
PAUSE=0
# (with one more crate, whose name is that of tests)
mkdir -p crates/test_plan/src
echo '// a text' > crates/test_plan/src/lib.rt
sed -i 's/^dbm_command_line:/& test_plan/; $a test_plan:' crates.txt
./dbmtool > /dev/null 2>&1
for crate in linear_hash dbm_file dbmtool; do grep -qx "$crate" "$LOG" || wrong "$crate, built while a text was another, is not built anew"; done
grep -qx page_model "$LOG" && wrong "what stands below a change that was taken back is built again"

# what makes the program anew: the texts of the crates that it stands on, what says how it is built, and the kit
changes() {
  cp "$1" "$work/before"
  sed -i "$2" "$1"
  tools/built.py is-built && wrong "a change of $1 goes unseen"
  cp "$work/before" "$1"
  tools/built.py is-built || wrong "without the change of $1 the program isn't taken for built"
}
for file in build tools/kit.py tools/built.py crates/dbm_command_line/src/lib.rt crates/test_plan/src/lib.rt; do changes "$file" '$a # a change'; done
changes crates.txt 's/^dbm_progress:/& hex/'
changes "$work/kit/KIT-ID" 's/one/two/'
echo '// a change' >> crates/device_tests/src/lib.rt
tools/built.py is-built || wrong "a crate that the program doesn't stand on makes it anew"

# texts that haven't changed for a while are not read again
texts_read() {
  python3 -c '
import builtins, sys
sys.path.insert(0, "tools")
import built
files, opened = [], open
def noting(file, *more, **named):
    files.append(str(file))
    return opened(file, *more, **named)
builtins.open = noting
built.is_program_built()
print(sum(f"/{part}/" in file for file in files for part in built.kit.PARTS))'
}
text=crates/dbm_command_line/src/lib.rt
note=crates/dbmtool/out/noted
# (three times, since the clock may be set back meanwhile)
rests() {
  for _ in 1 2 3; do
    sleep 3.2
    tools/built.py is-built || wrong "the program isn't taken for built $1"
    [ "$(texts_read)" = 0 ] && return
  done
  wrong "texts are read that haven't changed $1"
}
seen() { tools/built.py is-built && wrong "$1 goes unseen"; }
rests "at first"
# but a change is seen that leaves the size and the time as they were
cp -p "$text" "$work/before"
printf '\n' | dd of="$text" conv=notrunc status=none
touch -r "$work/before" "$text"
cmp -s "$text" "$work/before" && wrong "nothing was changed"
[ "$(stat -c '%s %y' "$text")" = "$(stat -c '%s %y' "$work/before")" ] || wrong "the change has another size or time"
seen "a change that leaves the size and the time"
# (three times, since the two calls may take longer than it takes to be noted)
for _ in 1 2 3; do
  cp -p "$work/before" "$text"
  tools/built.py is-built || wrong "the program isn't taken for built once the change is taken back"
  read=$(texts_read)
  [ "$read" -gt 1000 ] && break
done
[ "$read" -gt 1000 ] || wrong "what changed just now is noted"
rests "behind a change that was taken back"
# and so is a text that comes, goes or takes another's place
mkdir crates/dbm_progress/src/more
rests "behind an empty folder"
echo '// a text' > crates/dbm_progress/src/more/more.rt
seen "a new text"
rm -r crates/dbm_progress/src/more
rests "behind a text that came and went"
mv "$text" "$work/before"
seen "a text that is gone"
cp -p crates/dbm_progress/src/lib.rt "$text"
seen "a text in place of another"
mv "$work/before" "$text"
rests "behind a text that went and came"
# a part of a note is no note, and where none can be written there is none
head -n 100 "$note" > "$work/part"
cp "$work/part" "$note"
[ "$(texts_read)" -gt 1000 ] || wrong "a part of a note is believed"
rm "$note"
mkdir "$note"
[ -z "$(tools/built.py is-built 2>&1 || echo "status $?")" ] || wrong "a note that can't be written is told"
rmdir "$note"
[ -z "$(compgen -G "$note*")" ] || wrong "parts of notes are left"

: > "$LOG"
echo 'kit two' > "$work/kit/KIT-ID"
./dbmtool > /dev/null 2>&1
for crate in dbm_model dbmtool; do grep -qx "$crate" "$LOG" || wrong "another kit doesn't build $crate anew"; done

# a program that isn't there, or can't be called, isn't built
chmod -x crates/dbmtool/out/dbmtool
tools/built.py is-built && wrong "a program that can't be called is taken for built"
chmod +x crates/dbmtool/out/dbmtool

# without rt a built program runs, and one that isn't built is told
mkdir "$work/plain"
for word in bash dirname env readlink; do ln -s "$(command -v $word)" "$work/plain"; done
ln -s "$(python3 -c 'import sys; print(sys.executable)')" "$work/plain/python3"
[ "$(PATH=$work/plain ./dbmtool 2>&1)" = built ] && PATH=$work/plain ./build || wrong "a built program needs rt"
cp crates/page_io/src/lib.rt "$work/before"
echo '// a change' >> crates/page_io/src/lib.rt
PATH=$work/plain ./dbmtool > /dev/null 2> "$work/err"; [ $? = 2 ] || wrong "without rt a program that isn't built runs"
grep -q 'rt, .* is needed' "$work/err" || { wrong "that rt is needed isn't told:"; cat "$work/err"; }
cp "$work/before" crates/page_io/src/lib.rt

# a call of `rt ci` that comes to nothing leaves nothing that is taken for built
stamps() { compgen -G 'crates/*/out/rlib/build/stamp' > /dev/null; }
mkdir -p .git/rt-aside/page_io/rlib
tools/built.py forget || wrong "nothing was forgotten"
[ -e crates/dbmtool/out/dbmtool ] && wrong "forget leaves a program"
compgen -G 'crates/*/out/rlib' > /dev/null && wrong "forget leaves libraries"
[ -e .git/rt-aside/page_io/rlib ] && wrong "forget leaves what a killed rt ci had set aside"
tools/built.py sums > "$work/sums"
tools/built.py take < "$work/sums" 2> "$work/err" || wrong "nothing to take is a fault"
[ -s "$work/err" ] && { wrong "nothing to take is told:"; cat "$work/err"; }
stamps && wrong "a library is taken that wasn't made"
tools/built.py is-built && wrong "a program is taken that wasn't made"

# made_by_ci WORD: the libraries, and with the word `program` that too
made_by_ci() {
  for crate in $(sed -n 's/^\([a-z_]*\):.*/\1/p' crates.txt); do
    [ "$crate" = dbmtool ] || { mkdir -p "crates/$crate/out/rlib/$crate.rlib"; echo "$crate" > "crates/$crate/out/rlib/$crate.rlib/format"; }
  done
  [ "$1" != program ] || { printf '#!/bin/sh\necho by rt ci\n' > crates/dbmtool/out/dbmtool; chmod +x crates/dbmtool/out/dbmtool; }
}

# a text that changed meanwhile
cp crates/linear_hash/src/lib.rt "$work/before"
made_by_ci program
rm crates/dbm_lines/out/rlib/dbm_lines.rlib/format
echo '// a change' >> crates/linear_hash/src/lib.rt
tools/built.py take < "$work/sums" 2> "$work/err"
[ "$(wc -l < "$work/err")" = 1 ] || { wrong "what isn't taken is not told in one line:"; cat "$work/err"; }
for crate in linear_hash dbm_file dbmtool; do grep -qw "$crate" "$work/err" || wrong "that $crate isn't taken is not told"; done
cp "$work/before" crates/linear_hash/src/lib.rt
for crate in linear_hash dbm_file dbm_lines; do [ -e "crates/$crate/out/rlib/build/stamp" ] && wrong "$crate was taken"; done
[ "$(cat crates/page_io/out/rlib/build/page_io.rlib/format)" = page_io ] || wrong "page_io, below the change, was not taken"
tools/built.py is-built && wrong "a program over a changed text was taken"

# an `rt ci` that failed before it linked: the program alone is built
tools/built.py forget
made_by_ci libraries
tools/built.py take < "$work/sums"
: > "$LOG"
[ "$(./dbmtool 2> /dev/null)" = built ] || wrong "the program was not built over what was taken"
[ "$(cat "$LOG")" = dbmtool ] || { wrong "libraries that were taken are built:"; cat "$LOG"; }

# and one that made all
tools/built.py forget
made_by_ci program
tools/built.py take < "$work/sums"
: > "$LOG"
[ "$(./dbmtool 2>&1)" = 'by rt ci' ] && [ ! -s "$LOG" ] || wrong "what rt ci made is not taken"
exit $bad
