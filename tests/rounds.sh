#!/usr/bin/env bash
# What tests/rounds tells of edits that it has to tell apart, in a small crate of its own: refused ones, of functions of which one calls the
# other too; those that mean the same, can't be read, or can't be applied; those of which the prover's words say that they show little or
# nothing; wrappers; what an earlier run refused; and what the repository has as refused.
set -u
top=$(cd "$(dirname "$0")/.." && pwd)
work=$(mktemp -d)
trap 'rm -rf "$work"' EXIT
bad=0
wrong() { echo "$1"; bad=1; }
export XDG_CACHE_HOME=$work/cache

rounds=crates/sums/must-fail/rounds
mkdir -p "$work/tests" "$work/crates/sums/src" "$work/crates/sums/proofs/with_answers" "$work/$rounds"
cp -r "$top/tools" "$top/build" "$work"
cp "$top/tests/rounds" "$work/tests/rounds"
cd "$work" || exit 1
echo 'sums:' > crates.txt
cat > crates/sums/src/lib.rt <<'R'
#![tactic(auto)]
ghost use Rattle.std.specs.Prelude.{true, ◌≡◌, ◌+◌, ◌<◌, ◌*◌};

pub fn next(n: u8) -> u8
    requires { n < 100 }
    ensures { result ≡ n + 1 }
{
    n + 1
}

pub fn behind_next(n: u8) -> u8
    requires { n < 90 }
    ensures { result ≡ n + 2 }
{
    next(n) + 1 // of behind_next
}

pub fn twice(n: u8) -> u8
    requires { n < 100 }
    ensures { result ≡ 2 * n }
{
    2 * n
}

pub fn with_answers(n: u8) -> u8
    requires { n < 100 }
    ensures { result ≡ n + 1 }
{
    next(n) // of with_answers
}

pub fn halves(s: &mut [u8]) -> (&mut [u8], &mut [u8]) {
    let n = s.len() / 2; s.split_at_mut(n)
}

pub struct Count {
    of: u8,
}

pub trait Rises {
    fn rise_to(&mut self, n: u8) -> bool;
}

impl Rises for Count {
    fn rise_to(&mut self, n: u8) -> bool
        ensures told { result ≡ true }
        ensures kept { self.new.of ≡ n }
    {
        self.of = n;
        true
    }
}
R
cat > crates/sums/proofs/with_answers/Answers.antt <<'A'
use Rattle.sums.proofs.with_answers.Goals as goal

pub returns : goal.returns
returns c = c.next.ensures
A
edit() { printf 'file: src/lib.rt\nold: %s\nnew: %s\n' "$2" "$3" > "$rounds/$1.edit"; }
wrapper() { printf 'file: src/lib.rt\nwrap: %s\nbody: %s\n' "$2" "$3" > "$rounds/$1.edit"; }
try() { tests/rounds "$@" > out 2>&1; }
ends() { [ "$(tail -n 1 out)" = "$1" ] || { wrong "$2:"; cat out; }; }
says() { grep -qE "$1" out || { wrong "$2:"; cat out; }; }
# asks TEXT ..: what a text prints that knows the tools
asks() { PYTHONDONTWRITEBYTECODE=1 PYTHONPATH=tools python3 -c "$@"; }

edit next-one_too_many '    n + 1' '    n + 2'
edit next-stays '    n + 1' '    n'
edit twice-once '    2 * n' '    n'
edit sum-another_one_is_said 'result ≡ 2 * n' 'result ≡ 3 * n'
wrapper next-wrapped_one_too_many next 'next(n) + 1'
wrapper rise_to-wrapped_another_count_is_kept rise_to 'self.rise_to(n / 2)'
try || wrong "edits that are refused are told as not refused"
ends '6 passed, 0 failed' "six edits are refused"
# one check of the crate as it stands, two rounds, one alone, and one of the wrappers
says '^sums: 6 of 6 edits refused, in 5 checks' "the edits were not tried together"

try
ends '6 passed, 0 failed' "what was refused is refused"
says '^sums: 6 of 6 edits were refused by an earlier run$' "what was refused is tried again"
edit twice-once '    2 * n' '    3 * n'
try --only twice-
says '^sums: 1 of 1 edits refused' "an edit that changed isn't tried, or others are"

# an entry counts while it is whole, and this user's, and of this state
kept=$(ls cache/kumquatfen/edits/sums-*.json)
known() { asks 'import sys, tried; print(len(tried.read(sys.argv[1])))' "$kept"; }
cp "$kept" whole
[ "$(known)" = 7 ] || wrong "seven edits were kept, and not $(known)"
for damage in 'truncate -s -9' 'chown 12345' 'sed -i s/"refused"/"Refused"/' 'sed -i s/null/7/g' 'sed -i s/"state":."...../&0/' 'rm'; do
  case $damage in chown*) [ "$(id -u)" = 0 ] || continue ;; esac
  $damage "$kept"
  [ "$(known)" = 0 ] || wrong "an entry counts behind: $damage"
  rm -f "$kept"
  cp whole "$kept"
done
state() { asks 'import kit, tried; print(tried.state_of(kit.crates()["sums"]))'; }
was=$(state)
for file in crates/sums/src/lib.rt crates/sums/proofs/with_answers/Answers.antt tools/prover.py tests/rounds; do
  cp "$file" before
  echo >> "$file"
  [ "$(state)" != "$was" ] || wrong "an entry counts behind a change of $file"
  cp before "$file"
done
[ "$(state)" = "$was" ] || wrong "the same texts have another state"

# What shows nothing, or little. Of next and behind_next, which calls it, one means the same: it waits, and isn't refused for that.
rm "$rounds"/*
edit next-one_too_many '    n + 1' '    n + 2'
edit behind_next-the_same 'next(n) + 1 // of behind_next' 'let m = next(n); m + 1'
edit with_answers-without_what_its_answer_names 'next(n) // of with_answers' 'n + 1'
edit halves-not_covered 'let n = s.len() / 2; s.split_at_mut(n)' 's.split_at_mut(s.len() / 2)'
edit halves-a_bracket_is_not_closed 'let n = s.len() / 2;' 'let n = (s.len() / 2;'
edit twice-of_another_type '    2 * n' '    "n"'
edit twice-of_a_clause_that_names_nothing 'result ≡ 2 * n' 'result ≡ 2 * nothing'
edit twice-not_there '    3 * n' '    n'
edit absent-of_no_such_function '    2 * n' '    n + n'
wrapper next-wrapped_the_same next 'let m = n; next(m)'
wrapper twice-wrapped_of_another_type twice '"n"'
wrapper twice-wrapped_beyond_what_is_required twice 'twice(200)'
wrapper absent-wrapped absent 'n'
try --anew && wrong "edits that show nothing pass"
ends '2 passed, 11 failed' "two edits of thirteen are refused"
says '^sums: 2 of 13 edits refused, in' "what an earlier run refused isn't tried anew"
says 'behind_next-the_same: NOT REFUSED' "a caller is refused for its callee"
says 'with_answers-without_what_its_answer_names: refused only because a proof file' "a refusal for a name alone isn't told"
says 'halves-not_covered: BAD EDIT: the borrow checker' "an edit that isn't covered is no bad one"
says 'halves-a_bracket_is_not_closed: BAD EDIT: the prover cannot read it' "an edit that leaves a bracket open is no bad one"
says 'twice-of_another_type: BAD EDIT: the prover cannot read it' "an edit that can't be read is no bad one"
says 'twice-of_a_clause_that_names_nothing: BAD EDIT: the prover cannot read it' "a clause that can't be read is no bad edit"
says 'twice-not_there: BAD EDIT' "an edit that can't be applied is no bad one"
says 'absent-of_no_such_function: NOT REFUSED' "an edit of no function is refused"
says 'next-wrapped_the_same: NOT REFUSED' "a wrapper that means the same is refused"
says 'twice-wrapped_of_another_type: BAD EDIT: the prover cannot read it' "a wrapper that can't be read is no bad one"
says 'twice-wrapped_beyond_what_is_required: BAD EDIT: no clause' "a wrapper that breaks no clause is refused"
says 'absent-wrapped: BAD EDIT' "a wrapper of no function is no bad one"

# What the repository has as refused. A crate below this one is built as ./build does it.
rm "$rounds"/*
mkdir -p crates/base/src
printf 'base:\nsums: base\n' > crates.txt
cat > crates/base/src/lib.rt <<'R'
#![tactic(auto)]
ghost use Rattle.std.specs.Prelude.{◌≡◌, ◌+◌, ◌<◌};

pub fn raised(n: u8) -> u8
    requires { n < 100 }
    ensures { result ≡ n + 1 }
{
    n + 1
}
R
cat >> crates/sums/src/lib.rt <<'R'

pub fn above(n: u8) -> u8
    requires { n < 100 }
    ensures { result ≡ n + 1 }
{
    base::raised(n)
}
R
builds() {
  asks 'import os, subprocess, built, kit
os.makedirs(built.made_of("base"), exist_ok=True)
words = [*kit.words("build", "base", built.MADE), "--statements", "-o", built.rlib_of("base")]
subprocess.run(words, cwd=kit.crates()["base"].folder, stdout=subprocess.DEVNULL, stderr=subprocess.DEVNULL, check=True)
built.note_made("base", built.word_of("base"))' || wrong "the crate below is not built"
}
# sample TITLE..: a word that picks these of the covered edits and no other
sample() {
  asks 'import sys, edits, kit, record
of = record.Record(kit.crates()["sums"])
found = [it for it in edits.edits_of(of.crate, edits.OF_ROUNDS) if of.covers(it)]
print(next(it for it in map(str, range(100000)) if [edit.title for edit in found if of.samples(edit, it)] == sys.argv[1:]))' "$@"
}
# afresh WORD..: tries on a machine that has tried nothing
afresh() { rm -rf cache; try "$@"; }
# plans WORD..: what such a try would do, with no check: which edits it would try, of these the sample, and which ones the record covers
plans() {
  rm -rf cache
  asks 'import importlib.machinery, importlib.util, sys
loader = importlib.machinery.SourceFileLoader("rounds", "tests/rounds")
rounds = importlib.util.module_from_spec(importlib.util.spec_from_loader("rounds", loader))
sys.modules["rounds"] = rounds
loader.exec_module(rounds)
said = rounds.asked(sys.argv[1:])
crate, edits = next(iter(rounds.found_for(said).items()))
_, tried, covered, sampled = rounds.split(edits, rounds.Tried(crate, said.anew), rounds.Record(crate), said)
for name, found in ("tried", tried), ("sampled", sampled), ("covered", covered):
    print(f"{name}:", *sorted(it.title for it in found))' "$@" > out 2>&1
}
planned() { says "^$1$" "$2"; }
change() { sed -i "s/$2/$3/" "$1"; grep -q "$3" "$1" || wrong "$1 has no $2"; }
record=crates/sums/must-fail/refused
all='above-stays next-one_too_many twice-once'
builds
edit next-one_too_many '    n + 1' '    n + 2'
edit twice-once '    2 * n' '    n'
edit above-stays 'base::raised(n)' 'n'
try --record || wrong "what is refused is not recorded"
says 'must-fail/refused has 3 edits$' "how much is recorded isn't told"
ends '3 passed, 0 failed' "three edits are refused"
[ "$(tail -n 3 $record | cut -d' ' -f1 | xargs)" = "$all" ] || { wrong "the record isn't sorted:"; cat $record; }
grep -q "$work\|$HOME" $record && wrong "the record has paths of the machine"
cp $record before
try --record
cmp before $record || wrong "the record of the same is another one"

afresh --sample "$(sample)" || wrong "what the record covers fails"
says '^sums: 3 of 3 edits are covered by the record and not tried$' "what the record covers is tried"
says '^0 edits were tried, 0 of them as sample [0-9]+ of what the record covers; 3 it covers alone$' "what the record covers isn't counted"
ends '0 passed, 0 failed' "what the record covers counts as tried"
afresh --sample "$(sample twice-once)" || wrong "a sample that is refused fails"
says '^1 edits were tried, 1 of them as sample' "a sample isn't tried"
ends '1 passed, 0 failed' "a sample isn't counted"
plans --all
planned "tried: $all" "--all leaves out what the record covers"
plans --anew
planned "tried: $all" "--anew leaves out what the record covers"

# a line of another edit covers nothing, and is written anew
edit twice-once '    2 * n' '    3 * n'
afresh --sample "$(sample)" --record
says '^sums: 2 of 3 edits are covered by the record and not tried; 1 of 1 edits refused' "a stale line covers its edit"
[ "$(diff before $record | grep -c '^>')" = 1 ] || { wrong "an edit that changed changes more than its line:"; diff before $record; }

# a line that nobody tried
edit next-the_same '    n + 1' '    let m = n; m + 1'
cp $record honest
asks 'import edits, kit, record
print(*(record.line_of(it) for it in edits.edits_of(kit.crates()["sums"], edits.OF_ROUNDS) if it.title == "next-the_same"))' >> $record
plans --sample "$(sample)"
planned 'tried:' "a line covers its edit, whoever wrote it"
afresh --sample "$(sample next-the_same)" --record && wrong "the sample passes a forged line"
says 'next-the_same: NOT REFUSED' "a forged line is refused"
says 'next-the_same: NOT TO BE TRUSTED: must-fail/refused has it .* run tests/rounds --all --record sums$' "that a record is forged isn't told"
ends '0 passed, 1 failed' "a forged line is counted as refused"
cmp honest $record || { wrong "a forged line is kept:"; diff honest $record; }
rm $rounds/next-the_same.edit

# below the crate a body, and a clause
cp crates/base/src/lib.rt base
change crates/base/src/lib.rt '    n + 1' '    let m = n; m + 1'
afresh --only twice- --sample "$(sample)" && wrong "a record covers what isn't built"
says "^sums: the library base isn't made of what is there now" "that a library isn't built is not told"
builds
plans --sample "$(sample)"
planned "covered: $all" "a body below the crate makes the record void"
change crates/base/src/lib.rt 'n < 100' 'n < 101'
builds
plans
planned "tried: $all" "edits are not tried behind a change of a clause"
[ "$(asks 'import kit, record; print(record.Record(kit.crates()["sums"]).told())')" = 'its record is of other texts, and covers nothing' ] ||
  wrong "that a record doesn't hold is not told"
cp base crates/base/src/lib.rt
for damage in 's/^texts .*/texts 0/; s/^reads .*/reads 0/' '/^kit /d' 's/^kit/<<<<<<< /'; do
  cp $record whole
  sed -i "$damage" $record
  [ "$(asks 'import kit, record; print(record.Record(kit.crates()["sums"]).holds())')" = False ] || wrong "a record holds behind $damage"
  cp whole $record
done

# another kit's record holds for the same texts, one in ten of it is tried, and all before it is this one's
sed -i 's/^kit .*/kit another-kit/' $record
rm crates/base/out/rlib/build/stamp
afresh --sample "$(sample)" || wrong "what another kit's record covers fails"
says 'sums: 3 of 3 edits are covered .*its record is of another-kit with scripts .*: one in 10 of what it covers' "another kit's record isn't told"
builds
plans --record
planned "sampled: $all" "what another kit refused is recorded as refused by this one"
afresh --only twice- --record
grep -q another-kit $record && wrong "a record keeps another kit's name"
[ "$(tail -n 1 $record | cut -d' ' -f1)" = twice-once ] && [ "$(wc -l < $record)" = 6 ] || { wrong "what another kit refused is recorded as refused by this one:"; cat $record; }
rm $record

# another kit
rm "$rounds"/*
edit next-one_too_many '    n + 1' '    n + 2'
edit twice-once '    2 * n' '    n'
sed -i 's/^WRITTEN_FOR = .*/WRITTEN_FOR = ("another-kit",)/' tools/prover.py
try || wrong "with another kit an edit that is refused is told as not refused"
says 'is known of another-kit, and this is .*: each edit is tried alone' "another kit isn't told"
says '^sums: 2 of 2 edits refused, in 3 checks' "with another kit edits are tried together"

sed -i 's/    n + 1/    n + 3/' crates/sums/src/lib.rt
try && wrong "the edits of a crate that isn't proved pass"
says 'sums: it is not proved as it stands' "that the crate isn't proved is not told"
exit $bad
