"""What was refused, as the repository has it: crates/NAME/must-fail/refused, for machines that have tried nothing yet.

Such a file tells the kit, the scripts that tried, all texts, and what a check of the crate reads (tools/stated.py), each in a line with a sum; then
each edit, with the sum of its text. A line counts while its edit is the same and the check would read the same. Another kit has other sums of what
is read, so its record counts where all texts are the same.

Anybody can write a line, and a machine can err, so a part of what is covered is tried all the same: which one, a word tells, as the sum of the
commit. A crate's base check costs as much as many edits, so few crates are picked, and of each one edit in five.
"""
import contextlib
import functools
import hashlib
import os
import subprocess
import tempfile

import built
import kit
import prover
import stated
import tried
from edits import OF_GATE, OF_ROUNDS, Failed, edits_of

FILE = f"{OF_GATE}/refused"
# one edit in so many is tried of what this kit and these scripts refused, and of what others did
OF_OWN, OF_OTHERS = 20, 10
# of a crate that is picked
OF_A_CRATE = 5
# what is read is not known where what stands below isn't built, or in a form that isn't known
NOT_KNOWN = "not-known"
HEAD = "# refused edits, written by tests/rounds --record; see docs/CONTRIBUTING.md"


def shortened(word):
    return word[:16]


def sum_of_scripts():
    return shortened(tried.sum_of_files([f"{kit.TOP}/{it}" for it in (*tried.SCRIPTS, "tools/stated.py")]))


def line_of(edit):
    return f"{edit.title} {shortened(tried.word_of(edit))}"


def commit():
    """The word that picks the sample: the commit's sum, or where there is none, that of all texts."""
    if os.path.exists(f"{kit.TOP}/.git"):
        said = subprocess.run(["git", "-C", kit.TOP, "rev-parse", "--verify", "-q", "HEAD"], stdout=subprocess.PIPE, check=False, text=True)
        if said.stdout.strip():
            return said.stdout.strip()
    return hashlib.sha256(repr([stated.texts_of(it) for it in kit.crates()]).encode()).hexdigest()


def reads_of(crate):
    """One word for what a check of the crate reads, where that is known."""
    with contextlib.suppress(Failed, OSError, ValueError):
        return stated.read_by(crate.name) or NOT_KNOWN
    return NOT_KNOWN


def place(sample, *names):
    """Where the sample puts something: a number that nobody chose."""
    return int(hashlib.sha256(repr((sample, *names)).encode()).hexdigest(), 16)


@functools.cache
def sampled_crates(sample, one_in):
    """The crates that the sample picks: one after another in its order, until they have one edit in so many of all."""
    numbers = {it.name: len(edits_of(it, OF_ROUNDS)) for it in kit.crates().values()}
    found = []
    for name in sorted(numbers, key=lambda it: place(sample, it)):
        if sum(numbers[it] for it in found) * one_in >= sum(numbers.values()):
            break
        found.append(name)
    return found


class Record:
    """What a crate's file says, and whether that still holds."""

    def __init__(self, crate):
        self.crate, self.file = crate, f"{crate.folder}/{FILE}"
        self.now = {"kit": prover.version(), "scripts": sum_of_scripts(), "texts": shortened(stated.texts_of(crate.name))}
        self.now["reads"] = shortened(reads_of(crate))
        self.was, self.lines = {}, set()
        with contextlib.suppress(FileNotFoundError), open(self.file, encoding="utf-8") as it:
            rows = [line.rstrip("\n") for line in it if not line.startswith("#")]
            self.was = dict(row.split(" ", 1) for row in rows[: len(self.now)] if " " in row)
            self.lines = {*rows[len(self.now) :]}

    def holds(self):
        """Whether what the file says is of what there is now. One that was damaged, as by a merge, says nothing."""
        same = [key for key, word in self.now.items() if self.was.get(key) == word != NOT_KNOWN]
        return self.was.keys() == self.now.keys() and ("texts" in same or "kit" in same and "reads" in same)

    def is_of_others(self):
        return any(self.was.get(key) != self.now[key] for key in ("kit", "scripts"))

    def covers(self, edit):
        return line_of(edit) in self.lines and self.holds()

    def one_in(self):
        return OF_OTHERS if self.is_of_others() else OF_OWN

    def samples(self, edit, sample):
        """Whether a covered edit is one of those that are tried all the same."""
        is_crate_picked = self.crate.name in sampled_crates(sample, self.one_in() // OF_A_CRATE)
        return is_crate_picked and place(sample, self.crate.name, edit.title) % OF_A_CRATE == 0

    def told(self):
        """What there is to tell of it."""
        if self.lines and not self.holds():
            return "its record is of other texts, and covers nothing"
        if not self.lines or not self.is_of_others():
            return None
        was, now = (f"{it.get('kit')} with scripts {it.get('scripts')}" for it in (self.was, self.now))
        return f"its record is of {was}, and this is {now}: one in {OF_OTHERS} of what it covers is tried"

    def write(self, refused, bad):
        """Writes down the edits that were refused here, beside those lines that still hold, but for what wasn't. What others refused isn't taken for
        refused here, nor anything where a text changed meanwhile."""
        built.look_anew()
        if shortened(stated.texts_of(self.crate.name)) != self.now["texts"] or self.now["reads"] == NOT_KNOWN:
            return f"{FILE} is not written: a text changed meanwhile, or what stands below isn't built"
        there = [line_of(it) for folder in (OF_ROUNDS, OF_GATE) for it in edits_of(self.crate, folder)]
        old = self.lines if self.holds() and not self.is_of_others() else set()
        lines = sorted(({*map(line_of, refused)} | old) & {*there} - {*map(line_of, bad)})
        text = "\n".join([HEAD, *(f"{key} {word}" for key, word in self.now.items()), *lines, ""])
        with tempfile.NamedTemporaryFile("w", dir=os.path.dirname(self.file), delete=False, encoding="utf-8") as it:
            it.write(text)
        os.chmod(it.name, 0o644)
        os.replace(it.name, self.file)
        return f"{FILE} has {len(lines)} edits"
