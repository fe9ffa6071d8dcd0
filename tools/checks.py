"""Checks of copies of a crate with some edits, over what a check of the crate as it stands kept."""
import heapq
import itertools
import os
import shutil
import subprocess
import tempfile
import threading
import time

import built
import kit
import prover
from edits import Failed, with_edits
from tokens import all_tokens, changes_body_alone, tokens_of_text
from wrappers import with_wrappers


def copied(folder, to):
    """Copies what a check kept, by links where it was proved: a check replaces such a file, and changes none."""
    link = lambda one, other: os.link(one, other) if one.endswith(".oantt") else shutil.copy2(one, other)
    shutil.copytree(folder, to, symlinks=True, copy_function=link)


class Lanes:
    """As many checks at one time as the machine has processors and memory for; those of the longest crates come first."""

    def __init__(self):
        self.free = self.most = kit.lanes()
        self.waiting, self.turn, self.numbers = [], threading.Condition(), itertools.count()
        # the longest time that a proof has taken, by function
        self.seconds = {}

    def run(self, words, folder, length):
        """Runs a check of a crate of that length, and answers its status and its lines."""
        place = (-length, next(self.numbers))
        with self.turn:
            heapq.heappush(self.waiting, place)
            self.turn.wait_for(lambda: self.free and self.waiting[0] == place)
            heapq.heappop(self.waiting)
            self.free -= 1
            self.turn.notify_all()
        try:
            return self.read(words, folder)
        finally:
            with self.turn:
                self.free += 1
                self.turn.notify_all()

    def read(self, words, folder):
        lines, last = [], time.monotonic()
        how = {"stdin": subprocess.DEVNULL, "stdout": subprocess.PIPE, "stderr": subprocess.STDOUT, "errors": "replace", "text": True}
        with subprocess.Popen(words, cwd=folder, **how) as check:
            for line in check.stdout:
                # the check ends with one function after another
                if ended := prover.CHECKED.match(line):
                    self.seconds[ended[1]] = max(self.seconds.get(ended[1], 0), time.monotonic() - last)
                    last = time.monotonic()
                lines.append(line.rstrip("\n"))
        return check.returncode, lines


class Checks:
    """The checks of one crate, each of a copy with some edits, over what a check of the crate as it stands kept."""

    def __init__(self, crate, lanes, room):
        self.crate, self.lanes, self.room = crate, lanes, room
        self.number, self.alone, self.length, self.of_files = 0, threading.Lock(), crate.length(), {}
        lacking = [it for it in kit.below(crate.name) if not built.is_made(it)]
        if lacking:
            raise Failed(f"the library {lacking[0]} isn't made of what is there now: run ./build")
        # what is tried is the text of this moment
        for part in kit.PARTS:
            if os.path.isdir(f"{crate.folder}/{part}"):
                shutil.copytree(f"{crate.folder}/{part}", f"{room}/text/{part}")
        start = f"{crate.folder}/out/incremental"
        if os.path.isdir(start):
            copied(start, f"{room}/kept")
        else:
            os.mkdir(f"{room}/kept")
        status, lines = self.check({}, f"{room}/kept")
        if status:
            raise Failed(f"it is not proved as it stands: {lines[-1]}")
        self.functions = [*prover.verdicts(crate, lines)]

    def check(self, texts, kept, *flags):
        with self.alone:
            self.number += 1
            at = f"{self.room}/{self.number}"
        shutil.copytree(f"{self.room}/text", at)
        for file, text in texts.items():
            with open(f"{at}/{file}", "w", encoding="utf-8") as it:
                it.write(text)
        words = [*kit.words("check", self.crate.name, built.MADE), "--jobs", "1", "--incremental", kept, *flags]
        said = self.lanes.run(words, at, self.length)
        shutil.rmtree(at)
        return said

    def over_kept(self, texts, only=()):
        """Checks a copy with these texts, or of it just these functions, and answers the status and the lines."""
        kept = tempfile.mkdtemp(dir=self.room)
        copied(f"{self.room}/kept", f"{kept}/over")
        try:
            return self.check(texts, f"{kept}/over", "--progress", *(word for path in sorted(only) for word in ("--only", path)))
        finally:
            shutil.rmtree(kept)

    def with_edits(self, edits, only=()):
        return self.over_kept(with_edits(f"{self.room}/text", edits), only)

    def with_wrappers(self, edits):
        """Checks a copy with these wrappers, and answers the lines, and each edit's names of the plain function and the wrong one."""
        texts, names = with_wrappers(f"{self.room}/text", edits)
        return self.over_kept(texts, {name for pair in names.values() for name in pair})[1], names

    def is_of_body(self, edit):
        """Whether the edit changes the body of its function and nothing else."""
        name = edit.function.split("::")[-1]
        try:
            texts = with_edits(f"{self.room}/text", [edit])
            return len(texts) == 1 and all(changes_body_alone(self.tokens(file), tokens_of_text(text), name) for file, text in texts.items())
        except Failed:
            return False

    def tokens(self, file):
        if file not in self.of_files:
            self.of_files[file] = all_tokens(f"{self.room}/text/{file}")
        return self.of_files[file]
