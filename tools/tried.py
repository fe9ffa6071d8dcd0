"""What the rounds of earlier runs on this machine refused, kept below the user's cache folder.

A file has what is known of one state of a crate: its name has the sum of all that a round reads but the edits (the crate's text, the libraries
below it, the kit's version, and the scripts that try edits). So it never goes stale. One that is damaged, or another user's, counts for nothing.
"""
import contextlib
import glob
import hashlib
import json
import os
import tempfile

import built
import kit
import prover

# what decides whether an edit was refused
SCRIPTS = ("tests/rounds", *(f"tools/{it}.py" for it in ("checks", "edits", "kit", "prover", "tokens", "wrappers")))
# how many states of a crate are kept
MOST_STATES = 8


def folder():
    cache = os.environ.get("XDG_CACHE_HOME") or os.path.expanduser("~/.cache")
    return f"{cache}/kumquatfen/edits"


def sum_of_files(files):
    word = hashlib.sha256()
    for file in files:
        with open(file, "rb") as text:
            word.update(repr((os.path.relpath(file, kit.TOP), text.read())).encode())
    return word.hexdigest()


def state_of(crate):
    """One word for all that a round of this crate reads but its edits."""
    libraries = [f"{built.rlib_of(it)}/format" for it in kit.below(crate.name)]
    files = [*(f"{kit.TOP}/{it}" for it in SCRIPTS), *crate.files(), *libraries]
    return hashlib.sha256(repr((prover.version(), crate, sum_of_files(files))).encode()).hexdigest()


def word_of(edit):
    return hashlib.sha256(repr((edit.title, edit.text)).encode()).hexdigest()


def read(file):
    """What a file says of edits, by their words: nothing where it isn't one of this user's, or isn't whole."""
    try:
        with open(file, encoding="utf-8") as it:
            if os.fstat(it.fileno()).st_uid != os.geteuid():
                return {}
            said = json.load(it)
        refused = said["refused"] if said["state"] in file else {}
        return {word: told for word, told in refused.items() if told is None or isinstance(told, str)}
    except (OSError, ValueError, KeyError, TypeError, AttributeError):
        return {}


class Tried:
    """What is known of the edits of a crate, of which nothing is where all are to be tried anew."""

    def __init__(self, crate, anew):
        self.crate, self.state = crate, state_of(crate)
        self.file = f"{folder()}/{crate.name}-{self.state}.json"
        self.refused = {} if anew else read(self.file)

    def knows(self, edit):
        return word_of(edit) in self.refused

    def said_of(self, edit):
        """What was said of an edit that was refused, if anything was."""
        return self.refused[word_of(edit)]

    def keep(self, edits, refused):
        """Keeps what is said of those of these edits that were refused, unless a text changed meanwhile."""
        with contextlib.suppress(OSError):
            if state_of(self.crate) != self.state:
                return
            os.makedirs(folder(), 0o700, exist_ok=True)
            tried = {word_of(edit) for edit in edits}
            known = {word: said for word, said in read(self.file).items() if word not in tried}
            known |= {word_of(edit): said for edit, said in refused.items()}
            with tempfile.NamedTemporaryFile("w", dir=folder(), delete=False, encoding="utf-8") as it:
                json.dump({"state": self.state, "refused": known}, it)
            os.replace(it.name, self.file)
            self.shrink()

    def shrink(self):
        """Removes the states of the crate that were kept longest ago."""
        states = sorted(glob.glob(f"{folder()}/{self.crate.name}-*.json"), key=os.path.getmtime)
        for file in states[:-MOST_STATES]:
            os.remove(file)
