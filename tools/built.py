#!/usr/bin/env python3
"""What is built, and of what: `build` and `rt ci` make libraries and the program, and a stamp beside each holds the word of what it was made of.

  tools/built.py is-built   has status 0 where the program is built of what is there now, and 1 where it isn't
  tools/built.py forget     takes away the libraries and the program that rt ci is about to make anew
  tools/built.py sums       prints the words of what is there now, a line for each crate
  tools/built.py take       reads such lines, and notes as built what rt ci made of the same
"""
import contextlib
import fcntl
import functools
import hashlib
import os
import shutil
import sys

sys.dont_write_bytecode = True
import kit  # noqa: E402

# where what is made of a crate stands in its folder
MADE = "out/rlib/build"
# what says how a crate is made
TOOLS = ("build", "tools/kit.py", "tools/built.py")
# the last line of a note
NOTE_END = "end\n"
# so many nanoseconds behind a change, another one has another time, on any file system
SETTLED = 3_000_000_000


def made_of(name):
    return f"{kit.crates()[name].folder}/{MADE}"


def rlib_of(name):
    return f"{made_of(name)}/{name}.rlib"


def rlib_of_ci(name):
    """Where rt ci puts the library that it makes of a crate."""
    return f"{kit.crates()[name].folder}/out/rlib/{name}.rlib"


def program():
    return f"{kit.crates()[kit.PROGRAM].folder}/out/{kit.PROGRAM}"


def stamp_of(name):
    return f"{os.path.dirname(program())}/built" if name == kit.PROGRAM else f"{made_of(name)}/stamp"


def sum_of_files(files, word):
    """Adds each file, with its path below the top, to the word."""
    for file in files:
        with open(file, "rb") as it:
            text = it.read()
        word.update(f"{file.removeprefix(kit.TOP)!r} {len(text)}\n".encode())
        word.update(text)
    return word.hexdigest()


@functools.cache
def sum_of_tools():
    return sum_of_files([f"{kit.TOP}/{it}" for it in TOOLS], hashlib.sha256())


@functools.cache
def own_sum_of(name):
    """One word for a crate's line of crates.txt and its files."""
    crate = kit.crates()[name]
    return sum_of_files(crate.files(), hashlib.sha256(repr(crate).encode()))


def look_anew():
    """Has the next sums made of the files as they are then: a file is read once until then."""
    sum_of_tools.cache_clear()
    own_sum_of.cache_clear()


def sum_of(name):
    """One word for all texts of the repository that are made into a crate."""
    sums = [sum_of_tools(), *(own_sum_of(it) for it in (*kit.below(name), name))]
    return hashlib.sha256(" ".join(sums).encode()).hexdigest()


def word_of(name):
    """The line that says what a crate is made of: its texts and the kit."""
    return f"{sum_of(name)} {kit.version()}"


def is_made(name, texts=sum_of):
    """Whether the crate's library, or the program, is made of what is there now. With no rt the kit isn't known, and the texts alone decide."""
    stands = os.path.isfile(program()) and os.access(program(), os.X_OK) if name == kit.PROGRAM else os.path.isdir(rlib_of(name))
    try:
        with open(stamp_of(name), encoding="utf-8") as stamp:
            made_of_texts, _, made_by = stamp.read().partition(" ")
    except FileNotFoundError:
        return False
    return stands and (not kit.home() or made_by == kit.version()) and made_of_texts == texts(name)


def is_program_built():
    return is_made(kit.PROGRAM, noted_sum_of)


def note_of(name):
    """The file that notes the sum of a crate's texts, with the times and sizes that these had."""
    return f"{os.path.dirname(stamp_of(name))}/noted"


def places(name):
    """What the sum of a crate is made of, below the top: the tools, and the folders and files of the crates. A folder comes before what is in it."""
    yield from TOOLS
    for it in (*kit.below(name), name):
        for folder in (f"{kit.crates()[it].folder}/{part}" for part in kit.PARTS):
            yield folder.removeprefix(f"{kit.TOP}/")
            for at, folders, files in os.walk(folder):
                yield from (f"{at}/{below}".removeprefix(f"{kit.TOP}/") for below in folders + files)


def state_of(place):
    """A line that is another one after any change of a file, or of the names in a folder."""
    try:
        it = os.stat(f"{kit.TOP}/{place}")
    except OSError:
        return f"{place}\tnone\n"
    return f"{place}\t{it.st_dev} {it.st_ino} {it.st_size} {it.st_mtime_ns} {it.st_ctime_ns}\n"


def is_settled(state, begun):
    """Whether the last change was so long before that a later one has another time."""
    return all(int(time) < begun - SETTLED for time in state.rpartition("\t")[2].split()[3:])


def crates_of(name):
    """A line of a crate and those below it, as crates.txt has them."""
    return f"{[kit.crates()[it] for it in (*kit.below(name), name)]!r}\n"


def noted_sum_of(name):
    """As sum_of, but no text is read where all is as it was when the sum was noted."""
    try:
        with open(note_of(name), encoding="utf-8") as note:
            noted, crates, *states, end = note
    except (OSError, ValueError):
        return sum_and_note_of(name)
    is_whole = crates == crates_of(name) and end == NOTE_END
    return noted.rstrip("\n") if is_whole and all(it == state_of(it.partition("\t")[0]) for it in states) else sum_and_note_of(name)


def sum_and_note_of(name):
    """As sum_of, and notes it, unless a text changed just before. Each text is read behind its state."""
    new = f"{note_of(name)}.{os.getpid()}"
    with contextlib.suppress(OSError):
        with open(new, "w", encoding="utf-8") as note:
            begun = os.fstat(note.fileno()).st_mtime_ns
            states = [state_of(place) for place in places(name)]
            look_anew()
            note.writelines([f"{sum_of(name)}\n", crates_of(name), *states, NOTE_END])
        if all(is_settled(state, begun) for state in states):
            os.replace(new, note_of(name))
    with contextlib.suppress(OSError):
        os.remove(new)
    return sum_of(name)


def note_made(name, word):
    """Notes what a crate's library, or the program, was made of."""
    with open(stamp_of(name), "w", encoding="utf-8") as stamp:
        stamp.write(word)


def note_not_made(name):
    with contextlib.suppress(FileNotFoundError):
        os.remove(stamp_of(name))


@contextlib.contextmanager
def without_ci():
    """Waits for an rt ci of this copy of the repository to end, and holds off the next one."""
    git = f"{kit.TOP}/.git"
    with open(f"{git}/rt-ci.lock", "w", encoding="utf-8") if os.path.isdir(git) else contextlib.nullcontext() as lock:
        if lock:
            fcntl.flock(lock, fcntl.LOCK_EX)
        yield


def forget():
    """Takes away the program, and what stands where rt ci puts libraries, so that what stands there behind rt ci was made by it."""
    note_not_made(kit.PROGRAM)
    with contextlib.suppress(FileNotFoundError):
        os.remove(program())
    for name, crate in kit.crates().items():
        # rt ci gives back what one that was killed had set aside
        for folder in (f"{crate.folder}/out/rlib", f"{kit.TOP}/.git/rt-aside/{name}/rlib"):
            if os.path.isdir(folder):
                shutil.rmtree(folder)


def is_made_by_ci(name):
    return os.access(program(), os.X_OK) if name == kit.PROGRAM else os.path.isfile(f"{rlib_of_ci(name)}/format")


def link_or_copy(file, to):
    try:
        os.link(file, to)
    except OSError:
        shutil.copy2(file, to)


def take(words):
    """Notes as made what rt ci made of the texts that had these words before it, and answers the crates whose texts have others now."""
    changed = []
    for name in filter(is_made_by_ci, kit.crates()):
        if words.get(name) != word_of(name):
            changed.append(name)
            continue
        note_not_made(name)
        if name != kit.PROGRAM:
            shutil.rmtree(rlib_of(name), ignore_errors=True)
            shutil.copytree(rlib_of_ci(name), rlib_of(name), copy_function=link_or_copy)
        note_made(name, words[name])
    return changed


def main(verb):
    if verb == "is-built":
        return 0 if is_program_built() else 1
    if verb == "forget":
        with without_ci():
            forget()
    elif verb == "sums":
        for name in kit.crates():
            print(name, word_of(name))
    elif verb == "take":
        changed = take(dict(line.rstrip("\n").split(" ", 1) for line in sys.stdin if " " in line))
        if changed:
            print(f"built.py: not taken, since a text has changed meanwhile: {' '.join(changed)}", file=sys.stderr)
    else:
        print("usage: tools/built.py is-built|forget|sums|take", file=sys.stderr)
        return 3
    return 0


if __name__ == "__main__":
    sys.exit(main(" ".join(sys.argv[1:])))
