"""What a built library states, and what a check of a crate reads, each in one word.

A library that was built with --statements has a row with a sum in toolchain/made.json for each module that was made of its text, and in
toolchain/checked.json one for each module that a check above can read; it checks none of the others. A body, its goals and their answers are
modules that none can read. The code of a function, and what links it, can be named above, but are sealed, so that nothing unfolds them. All
else is stated: the contracts, the types, specs/, and the proof files that no function owns. It is summed file by file, since the sums in the
library (format, checked.a) are of bodies too. A change of a body, a comment or an answer leaves the word as it is, and one of a clause doesn't.
"""
import functools
import hashlib
import json
import os
import re

import built
import kit
from edits import Failed

# modules of proofs/ that only what links a program or an archive reads
SEALED = ("Code", "TheLink", "TheLinks")
# lines of a library's format that are sums of bodies too, its own or of the crates below, which have words of their own
OF_BODIES = ("sum", "checked", "over")


def rows(file):
    with open(file, encoding="utf-8") as it:
        return [json.loads(line) for line in it]


def part_of(name, module):
    """How checked.json calls a module, which made.json and the files of lang/antt name by a path."""
    of_facade = module == "facade" or module.startswith("facade/")
    path = module.removeprefix("facade").replace("/", ".") if of_facade else f"-{module.replace('/', '.')}"
    return f"part/Rattle-{name}{path}"


def is_sealed(module):
    library, *path = module.split("/")
    return library == "proofs" and (path[-1:] in ([it] for it in SEALED) or path[-2:-1] == ["TheLinks"])


def files_below(folder):
    """The files below a folder, by their paths in it, with their bytes."""
    for at, folders, names in os.walk(folder):
        folders.sort()
        for name in sorted(names):
            with open(f"{at}/{name}", "rb") as it:
                yield os.path.relpath(f"{at}/{name}", folder), it.read()


@functools.cache
def stated_by(name):
    """One word for what the crate's built library states."""
    rlib = built.rlib_of(name)
    can_be_read = {row[0] for row in rows(f"{rlib}/toolchain/checked.json") if re.match(rf"part/Rattle-{name}(?![a-z0-9_])", row[0])}
    made = {part_of(name, module): (module, *told) for module, _, _, *told in rows(f"{rlib}/toolchain/made.json")}
    written = {part_of(name, file.removesuffix(".antt")): (file, text) for file, text in files_below(f"{rlib}/lang/antt") if file.endswith(".antt")}
    if not can_be_read or can_be_read - {*made, *written}:
        raise Failed(f"the library {name} is none of the form that tools/stated.py knows")
    said = [it for part, it in made.items() if part in can_be_read and not is_sealed(it[0])]
    said += [it for part, it in written.items() if part in can_be_read]
    said += files_below(f"{rlib}/interface")
    with open(f"{rlib}/format", encoding="utf-8") as it:
        said += [line for line in it if line.partition(" ")[0].strip() not in OF_BODIES]
    return hashlib.sha256(repr(said).encode()).hexdigest()


def whole(name):
    """One word for a built library with its bodies, and those below it."""
    with open(f"{built.rlib_of(name)}/format", encoding="utf-8") as it:
        return hashlib.sha256(it.read().encode()).hexdigest()


def texts_of(name):
    """One word for the crate's texts and those below, whole."""
    return hashlib.sha256(repr([built.own_sum_of(it) for it in (*kit.below(name), name)]).encode()).hexdigest()


def read_by(name):
    """One word for what a check of the crate reads of the repository: its own texts, and what those below state; or None where one of these isn't
    built of what is there now. What links code reads bodies as well."""
    if not all(built.is_made(it) for it in kit.below(name)):
        return None
    links = name == kit.PROGRAM or kit.crates()[name].is_static
    words = [(it, whole(it) if links else stated_by(it)) for it in kit.below(name)]
    return hashlib.sha256(repr((built.own_sum_of(name), words)).encode()).hexdigest()
