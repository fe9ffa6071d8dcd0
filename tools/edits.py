"""The edits of the crates that the prover has to refuse, and the texts that they make.

An edit is a file FUNCTION-MISTAKE.edit of lines 'file: PATH', 'old: TEXT' and 'new: TEXT', where TEXT stands once in that file of the crate.
Where more functions than one have the name in the files that are changed, a line 'function: PATH' says which, as a check prints it. A wrapper
has lines 'file:', 'wrap: FUNCTION' and 'body: TEXT' (see wrappers.py).
"""
import dataclasses
import glob
import os
from dataclasses import dataclass

# where a crate's edits are that rounds try; those that rt ci tries are in the folder above
OF_ROUNDS, OF_GATE = "must-fail/rounds", "must-fail"


class Failed(Exception):
    """Why a crate's edits, or one of them, show nothing."""


@dataclass(frozen=True)
class Wrapper:
    """A wrong body over a function that is left as it is."""

    file: str
    function: str
    body: str


@dataclass(frozen=True)
class Edit:
    # the file's name, and its bytes
    title: str
    text: str
    # the function's path below its crate, as a check prints it; none for an edit that is tried alone
    function: str
    # what stands once in a file of the crate, and what takes its place
    pairs: tuple
    wrapper: Wrapper | None

    def __str__(self):
        return self.title


def edit_in(title, text):
    """The edit of a file with that name and text."""
    function, file, old, wrapped, pairs, wrapper = "", None, None, None, [], None
    for line in text.split("\n"):
        key, _, value = line.partition(":")
        value = value.removeprefix(" ")
        match key:
            case "file":
                file = value
            case "old":
                old = value
            case "new":
                pairs.append((file, old, value))
            case "function":
                function = value
            case "wrap":
                wrapped = value
            case "body":
                wrapper = Wrapper(file, wrapped, value)
    return Edit(title, text, function, tuple(pairs), wrapper)


def edits_of(crate, folder):
    """The edits of a crate's files in that folder of it, whose functions aren't looked for yet."""
    found = []
    for file in sorted(glob.glob(f"{crate.folder}/{folder}/*.edit")):
        with open(file, encoding="utf-8") as it:
            found.append(edit_in(os.path.basename(file).removesuffix(".edit"), it.read()))
    return found


def with_function(edit, functions):
    """The edit with its function's path, which is one of these, in a module that the edit changes."""
    if edit.wrapper or edit.function in functions:
        return edit
    name = edit.title.partition("-")[0]
    modules = {file.removeprefix("src/").removesuffix(".rt").removesuffix("/mod") for file, _, _ in edit.pairs}
    paths = [it for it in functions if it.split("::")[-1] == name and any(is_within(it, module) for module in modules)]
    return dataclasses.replace(edit, function=paths[0] if len(paths) == 1 and not edit.function else "")


def is_within(path, module):
    """Whether a function stands in a module, or in the crate's root."""
    return module == "lib" or path.startswith(f"{module.replace('/', '::')}::")


def with_edits(folder, edits):
    """The texts of the files that these edits change, by their paths in the crate, whose text stands in that folder."""
    texts = {}
    for edit in edits:
        for file, old, new in edit.pairs:
            if file not in texts:
                texts[file] = text_of(folder, file, edit)
            if texts[file].count(old) != 1:
                raise Failed(f"{edit}: BAD EDIT: its old text is in {file} {texts[file].count(old)} times, and not once")
            texts[file] = texts[file].replace(old, new)
        if not edit.pairs:
            raise Failed(f"{edit}: BAD EDIT: it changes nothing")
    return texts


def text_of(folder, file, edit):
    """The text of a file that an edit changes."""
    try:
        with open(f"{folder}/{file}", encoding="utf-8") as it:
            return it.read()
    except OSError as error:
        raise Failed(f"{edit}: BAD EDIT: there is no file {file}") from error
