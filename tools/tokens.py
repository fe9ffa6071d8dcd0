"""The tokens of a source file, and where a function's body stands among them."""
import json
import subprocess
import tempfile
from dataclasses import dataclass

import kit
from edits import Failed

OPENS, CLOSES = "([{", ")]}"


@dataclass(frozen=True)
class Token:
    start: int
    end: int
    # Code, Literal, Head (of a clause), Antt (what the clause says) or End
    kind: str
    text: str


def all_tokens(file):
    """The tokens of a file: none where it can't be read."""
    words = [f"{kit.home()}/bin/rattle", "fmt", "--tokens", file]
    said = subprocess.run(words, stdout=subprocess.PIPE, stderr=subprocess.DEVNULL, check=False, text=True).stdout
    rows = [line.split(" ", 4) for line in said.split("\n")[1:] if line]
    return [Token(int(start), int(end), kind, json.loads(text)) for _, start, end, kind, text in rows]


def tokens(file):
    """The tokens of a file that aren't a clause's."""
    return [it for it in all_tokens(file) if it.kind in ("Code", "Literal")]


def closing(row, at):
    """The place of the bracket that closes the one at this place."""
    depth = 0
    for place in range(at, len(row)):
        if row[place].kind == "Code":
            depth += (row[place].text in OPENS) - (row[place].text in CLOSES)
            if not depth:
                return place
    raise Failed("a bracket is not closed")


def opening(row, at):
    """The place of the first brace from here on that isn't inside brackets."""
    while at < len(row):
        if row[at].text == "{":
            return at
        at = closing(row, at) + 1 if row[at].text in ("(", "[") else at + 1
    raise Failed("there is no body")


def tokens_of_text(text):
    """The tokens of a text that stands in no file."""
    with tempfile.NamedTemporaryFile("w", suffix=".rt", encoding="utf-8") as file:
        file.write(text)
        file.flush()
        return all_tokens(file.name)


def without_body(row, at):
    """The words of a row of tokens but those of the body of the function whose name stands at this place."""
    code = [place for place, it in enumerate(row) if it.kind in ("Code", "Literal")]
    told = [row[place] for place in code]
    first = opening(told, code.index(at))
    return [it.text for it in row[: code[first]] + row[code[closing(told, first)] + 1 :]]


def places_of(row, name):
    """Where functions of that name are declared."""
    code = [place for place, it in enumerate(row) if it.kind == "Code"]
    return [at for before, at in zip(code, code[1:]) if row[before].text == "fn" and row[at].text == name]


def changes_body_alone(was, now, name):
    """Whether all that differs between two rows of tokens is the body of one function of that name."""
    before, after = places_of(was, name), places_of(now, name)
    return len(before) == len(after) and any(without_body(was, one) == without_body(now, other) for one, other in zip(before, after))
