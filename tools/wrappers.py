"""Wrong bodies that are wrapped around a function: another function, with the signature and the clauses of that one, which calls it.

Such a body is refused by a clause alone: its proof has no file of answers that could lose a goal's name. What the tactics can find of the
clauses is seen by a plain wrapper, which hands the call on and has to be proved.
"""
from dataclasses import dataclass

from edits import Failed, text_of
from tokens import closing, opening, tokens


@dataclass(frozen=True)
class Function:
    """A function of a file, by the places of its parts among the bytes."""

    # what stands before its name, and behind it up to its body
    before: str
    behind: str
    parameters: tuple
    end: int
    # what its impl says in front of the brace, and where that ends; none for a function of a module
    of_impl: str
    # the names that its impl alone takes in
    uses: str
    impl_end: int
    is_of_trait: bool


def impl_around(row, at):
    """The place of the impl that a function stands in, if there is one."""
    for place in range(at, -1, -1):
        if row[place].text == "impl" and closing(row, opening(row, place)) > at:
            return place
    return None


def parameters_of(row, at):
    """The names of a function's parameters, whose list opens at this place."""
    names, end, at = [], closing(row, at), at + 1
    while at < end:
        words = []
        while at < end and row[at].text != ",":
            last = closing(row, at) if row[at].text in "([{" else at
            words += [it.text for it in row[at : last + 1]]
            at = last + 1
        words = words[: words.index(":")] if ":" in words else words
        names += words[-1:]
        at += 1
    return tuple(names)


def attributes_before(row, at):
    """The place of a function's first attribute, or of the function where it has none."""
    while row[at - 1].text in ("pub", "const", "unsafe"):
        at -= 1
    while row[at - 1].text == "]":
        place = next(it for it in range(at - 1, -1, -1) if row[it].text == "[" and closing(row, it) == at - 1)
        if row[place - 1].text != "#":
            break
        at = place - 1
    return at


def has_body(row, at):
    """Whether a function whose name stands here has a body, which a trait's may lack."""
    while row[at].text not in ("{", ";"):
        at = closing(row, at) + 1 if row[at].text in ("(", "[") else at + 1
    return row[at].text == "{"


def function_of(data, row, name):
    """The one function of that name."""
    found = [at for at in range(1, len(row)) if row[at].text == name and row[at - 1].text == "fn" and has_body(row, at)]
    if len(found) != 1:
        raise Failed(f"there are {len(found)} functions {name} with a body in the file, and not one")
    at = found[0]
    body = opening(row, at)
    attributes = "".join(data[row[it].start : row[it].end].decode() for it in range(attributes_before(row, at - 1), at - 1) if row[it].text != "pub")
    listed = next(it for it in range(at, body) if row[it].text == "(" and row[it - 1].text in (name, ">"))
    outer = impl_around(row, at)
    of_impl, uses, impl_end, is_of_trait = "", "", 0, False
    if outer is not None:
        brace = opening(row, outer)
        of_impl, is_of_trait = impl_head(data, row, outer, brace)
        impl_end = row[closing(row, brace)].end
        uses = uses_in(data, row, brace, at)
    behind = data[row[at].end : row[body].start].decode()
    return Function(f"{attributes} fn ", behind, parameters_of(row, listed), row[closing(row, body)].end, of_impl, uses, impl_end, is_of_trait)


def uses_in(data, row, start, end):
    """The lines 'ghost use' between these places; other ghost items are no code."""
    places = [it for it in range(start, end) if row[it].text == "ghost" and row[it + 1].text == ";"]
    return " ".join(data[row[it].start : row[it + 1].end].decode() for it in places)


def impl_head(data, row, at, brace):
    """The head of an impl of the type alone, and whether it was one of a trait."""
    words = [row[it].text for it in range(at, brace)]
    if "for" not in words:
        return data[row[at].start : row[brace].start].decode(), False
    generics = at + 1
    if row[generics].text == "<":
        depth, generics = 0, at
        while True:
            generics += 1
            depth += (row[generics].text == "<") - (row[generics].text == ">")
            if not depth:
                break
        generics += 1
    what = data[row[at].start : row[generics].start].decode()
    return f"{what} {data[row[at + words.index('for')].end : row[brace].start].decode()}", True


def plain_call(function, name):
    """The call that hands the parameters on."""
    has_self = function.parameters[:1] == ("self",)
    place = "self." if has_self else "Self::" if function.of_impl else ""
    return f"{place}{name}({', '.join(function.parameters[has_self:])})"


def written(function, name, body):
    """A function with the head of this one, and where it goes."""
    text = f"{function.before}{name}{function.behind}{{ {body} }}"
    if function.is_of_trait:
        return function.impl_end, f"\n{function.of_impl}{{ {function.uses} {text} }}\n"
    return function.end, f"\n{text}\n"


def with_wrappers(folder, edits):
    """The texts with these wrappers and a plain one for each function, and the names of both for each edit."""
    files, names = {}, {}
    for file in {it.wrapper.file for it in edits}:
        here = [it for it in edits if it.wrapper.file == file]
        data = text_of(folder, file, here[0]).encode()
        row, added = tokens(f"{folder}/{file}"), []
        for function in sorted({it.wrapper.function for it in here}):
            of_it = [it for it in here if it.wrapper.function == function]
            try:
                found = function_of(data, row, function)
                if "ensures" not in found.behind:
                    raise Failed(f"{function} has no clause of its own, as where its impl repeats none of its trait's")
            except Failed as why:
                raise Failed(f"{of_it[0]}: BAD EDIT: {why}") from why
            added.append(written(found, f"plain_{function}", plain_call(found, function)))
            for number, edit in enumerate(of_it):
                names[edit] = (f"plain_{function}", f"wrong_{number}_{function}")
                added.append(written(found, names[edit][1], edit.wrapper.body))
        files[file] = with_added(data, added)
    return files, names


def with_added(data, added):
    """The text with what is added, each at its place."""
    for place, text in sorted(added, key=lambda it: -it[0]):
        data = data[:place] + text.encode() + data[place:]
    return data.decode()
