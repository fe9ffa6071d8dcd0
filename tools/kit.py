"""The crates of crates.txt, and how the kit's compiler is called over them."""
import functools
import os
import shutil
from collections import namedtuple

TOP = os.path.dirname(os.path.dirname(os.path.realpath(__file__)))
PROGRAM = "dbmtool"
PARTS = ("src", "specs", "proofs")
# the most memory that a check of one of the crates has taken, in kB
ONE_CHECK = 2_300_000


class Crate(namedtuple("Crate", ("name", "of_kit", "uses", "is_static"))):
    """A crate, what it uses of the kit and of the repository, and whether it is a library for C."""

    @property
    def folder(self):
        return f"{TOP}/crates/{self.name}"

    @property
    def root(self):
        return f"src/{'main' if self.name == PROGRAM else 'lib'}.rt"

    def files(self):
        for part in PARTS:
            for at, folders, names in os.walk(f"{self.folder}/{part}"):
                folders.sort()
                yield from (f"{at}/{name}" for name in sorted(names))

    def length(self):
        """How many lines it has, which tells how long its check takes."""
        total = 0
        for file in self.files():
            with open(file, "rb") as text:
                total += text.read().count(b"\n")
        return total


def crate_of(name, *kind, uses, names):
    """A crate of crates.txt, by what stands in front of the colon and behind it."""
    return Crate(name, tuple(it for it in uses if it not in names), tuple(it for it in uses if it in names), kind == ("staticlib",))


@functools.cache
def crates():
    """The repository's crates by name, as crates.txt has them."""
    with open(f"{TOP}/crates.txt", encoding="utf-8") as file:
        lines = [line.partition("#")[0] for line in file]
    rows = [line.partition(":") for line in lines if ":" in line]
    names = {head.split()[0] for head, _, _ in rows}
    made = (crate_of(*head.split(), uses=uses.split(), names=names) for head, _, uses in rows)
    return {it.name: it for it in made}


@functools.cache
def below(name):
    """The crates that this one stands on, each behind those that it uses."""
    names = []
    for it in crates()[name].uses:
        names += [other for other in (*below(it), it) if other not in names]
    return tuple(names)


@functools.cache
def home():
    """The kit's folder, or None where rt isn't on PATH."""
    rt = shutil.which("rt")
    return os.path.dirname(os.path.dirname(os.path.realpath(rt))) if rt else None


@functools.cache
def version():
    """The kit's folder and version in one line, or None where rt isn't on PATH."""
    if not home():
        return None
    try:
        with open(f"{home()}/KIT-ID", encoding="utf-8") as file:
            return " ".join([home(), *file.read().split()])
    except FileNotFoundError:
        return home()


def words(verb, name, made):
    """The words by which the compiler is called at a crate, over libraries that stand in the folders `made`, each in its crate's."""
    crate = crates()[name]
    said = [f"{home()}/bin/rattle", verb, "--crate-name", name, crate.root]
    if crate.is_static:
        said += ["--crate-type", "staticlib"]
    for it in ("std", *crate.of_kit):
        said += ["--extern", f"{it}={home()}/rlibs/{it}.rlib"]
    for it in crate.uses:
        said += ["--extern", f"{it}={crates()[it].folder}/{made}/{it}.rlib"]
    for folder in (f"{home()}/rlibs", *(f"{crates()[it].folder}/{made}" for it in below(name))):
        said += ["-L", f"dependency={folder}"]
    said += ["--antt-project", f"{home()}/rattle/logic/antt-project.json", "--logic-built", f"{home()}/logic_built"]
    return [*said, "--links", f"{name}="]


def room():
    """For how many checks there is memory."""
    with open("/proc/meminfo", encoding="utf-8") as file:
        free = next(int(line.split()[1]) for line in file if line.startswith("MemAvailable:"))
    return free // ONE_CHECK


def lanes():
    """How many checks run at one time: one a processor, as many as memory holds."""
    return max(1, min(len(os.sched_getaffinity(0)), room()))
