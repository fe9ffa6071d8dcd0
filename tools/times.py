"""What the checks of crates take: as ./build noted it, and function by function.

Seconds depend on what else the machine does. How much the checker writes down of each function's walk (the modules named Lts) doesn't, and a
megabyte of it takes about a second of a processor, so that is what functions are compared by.
"""
import collections
import contextlib
import os
import re
import subprocess
import tempfile

import built
import kit

# how many functions are told
MOST = 10
# a module of a function's walk, behind the crate's name: where it stands, and the function
WALK = re.compile(r"Rattle-\w+-proofs\.(.*?)\.Lts(\..*)?\.oantt$")


def file_of(name):
    return f"{built.made_of(name)}/times"


def note(name, real, used):
    """Notes what the latest build of a crate took: seconds of the clock and of processors."""
    with open(file_of(name), "w", encoding="utf-8") as it:
        it.write(f"{real:.0f} {used:.0f}\n")


def noted(name):
    """What was noted, or nothing."""
    with contextlib.suppress(OSError, ValueError), open(file_of(name), encoding="utf-8") as it:
        real, used = map(int, it.read().split())
        return real, used
    return None


def told_of_crates(names):
    """A line for each crate that was built here, the dearest first, and one for all."""
    found = {it: noted(it) for it in names}
    known = {it: times for it, times in found.items() if times}
    lines = [f"{'seconds':>8} {'of processor':>13} {'lines':>7}  crate"]
    for name in sorted(known, key=lambda it: -known[it][1]):
        lines.append(f"{known[name][0]:>8} {known[name][1]:>13} {kit.crates()[name].length():>7}  {name}")
    return [*lines, f"{sum(it[1] for it in known.values()) / 60:.0f} minutes of processor for {len(known)} of {len(found)} crates"]


def walks_in(folder):
    """The bytes of each function's walk in what a check kept there."""
    found = collections.Counter()
    for at, _, names in os.walk(folder):
        for name in names:
            walk = WALK.search(name)
            if walk:
                found[walk[1].replace(".", "::")] += os.path.getsize(f"{at}/{name}")
    return found


def told_of_functions(name):
    """Checks a crate anew, and tells the functions whose walks are the longest."""
    with tempfile.TemporaryDirectory() as kept:
        words = [*kit.words("check", name, built.MADE), "--jobs", "1", "--incremental", kept]
        status = subprocess.run(words, cwd=kit.crates()[name].folder, stdout=subprocess.DEVNULL, stderr=subprocess.DEVNULL, check=False).returncode
        walks = walks_in(kept)
    if status:
        return [f"{name} is not proved, or what stands below it isn't built"]
    lines = [f"{'kB':>8}  function"] + [f"{size / 1000:>8.0f}  {function}" for function, size in walks.most_common(MOST)]
    return [*lines, f"{sum(walks.values()) / 1e6:.1f} MB for all {len(walks)} functions of {name}"]
