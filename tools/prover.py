"""What the kit's prover says of a check, read line by line.

The prover tells a check's outcome in prose, and each pattern of that prose that is relied on stands here, with the versions of the kit that
speak so. `tests/rounds.sh` has a case for each.
"""
import functools
import re
from dataclasses import dataclass

import kit

# the kits whose words these are
WRITTEN_FOR = ("rattle-kit-13b", "rattle-kit-13f")

# a proof file that names what an edit took away, and what cites that proof
OF_A_NAME = re.compile(r"(note: )?(\./)?proofs/.*(has no field|is not in scope|has no `|was not admitted)")
# what is said of a text that the prover can't read, where one that makes a goal false reads well
UNREAD = re.compile(r"is not in scope|has no field|is no name|operand is missing|expected the end|cannot continue")
# an error in a text that was edited
OF_A_TEXT = re.compile(r"(?:\./)?(?:src|specs)/\S+:\d+:\d+: error: (`[^`]*`: )?(.*)")
# an error of the front end, behind which nothing reaches the prover
OF_THE_FRONT_END = re.compile(r"\berror\[[\w-]+\]")
# limits of the prover's own
LIMITS = re.compile(r"antt ran out of (stack|the (steps|memory) that)|(outgrew the memory limit|stopped at the step limit) \(")
# what is said of one item
ITEM = re.compile(r"(fn|struct|enum|union|impl|trait) (\S+): (.*)")
# an error in what was written of a function's proof, which stands in a folder of its own
OF_A_PROOF = re.compile(r"(?:note: )?(?:\./)?proofs/(\S+)/[^/\s]+\.antt:\d+:\d+: error")
# a goal of a function that is open
OPEN_GOAL = re.compile(r"note: src/\S+:\d+:\d+: (it is not proved|`search` found no proof)")
# of these one of a clause of its own, which the tactics didn't give up
OPEN_CLAUSE = re.compile(r".*it is not proved that what the function ensures holds when it returns(?!.*gave up)")
# a function that is not proved for one that it calls
FOR_A_CALLEE = re.compile(r"which (is|are) not proved|which has no proof")
CALLEE = re.compile(r"`([^`\s]+::[^`\s]+)`")
# one of many lines that place what they say
PLACED = re.compile(r"(note: )?\S+:\d+:\d+:")
# a function was checked
CHECKED = re.compile(r"checked (\S+), \d+ of")
NOT_PROVED = "logic=not-proved"


@functools.cache
def version():
    """The kit's version, by its name."""
    with open(f"{kit.home()}/KIT-ID", encoding="utf-8") as file:
        return file.read().split()[0]


def is_known():
    """Whether the kit is one of those whose words these are."""
    return version() in WRITTEN_FOR


def is_unread(line):
    """Whether a check says so that it can't read a text of src/ or specs/."""
    error = OF_A_TEXT.match(line)
    if error:
        return not error[1] or bool(UNREAD.search(re.sub(r"`[^`]*`", "", error[2])))
    return bool(OF_THE_FRONT_END.search(line))


def refused_by_name(told):
    return bool(told) and all(OF_A_NAME.match(it) for it in told)


def is_at_limit(lines):
    return any(LIMITS.search(it) for it in lines)


def errors_in(lines):
    """Those lines that tell what isn't proved, each with its place."""
    return [it for it in lines if PLACED.match(it) and (": error" in it or it.startswith("note: "))]


@dataclass(frozen=True)
class Verdict:
    """What a check says of one function."""

    line: str
    # the errors and notes that it has of the function's goals
    told: tuple

    def is_proved(self):
        return self.line == "proved"

    def waits(self):
        """Whether a function that it calls is not proved."""
        return bool(FOR_A_CALLEE.search(self.line))

    def is_covered(self):
        """Whether the borrow checker has done its part, without which no goal is looked at. That waits for what a function calls, too."""
        return self.waits() or "the borrow checker" not in self.line

    def is_open(self):
        """Whether a goal of its own is not proved: what it calls is known by contracts, so no goal is open for want of a proof of that."""
        if self.is_proved() or not self.is_covered() or self.line.startswith("could not tell"):
            return False
        return not self.waits() or bool(self.told) and not refused_by_name(self.told)

    def breaks_clause(self):
        """Whether a clause of its own is not proved."""
        return any(OPEN_CLAUSE.match(it) for it in self.told)

    def callees(self):
        return CALLEE.findall(self.line) if self.waits() else []


def verdicts(crate, lines):
    """What a check's lines say of each function, by its path below the crate."""
    found, told, of_files = {}, [], {}
    for line in lines:
        item, error = ITEM.match(line), OF_A_PROOF.match(line)
        if error:
            of_files.setdefault(error[1].replace("/", "::"), []).append(line)
        elif item:
            if item[1] == "fn":
                path = item[2].removeprefix(f"{crate.name}::")
                found[path] = Verdict(item[3], (*told, *of_files.get(path, ())))
            told = []
        elif OPEN_GOAL.match(line):
            told.append(line)
    return found
