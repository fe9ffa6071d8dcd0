#!/usr/bin/env python3
"""Judges what a power cut may leave of a file, by the log that tests/lossy.c has kept of it.

  lossy.py judge PROGRAM KEPT FOLDER..  judges the logs of folders
  lossy.py show FOLDER                  prints the records of a log

A folder has the file as the log begins (`first.db`), what it may stand for then (`maps`, a list of maps of keys to contents as
JSON), and the log (`log`).

A cut is looked at behind each write, each sync and each reply from the first failed sync on, or from the beginning where none
fails. The disks differ in what a failed sync has written: nothing, the commit sector alone, all but that, each second sector.
One writes and loses blocks of 4,096 bytes whole, also where a part alone was written. One keeps what a failed sync had to write
for the next one: it is the control.

A cut may leave of each sector that was written since a sync the content that the disk had, or any that was written. The images
are: the one with none of them, with all, with each alone, with all but each, and some at random. Where there are many sectors,
some of them stand for the rest.

`dbmtool verify` has to find each image good, and `dbmtool dump` has to give a map that is left by the calls that were
acknowledged, and of the others by none but those that may have happened: calls that were answered with fault 2, and the first
ones of those that have no answer yet. What a fetch has found of these has to stay, since the file was open for writing.

Some images whose commit sector is armed or names a log are put into the folder KEPT, as folders in which a log may begin. The status is 1 where
an image is wrong.
"""
import collections
import concurrent.futures
import functools
import hashlib
import json
import os
import random
import struct
import subprocess
import sys
import tempfile

SECTOR, BLOCK = 512, 8
BLANK, ARMED, LOGGING = bytes(SECTOR), bytes([0, 0, 0, 1]), bytes([0, 0, 0, 2])
# of many sectors, how many are chosen alone; how many images are chosen at random
FEW, AT_RANDOM = 4, 2
# each which image is kept, and how many wrong ones are told
KEPT_EACH, TOLD = 4001, 10
CONTROL = "keeps all"
# what a failed sync has written, and how many sectors a write marks
DISKS = {
    CONTROL: (lambda sector: False, 1),
    "loses all": (lambda sector: False, 1),
    "writes the commit sector alone": (lambda sector: sector == 0, 1),
    "writes all but the commit sector": (lambda sector: sector != 0, 1),
    "writes each second sector": (lambda sector: sector % 2 == 0, 1),
    "loses all, in blocks": (lambda sector: False, BLOCK),
}
# Prints of each image what the program says of it.
LOOK = """program=$1; shift
for it; do
  echo "= $it"; "$program" verify "$it" 2>&1; echo "= $?"; "$program" dump "$it" 2>&1; echo "= $?"; rm "$it.db"
done"""
Event = collections.namedtuple("Event", "kind first content")


def bytes_of(file):
    with open(file, "rb") as it:
        return it.read()


def put(file, content):
    with open(file, "wb") as it:
        it.write(content)


def events_of(folder):
    """The records of a log."""
    log, at, events = bytes_of(f"{folder}/log"), 0, []
    while at < len(log):
        kind, first, size = struct.unpack_from("<3I", log, at)
        events.append(Event(chr(kind), first, log[at + 12 : at + 12 + size]))
        at += 12 + size
    return events


def has_failed(events):
    return any(it.kind == "F" for it in events)


def sectors_of(content):
    return [content[at : at + SECTOR].ljust(SECTOR, b"\0") for at in range(0, len(content), SECTOR)]


@functools.lru_cache(maxsize=None)
def word_of(sector, content):
    """A number for a sector with a content, none where it is blank."""
    if content == BLANK:
        return 0
    return int.from_bytes(hashlib.blake2b(sector.to_bytes(4, "big") + content, digest_size=16).digest(), "big")


class Disk:
    """What the disk has for sure, what reads give, and the contents that each sector got since it was last synced or lost."""

    def __init__(self, first, name):
        self.is_written, self.block = DISKS[name]
        self.keeps = name == CONTROL
        self.synced = dict(enumerate(sectors_of(first)))
        self.seen = dict(self.synced)
        self.unsynced = {}
        # a number for all that is synced
        self.word = functools.reduce(int.__xor__, (word_of(*it) for it in self.synced.items()), 0)

    def has(self, sector):
        return self.synced.get(sector, BLANK)

    def write(self, first, content):
        contents = dict(enumerate(sectors_of(content), first))
        self.seen.update(contents)
        begin, end = first // self.block, -(-(first + len(contents)) // self.block)
        for sector in range(begin * self.block, end * self.block):
            self.unsynced.setdefault(sector, []).append(self.seen.get(sector, BLANK))

    def sync(self, sectors):
        """These of the unsynced sectors are written, and the others are lost."""
        for sector in sectors:
            content = self.unsynced[sector][-1]
            self.word ^= word_of(sector, self.has(sector)) ^ word_of(sector, content)
            self.synced[sector] = content
        self.unsynced = {}

    def meet(self, event):
        if event.kind == "W":
            self.write(event.first, event.content)
        elif event.kind == "S":
            self.sync(self.unsynced)
        elif event.kind == "F" and not self.keeps:
            self.sync(list(filter(self.is_written, self.unsynced)))

    def choices(self):
        """The sectors that a cut may leave otherwise than they were synced, with the contents that each may have."""
        others = {it: [new for new in dict.fromkeys(contents) if new != self.has(it)] for it, contents in self.unsynced.items()}
        return {it: contents for it, contents in sorted(others.items()) if contents}

    def word_with(self, chosen):
        word = self.word
        for sector, content in chosen.items():
            word ^= word_of(sector, self.has(sector)) ^ word_of(sector, content)
        return word

    def image_with(self, chosen):
        sectors = {**self.synced, **chosen}
        return b"".join(sectors.get(it, BLANK) for it in range(max(sectors, default=-1) + 1))


def few_of(sectors):
    """The first, and of the others some at equal distances."""
    return sectors if len(sectors) <= FEW else sectors[:1] + sectors[1 :: -(-(len(sectors) - 1) // (FEW - 1))]


def selections(choices, seed):
    """Which sectors have which content in an image: none, all, each alone, all but each, and some at random."""
    latest = {it: contents[-1] for it, contents in choices.items()}
    chosen, few, chance = [{}, latest], few_of(list(choices)), random.Random(seed)
    chosen += [{it: content} for it in few for content in choices[it]]
    if len(latest) > 2:
        chosen += [{other: latest[other] for other in latest if other != it} for it in few]
        halves = [[it for it in latest if chance.random() < 0.5] for _ in range(AT_RANDOM)]
        chosen += [{it: chance.choice(choices[it]) for it in half} for half in halves]
    return chosen


def changed(pairs, words):
    """A map, as sorted pairs, behind a call."""
    content = dict(pairs)
    if words[0] == "S":
        content[words[1]] = words[2]
    elif words[0] == "D":
        content.pop(words[1], None)
    return tuple(sorted(content.items()))


class Calls:
    """Which maps the file may stand for, by the lines that programs have read, and by their replies."""

    def __init__(self, maps):
        self.maps = {tuple(sorted(it.items())) for it in maps}
        self.asked, self.told, self.waiting = b"", b"", []
        self.wrong = None

    def answer(self, words, reply):
        """A call is answered. A map that doesn't give this answer is none of those that the file stood for."""
        before = self.maps
        behind = {changed(it, words) for it in before}
        if reply == "-1 fault 2":
            self.maps = before | behind
        elif reply == "-1 absent":
            self.maps = {it for it in before if words[1] not in dict(it)}
        elif words[0] == "F" and reply != "-1 fault 3":
            self.maps = {it for it in before if dict(it).get(words[1], "none") == reply}
        elif reply != "-1 fault 3":
            self.maps = behind if reply == "0" else set()
        if not self.maps:
            self.wrong = self.wrong or f"{' '.join(words)[:40]} is answered {reply[:40]}"
            self.maps = before | behind

    def meet(self, event):
        if event.kind == "P":
            self.maps = self.may_be()
            self.asked, self.told, self.waiting = b"", b"", []
        elif event.kind == "A":
            *lines, self.asked = (self.asked + event.content).split(b"\n")
            self.waiting += [it.decode().split(" ") for it in lines]
        elif event.kind == "T":
            *lines, self.told = (self.told + event.content).split(b"\n")
            for line in lines:
                self.answer(self.waiting.pop(0), line.decode())

    def may_be(self):
        """The maps, with the first ones of the calls that have no answer."""
        maps, now = set(self.maps), self.maps
        for words in self.waiting:
            now = {changed(it, words) for it in now}
            maps |= now
        return frozenset(maps)


def found_in(lines):
    """What the program said of an image: a map, or what is wrong with it."""
    first = lines.index("= 0") if "= 0" in lines else 0
    if first != 1 or lines[-1] != "= 0":
        return next((it.removeprefix("dbmtool: ") for it in lines if it.startswith("dbmtool: ")), " ".join(lines)[:80])
    pairs = tuple(sorted(tuple(it.split(" ")) for it in lines[2:-1]))
    return pairs if lines[0] == str(len(pairs)) else "another number of pairs"


class Reader:
    """What the program finds in images. Each is looked at once, many by one shell, and some shells at once."""

    def __init__(self, program, folder):
        self.program, self.folder = program, folder
        self.asked, self.batch, self.begun, self.found = set(), [], [], {}
        self.shells = concurrent.futures.ThreadPoolExecutor(len(os.sched_getaffinity(0)))

    def look(self, batch):
        words = ["sh", "-c", LOOK, "sh", self.program, *batch]
        said = subprocess.run(words, cwd=self.folder, stdin=subprocess.DEVNULL, capture_output=True, text=True, check=True).stdout
        for name, part in zip(batch, said.split("= image-")[1:]):
            self.found[name] = found_in(part.splitlines()[1:])

    def end_batch(self):
        if self.batch:
            self.begun.append(self.shells.submit(self.look, self.batch))
        self.batch = []

    def ask(self, word, image):
        """The name of an image. It is looked at meanwhile."""
        name = f"image-{word:x}"
        if name not in self.asked:
            self.asked.add(name)
            put(f"{self.folder}/{name}.db", image())
            self.batch.append(name)
            if len(self.batch) == 100:
                self.end_batch()
        return name

    def wait(self):
        self.end_batch()
        for shell in self.begun:
            shell.result()
        self.begun = []


class Judge:
    """Looks at the cuts of logs, and counts what is wrong."""

    def __init__(self, reader, kept):
        self.reader, self.kept = reader, kept
        # images with an armed commit sector since the last chosen one, those that are chosen to be kept, and what was wrong
        self.armed, self.chosen, self.wrong = 0, [], 0

    def look(self, folder, events, disk_name):
        """Asks for the images of each cut. It gives their names with their places and the maps that they may stand for."""
        disk, calls = Disk(bytes_of(f"{folder}/first.db"), disk_name), Calls(json.loads(bytes_of(f"{folder}/maps")))
        is_past, asked, names = not has_failed(events), [], []
        for number, event in enumerate(events, 1):
            disk.meet(event)
            calls.meet(event)
            is_past = is_past or event.kind == "F"
            if is_past and event.kind in "WSFT":
                names = names if event.kind == "T" and names else self.names(disk, number, calls)
                asked += [(name, f"{folder}, {disk_name}, record {number}", calls.may_be()) for name in names]
        if calls.wrong:
            self.tell(f"{folder}: {calls.wrong}")
        return asked

    def names(self, disk, number, calls):
        """The names of a cut's images."""
        names = []
        for chosen in selections(disk.choices(), number):
            names.append(self.reader.ask(disk.word_with(chosen), lambda it=chosen: disk.image_with(it)))
            self.armed += chosen.get(0, disk.has(0))[8:12] in (ARMED, LOGGING)
            if self.armed == KEPT_EACH:
                self.armed = 0
                self.chosen.append((names[-1], disk.image_with(chosen), calls.may_be()))
        return names

    def keep(self):
        """Keeps those of the chosen images that are good."""
        for name, image, maps in self.chosen:
            if self.reader.found[name] in maps:
                folder = f"{self.kept}/{len(os.listdir(self.kept)) + 1}"
                os.mkdir(folder)
                put(f"{folder}/first.db", image)
                put(f"{folder}/maps", json.dumps([dict(it) for it in maps]).encode())
        self.chosen = []

    def tell(self, what):
        self.wrong += 1
        if self.wrong <= TOLD:
            print(what)

    def faults(self, asked):
        """How many images have which fault."""
        kinds = collections.Counter()
        for name, place, maps in asked:
            found = self.reader.found[name]
            if found not in maps:
                kind = found if isinstance(found, str) else "another map"
                kinds[kind] += 1
                self.tell(f"{place}: {kind}")
        return kinds

    def judge(self, folders, disk_name):
        """Judges the logs on one disk, and tells how it went."""
        logs = {it: events_of(it) for it in folders}
        logs = {it: events for it, events in logs.items() if disk_name == CONTROL or has_failed(events)}
        asked = [one for folder, events in logs.items() for one in self.look(folder, events, disk_name)]
        self.reader.wait()
        self.keep()
        kinds = self.faults(asked)
        told = "".join(f", {count} {kind}" for kind, count in sorted(kinds.items()))
        print(f"a failed sync {disk_name}: {len(asked)} images of {len(logs)} logs, {sum(kinds.values())} wrong{told}", flush=True)


def judge(program, kept, folders):
    with tempfile.TemporaryDirectory() as room:
        one = Judge(Reader(os.path.realpath(program), room), kept)
        for disk_name in DISKS:
            one.judge(folders, disk_name)
        print(f"{len(one.reader.found)} different images")
    return 1 if one.wrong else 0


def shown(event):
    if event.kind == "W":
        state = f", {'armed' if event.content[8:12] == ARMED else 'clear'}" if event.first == 0 else ""
        return f"a write of {len(event.content) // SECTOR} sectors from {event.first} on{state}"
    if event.kind in "AT":
        return f"{'asked' if event.kind == 'A' else 'told'}: {event.content.decode()[:60].strip()}"
    return {"P": "a program begins", "S": "a sync", "F": "a sync that failed"}[event.kind]


def main(words):
    if words[:1] == ["judge"] and len(words) > 3:
        return judge(words[1], words[2], words[3:])
    if words[:1] != ["show"] or len(words) != 2:
        print(__doc__, file=sys.stderr)
        return 3
    for number, event in enumerate(events_of(words[1]), 1):
        print(number, shown(event))
    return 0


if __name__ == "__main__":
    sys.exit(main(sys.argv[1:]))
