#!/usr/bin/env python3
"""The texts that peers.sh gives to each program, and the replies that are right.

Words: a folder, how many pairs, and how many of them are stored, and as many deleted, one by one.
The same words always give the same texts. Replies of a pass are in the order of `sort`.
"""
import random
import sys

KEY_BYTES = 16
CONTENT_BYTES = 100


def new_words(source, count, size):
    words = [source.randbytes(size).hex() for _ in range(count)]
    assert len(set(words)) == count
    return words


def shuffled(source, words):
    return source.sample(words, len(words))


def write(folder, name, texts, replies):
    for path, lines in ((name, texts), (f"{name}.right", replies)):
        with open(f"{folder}/{path}", "w") as file:
            file.writelines(f"{line}\n" for line in lines)


def write_fetches(folder, name, keys, contents):
    write(folder, name, (f"F {key}" for key in keys), (contents.get(key, "none") for key in keys))


def half_absent(keys, absent):
    return [key for pair in zip(keys, absent) for key in pair]


def write_all(folder, count, single):
    source = random.Random(count)
    # keys that are stored, and below half as many that never are
    keys = new_words(source, count + count // 2, KEY_BYTES)
    keys, absent = keys[:count], keys[count:]
    contents = dict(zip(keys, new_words(source, count, CONTENT_BYTES)))
    lines = [f"{key} {contents[key]}" for key in keys]
    write(folder, "load", lines[:count - single], [])
    write(folder, "store", (f"S {line}" for line in lines[count - single:]), ["0"] * single)
    write_fetches(folder, "fetch", shuffled(source, keys), contents)
    write_fetches(folder, "half", half_absent(shuffled(source, keys), absent), contents)
    write(folder, "pass", ["1"] + ["N"] * count, sorted(keys + ["end"]))
    deleted = source.sample(keys, single)
    write(folder, "delete", (f"D {key}" for key in deleted), ["0"] * single)
    for key in deleted:
        del contents[key]
    write_fetches(folder, "left", keys, contents)


write_all(sys.argv[1], int(sys.argv[2]), int(sys.argv[3]))
