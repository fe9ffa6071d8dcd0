"""Databases as mappings of bytes to bytes."""

import ctypes
import errno
import os
import threading
from collections.abc import MutableMapping
from contextlib import suppress
from typing import NamedTuple

from .library import How, Mode, Option, Pair, Stat, datum, error, failure, ndbm

FLAGS = {"r": os.O_RDONLY, "w": os.O_RDWR, "c": os.O_RDWR | os.O_CREAT, "n": os.O_RDWR | os.O_CREAT | os.O_TRUNC}
# for how many seconds an opening waits for a lock, and a call of a database that is shared, where nobody says it
WAIT, WAIT_OF_A_CALL = 5, 10


class Numbers(NamedTuple):
    """How many pairs there are, and how many there may be; the buckets of the linear hash table, its level and the bucket that is
    split next; how many pages of 2,048 bytes the file has, and how many of them are free."""

    pairs: int
    limit: int
    buckets: int
    level: int
    split: int
    pages: int
    free: int


def bytes_of(data):
    """The bytes of a key or a content: those of text are its UTF-8."""
    if isinstance(data, str):
        return data.encode()
    if isinstance(data, (bytes, bytearray, memoryview)):
        return bytes(data)
    raise TypeError(f"keys and contents are bytes or strings, and not {type(data).__name__}")


class Database(MutableMapping):
    """An open database. Keys and contents are bytes; a string stands for its UTF-8. Threads may share one, and call one after another."""

    def __init__(self, handle):
        self._handle, self._lock = handle, threading.RLock()

    def _open(self):
        if self._handle is None:
            raise error(errno.EBADF, "the database is closed")
        return self._handle

    def _fails(self):
        """Why the last call failed. The database forgets it, so that each call tells its own fault."""
        number, fault = ctypes.get_errno(), ndbm.dbm_error(self._handle)
        ndbm.dbm_clearerr(self._handle)
        return failure(number, fault)

    def _call(self, function, *arguments):
        """The answer of a function, where it isn't below 0."""
        with self._lock:
            handle = self._open()
            ctypes.set_errno(0)
            status = function(handle, *arguments)
            if status < 0:
                raise self._fails()
            return status

    def _find(self, function, *arguments):
        """The bytes that a function answers, or None."""
        with self._lock:
            handle = self._open()
            ctypes.set_errno(0)
            found = function(handle, *arguments).bytes()
            if found is None and ctypes.get_errno():
                raise self._fails()
            return found

    def __getitem__(self, key):
        content = self._find(ndbm.dbm_fetch, datum(bytes_of(key)))
        if content is None:
            raise KeyError(key)
        return content

    def __setitem__(self, key, content):
        self._call(ndbm.dbm_store, datum(bytes_of(key)), datum(bytes_of(content)), Mode.REPLACE)

    def __delitem__(self, key):
        try:
            self._call(ndbm.dbm_delete, datum(bytes_of(key)))
        except error as why:
            if why.errno == errno.ENOENT:
                raise KeyError(key) from None
            raise

    def __contains__(self, key):
        return self._find(ndbm.dbm_fetch, datum(bytes_of(key))) is not None

    def __len__(self):
        return self.stat().pairs

    def __iter__(self):
        return iter(self.keys())

    def keys(self):
        """All keys, in a list. A database has one pass over its keys, so all are taken at once."""
        keys = []
        with self._lock:
            key = self._find(ndbm.dbm_firstkey)
            while key is not None:
                keys.append(key)
                key = self._find(ndbm.dbm_nextkey)
        return keys

    def insert(self, key, content):
        """Stores a pair where its key is new, and tells whether it was."""
        return self._call(ndbm.dbm_store, datum(bytes_of(key)), datum(bytes_of(content)), Mode.INSERT) == 0

    def setdefault(self, key, default=b""):
        with self._lock:
            if self.insert(key, default):
                return bytes_of(default)
            return self[key]

    def clear(self):
        """Deletes each pair, by a commit of its own."""
        for key in self.keys():
            self.pop(key, None)

    def store_many(self, pairs):
        """Stores pairs in their order, in as few commits as they take: up to 8,192 pairs of a megabyte go into one. An error has in
        `stored` how many of them are there."""
        pairs = [(bytes_of(key), bytes_of(content)) for key, content in pairs]
        given = (Pair * len(pairs))(*((datum(key), datum(content)) for key, content in pairs))
        stored = ctypes.c_size_t(0)
        try:
            self._call(ndbm.dbmx_store_many, given, len(pairs), ctypes.byref(stored))
        except error as why:
            why.stored = stored.value
            raise

    def group(self):
        """Pairs that are stored together at the end of a `with` statement, and not at all where that is left by an exception."""
        return Group(self)

    def sync(self):
        """Puts the pages of the last commit in their places in the file. What was stored is on the disk without it."""
        self._call(ndbm.dbmx_sync)

    def stat(self):
        numbers = Stat()
        self._call(ndbm.dbmx_stat, ctypes.byref(numbers))
        return Numbers(*(getattr(numbers, name) for name in Numbers._fields))

    def verify(self):
        """Reads every page. It raises an error where the structure of the file isn't whole."""
        self._call(ndbm.dbmx_verify)

    def version(self):
        """The version of the file's format, 1 or 2."""
        return self._call(ndbm.dbmx_version)

    def upgrade(self):
        """Makes a database of version 1 one of version 2, which has contents of up to 65,535 bytes."""
        self._call(ndbm.dbmx_upgrade)

    def close(self):
        """Closes the database. One that is closed stays so."""
        with self._lock:
            handle, self._handle = self._handle, None
            if handle is None:
                return
            ctypes.set_errno(0)
            ndbm.dbm_close(handle)
            if ctypes.get_errno():
                raise failure(ctypes.get_errno(), 0)

    def __enter__(self):
        self._open()
        return self

    def __exit__(self, *_):
        self.close()

    def __del__(self):
        with suppress(Exception):
            self.close()


class Group:
    """Pairs that are kept for one store."""

    def __init__(self, database):
        self._database, self._pairs = database, []

    def __setitem__(self, key, content):
        self._pairs.append((bytes_of(key), bytes_of(content)))

    def __enter__(self):
        return self

    def __exit__(self, kind, *_):
        if kind is None:
            self._database.store_many(self._pairs)
        self._pairs = []


def how_of(wait, shared, build, limit, pages, version):
    """How a database is opened, or None where nothing is said of it."""
    if (wait, shared, build, limit, pages, version) == (None, False, False, None, None, 2):
        return None
    if version not in (1, 2):
        raise ValueError("a file is of version 1 or 2")
    options = Option.SHARED if shared else Option(0)
    options |= Option.BUILD if build else Option(0)
    options |= Option.PAGES if pages is not None else Option(0)
    options |= Option.VERSION_1 if version == 1 else Option(0)
    seconds = wait if wait is not None else WAIT_OF_A_CALL if shared else WAIT
    return How(limit or 0, seconds, options, pages or 0)


def open(file, flag="r", mode=0o666, *, wait=None, shared=False, build=False, limit=None, pages=None, version=2):
    """Opens the database in the file `file`.db.

    The flag is r for reading, w for writing, c to make it where it isn't there, n for an empty one; the mode is that of a file that is
    made. Another opening of the file is waited for: `wait` seconds, 5 where that isn't said, and then the error is EAGAIN. A database
    that is shared is locked within each call alone. The stores of one that is built, and that this opening makes or empties, share
    commits until it is closed; one that was there stays until then, when the new one takes its place. `limit` is how many pairs a new one may have, of 1,000,000 where that isn't said,
    and `version` its format. `pages` is how many pages are kept in memory at most. Where none of these is said the environment is
    looked at: KUMQUATFEN_WAIT, KUMQUATFEN_SHARED and KUMQUATFEN_BUILD.
    """
    if flag not in FLAGS:
        raise ValueError("the flag is one of r, w, c and n")
    name, fault = os.fsencode(file), ctypes.c_int(0)
    if b"\0" in name:
        raise ValueError("there is a null byte in the name")
    how = how_of(wait, shared, build, limit, pages, version)
    ctypes.set_errno(0)
    handle = ndbm.dbmx_open(name, FLAGS[flag], mode, None if how is None else ctypes.byref(how), ctypes.byref(fault))
    if not handle:
        raise failure(ctypes.get_errno(), fault.value, os.fsdecode(file))
    return Database(handle)
