"""The functions of ndbm.h, by ctypes."""

import ctypes
import errno
import os
from ctypes import POINTER, Structure, c_char_p, c_int, c_size_t, c_uint, c_uint32, c_void_p
from enum import IntEnum, IntFlag


class error(OSError):
    """A call that failed: the system's number, and what is the matter."""


class Datum(Structure):
    """So many bytes."""

    _fields_ = [("dptr", c_void_p), ("dsize", c_size_t)]

    def bytes(self):
        return ctypes.string_at(self.dptr, self.dsize) if self.dptr else None


class Pair(Structure):
    _fields_ = [("key", Datum), ("content", Datum)]


class How(Structure):
    """How a database is opened: dbmx_how."""

    _fields_ = [("limit", c_uint), ("wait", c_uint), ("options", c_uint), ("pages", c_uint)]


class Stat(Structure):
    """dbmx_numbers."""

    _fields_ = [(name, c_uint32) for name in ("pairs", "limit", "buckets", "level", "split", "pages", "free")]


class Option(IntFlag):
    """The options of dbmx_how."""

    UNLOCKED = 1
    VERSION_1 = 2
    PAGES = 4
    SHARED = 8
    BUILD = 16


class Mode(IntEnum):
    """The modes of dbm_store."""

    INSERT = 0
    REPLACE = 1


DATABASE = c_void_p
# each function with its result and its arguments
FUNCTIONS = {
    "dbm_close": (None, DATABASE),
    "dbm_store": (c_int, DATABASE, Datum, Datum, c_int),
    "dbm_fetch": (Datum, DATABASE, Datum),
    "dbm_delete": (c_int, DATABASE, Datum),
    "dbm_firstkey": (Datum, DATABASE),
    "dbm_nextkey": (Datum, DATABASE),
    "dbm_error": (c_int, DATABASE),
    "dbm_clearerr": (c_int, DATABASE),
    "dbmx_open": (DATABASE, c_char_p, c_int, c_uint, POINTER(How), POINTER(c_int)),
    "dbmx_sync": (c_int, DATABASE),
    "dbmx_store_many": (c_int, DATABASE, POINTER(Pair), c_size_t, POINTER(c_size_t)),
    "dbmx_stat": (c_int, DATABASE, POINTER(Stat)),
    "dbmx_verify": (c_int, DATABASE),
    "dbmx_version": (c_int, DATABASE),
    "dbmx_upgrade": (c_int, DATABASE),
    "dbmx_error_text": (c_char_p, c_int),
}


def loaded(name):
    """The library in the file of this name, or the one that the system finds by it."""
    library = ctypes.CDLL(name, use_errno=True)
    for function, (result, *arguments) in FUNCTIONS.items():
        try:
            it = getattr(library, function)
        except AttributeError:
            raise ImportError(f"{name} is no library of Kumquatfen: it lacks {function}") from None
        it.restype, it.argtypes = result, arguments
    return library


ndbm = loaded(os.environ.get("KUMQUATFEN_LIBRARY") or "libndbm.so.1")


def datum(data):
    """These bytes, which it keeps. A copy of it doesn't."""
    it = Datum(ctypes.cast(c_char_p(data), c_void_p), len(data))
    it.data = data
    return it


def text_of(fault):
    return ndbm.dbmx_error_text(fault).decode()


def failure(number, fault, *file):
    """What is raised for a call that failed by a fault, if there was one, with errno."""
    return error(number or errno.EIO, text_of(fault) if fault > 0 else os.strerror(number), *file)
