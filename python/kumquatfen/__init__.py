"""A database of pairs of a key and a content in one file, which survives a stop anywhere.

It stands on the C library of Kumquatfen, libndbm.so.1, which has to be installed. The environment variable KUMQUATFEN_LIBRARY names
another file of it. open() takes what that of the module dbm.ndbm takes, and more by keywords.
"""

from .database import Database, Group, Numbers, open
from .library import error

__all__ = ["Database", "Group", "Numbers", "error", "open"]
