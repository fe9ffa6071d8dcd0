"""Tests of the package. They are run over a library that is installed, or that KUMQUATFEN_LIBRARY names."""

import errno
import os
import subprocess
import sys
import tempfile
import threading
import unittest

import kumquatfen


class InFolder(unittest.TestCase):
    """Each test has a folder of its own."""

    def setUp(self):
        super().setUp()
        folder = tempfile.TemporaryDirectory()
        self.addCleanup(folder.cleanup)
        self.name = os.path.join(folder.name, "t")

    def opened(self, *words, **how):
        db = kumquatfen.open(self.name, *words, **how)
        self.addCleanup(db.close)
        return db

    def fails(self, number, call, *words, **how):
        with self.assertRaises(kumquatfen.error) as it:
            call(*words, **how)
        self.assertEqual(it.exception.errno, number)
        return it.exception


class Openings(InFolder):
    def test_flags(self):
        self.fails(errno.ENOENT, kumquatfen.open, self.name)
        self.fails(errno.ENOENT, kumquatfen.open, self.name, "w")
        with kumquatfen.open(self.name, "c", 0o600) as db:
            db["a"] = "1"
        self.assertEqual(os.stat(f"{self.name}.db").st_mode & 0o777, 0o600)
        with kumquatfen.open(self.name) as db:
            self.assertEqual(dict(db), {b"a": b"1"})
            self.fails(errno.EPERM, db.__setitem__, "a", "2")
            self.assertEqual(db["a"], b"1")
        with kumquatfen.open(self.name, "w") as db:
            db["b"] = "2"
        with kumquatfen.open(self.name, "n") as db:
            self.assertEqual(len(db), 0)

    def test_wrong_words(self):
        for flag in ("", "x", "rw"):
            self.assertRaises(ValueError, kumquatfen.open, self.name, flag)
        self.assertRaises(ValueError, kumquatfen.open, f"{self.name}\0", "c")
        self.assertRaises(ValueError, kumquatfen.open, self.name, "c", version=3)
        self.assertFalse(os.path.exists(f"{self.name}.db"))
        self.fails(errno.EINVAL, kumquatfen.open, self.name, "c", limit=1_000_001)

    def test_a_file_that_is_no_database(self):
        with open(f"{self.name}.db", "wb") as it:
            it.write(bytes(range(256)) * 40)
        why = self.fails(errno.EINVAL, kumquatfen.open, self.name)
        self.assertIn(self.name, str(why))

    def test_lock(self):
        self.opened("c")
        self.fails(errno.EAGAIN, kumquatfen.open, self.name, wait=0)

    def test_path(self):
        class Path:
            def __fspath__(it):
                return self.name

        kumquatfen.open(Path(), "c").close()
        kumquatfen.open(self.name.encode()).close()

    def test_build(self):
        with kumquatfen.open(self.name, "c") as db:
            db["old"] = "1"
        old = kumquatfen.open(self.name)
        self.addCleanup(old.close)
        with kumquatfen.open(self.name, "n", build=True) as db:
            db["new"] = "2"
            self.assertEqual((dict(db), dict(old)), ({b"new": b"2"}, {b"old": b"1"}))
            self.assertTrue(os.path.exists(f"{self.name}.db.new"))
        self.assertEqual(dict(old), {b"old": b"1"})
        self.assertEqual(dict(self.opened()), {b"new": b"2"})
        self.assertFalse(os.path.exists(f"{self.name}.db.new"))
        self.fails(errno.EINVAL, kumquatfen.open, self.name, build=True, shared=True)

    def test_options(self):
        db = self.opened("c", limit=5, version=1, pages=16)
        self.assertEqual((db.stat().limit, db.version()), (5, 1))
        db.upgrade()
        self.assertEqual(db.version(), 2)
        for i in range(5):
            db[str(i)] = "x"
        self.fails(errno.ENOSPC, db.__setitem__, "more", "x")
        db.verify()

    def test_closed(self):
        db = self.opened("c")
        db.close()
        db.close()
        for call in (db.keys, db.sync, db.stat, db.__enter__):
            self.fails(errno.EBADF, call)


class Pairs(InFolder):
    def test_bytes(self):
        db = self.opened("c")
        for key in (b"", b"\0", b"\0\0", b"\xff" * 1023, "\u00fc", bytearray(b"array"), memoryview(b"view")):
            db[key] = b"of " + kumquatfen.database.bytes_of(key)
        self.assertEqual(len(db), 7)
        self.assertEqual(db[b"\0"], b"of \0")
        self.assertEqual(db["\u00fc".encode()], "of \u00fc".encode())
        db["long"] = bytes(65535)
        self.assertEqual(db["long"], bytes(65535))
        self.assertRaises(TypeError, db.__setitem__, 1, b"")
        self.assertRaises(TypeError, db.__setitem__, b"", None)
        self.fails(errno.EINVAL, db.__setitem__, b"k", bytes(65536))
        self.assertNotIn(b"k", db)

    def test_absent(self):
        db = self.opened("c")
        db["a"] = ""
        self.assertEqual(db["a"], b"")
        self.assertRaises(KeyError, db.__getitem__, "b")
        self.assertRaises(KeyError, db.__delitem__, "b")
        del db["a"]
        self.assertRaises(KeyError, db.__delitem__, "a")
        self.assertEqual(db.get("a", "none"), "none")

    def test_insert(self):
        db = self.opened("c")
        self.assertTrue(db.insert("a", "1"))
        self.assertFalse(db.insert("a", "2"))
        self.assertEqual(db.setdefault("a", "3"), b"1")
        self.assertEqual(db.setdefault("b", "3"), b"3")
        self.assertEqual(dict(db), {b"a": b"1", b"b": b"3"})

    def test_kept_on_the_disk(self):
        pairs = {str(i).encode(): os.urandom(i) for i in range(300)}
        with self.opened("c") as db:
            db.update(pairs)
            db.sync()
        with self.opened() as db:
            self.assertEqual(dict(db), pairs)
            self.assertEqual(sorted(db.keys()), sorted(pairs))

    def test_threads(self):
        db = self.opened("c")

        def work(number):
            for i in range(50):
                db[f"{number} {i}"] = str(i)
                self.assertEqual(db[f"{number} {i}"], str(i).encode())

        threads = [threading.Thread(target=work, args=(number,)) for number in range(4)]
        for it in threads:
            it.start()
        for it in threads:
            it.join()
        self.assertEqual(len(db), 200)
        db.verify()


class Groups(InFolder):
    def test_group(self):
        db = self.opened("c")
        db["old"] = "1"
        with db.group() as group:
            for i in range(10_000):
                group[str(i)] = str(i)
            group["old"] = "2"
            group["old"] = "3"
            self.assertEqual(dict(db), {b"old": b"1"})
        self.assertEqual(len(db), 10_001)
        self.assertEqual((db["old"], db["9999"]), (b"3", b"9999"))

    def test_group_that_is_left(self):
        db = self.opened("c")
        with self.assertRaises(ZeroDivisionError), db.group() as group:
            group["a"] = "1"
            1 / 0
        self.assertEqual(len(db), 0)

    def test_many_up_to_one_that_is_too_long(self):
        db = self.opened("c")
        why = self.fails(errno.EINVAL, db.store_many, [("a", "1"), ("b", "2"), (bytes(2000), bytes(3000)), ("c", "3")])
        self.assertEqual(why.stored, len(db))
        self.assertEqual(dict(db), {b"a": b"1", b"b": b"2"})
        db.store_many([])


class Shared(InFolder):
    def test_two(self):
        one, other = self.opened("c", shared=True), self.opened("w", shared=True)
        reader = self.opened(shared=True)
        one["a"] = "1"
        self.assertEqual((other["a"], reader["a"]), (b"1", b"1"))
        other["a"] = "2"
        self.assertEqual((one["a"], reader["a"]), (b"2", b"2"))

    def test_a_child(self):
        db = self.opened("c", shared=True)
        child = os.fork()
        if not child:
            try:
                db["of the child"] = "1"
            finally:
                os._exit(0)
        os.waitpid(child, 0)
        self.assertEqual(db["of the child"], b"1")

    def test_a_child_of_one_that_is_not_shared(self):
        db = self.opened("c")
        db["a"] = "1"
        child = os.fork()
        if not child:
            try:
                db["of the child"] = "1"
            except kumquatfen.error as why:
                os._exit(why.errno)
            os._exit(0)
        self.assertEqual(os.waitstatus_to_exitcode(os.waitpid(child, 0)[1]), errno.EINVAL)
        self.assertEqual(db.keys(), [b"a"])

    def test_by_the_environment(self):
        db = self.opened("c", shared=True)
        words = "import kumquatfen, sys; kumquatfen.open(sys.argv[1], 'w')['a'] = '1'"
        subprocess.run([sys.executable, "-c", words, self.name], check=True, env={**os.environ, "KUMQUATFEN_SHARED": "1"})
        self.assertEqual(db["a"], b"1")


if __name__ == "__main__":
    unittest.main()
