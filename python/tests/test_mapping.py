"""Python's own tests of mappings, over a database."""

import os
import tempfile
import unittest
from test import mapping_tests

import kumquatfen


class Mapping(mapping_tests.BasicTestMappingProtocol):
    count = 0

    def setUp(self):
        self.folder = tempfile.TemporaryDirectory()
        self.addCleanup(self.folder.cleanup)

    def _reference(self):
        return {b"1": b"2", b"key1": b"value1", b"key2": b"value2"}

    def _empty_mapping(self):
        self.count += 1
        return kumquatfen.open(os.path.join(self.folder.name, str(self.count)), "n")

    def _full_mapping(self, data):
        mapping = self._empty_mapping()
        mapping.update(data)
        return mapping


if __name__ == "__main__":
    unittest.main()
