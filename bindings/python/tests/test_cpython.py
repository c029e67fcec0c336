"""Runs CPython's tests of pure POSIX paths over UnixPath: Debian's libpython3.11-testsuite.

Five of them fail, at an assertion that is on the list of differences in README.md.
"""
import pathlib
import posixpath
from typing import Any

from test import test_pathlib as cpython  # type: ignore[import]

from unix_path import UnixPath

# The tests with a difference, and the message of the assertion that fails.
DIFFERENT = {
    "test_eq": r"UnixPath\('/a'\) == UnixPath\('/a'\)",
    "test_parts_common": r"\('a', 'b'\) is not \('a', 'b'\)",
    "test_root": "'/' != '//'",
    "test_stem_common": r"'' != '\.\.'",
    "test_with_suffix_common": "a name, a stem and a suffix are a str",
}


class Pure(cpython.PurePosixPathTest):  # type: ignore[misc]
    """CPython's tests. They look up the class in `pathlib` by its name."""
    cls = UnixPath

    def setUp(self) -> None:
        self.flavour, self.sep, self.altsep = posixpath, "/", None
        setattr(pathlib, "UnixPath", UnixPath)
        self.addCleanup(delattr, pathlib, "UnixPath")


def fails_at(name: str, message: str) -> Any:
    """Returns a test that passes if CPython's test of this name fails with this message."""
    def test(self: Any) -> None:
        with self.assertRaisesRegex((AssertionError, TypeError), message):
            getattr(cpython.PurePosixPathTest, name)(self)
    return test


for _name, _message in DIFFERENT.items():
    setattr(Pure, _name, fails_at(_name, _message))
