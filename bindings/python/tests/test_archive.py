"""Checks archives by unix_path.archive, and unpacks those that it accepts.

The lists of tests/entries.txt are made into archives of tarfile and zipfile. The answers are the
file's. What is accepted is also unpacked, without any filter, and writes nothing outside.
"""
import collections
import io
import os
import random
import stat
import tarfile
import tempfile
import unittest
import zipfile
from typing import Any, Dict, Iterator, List, Tuple

import tables  # type: ignore[import]
from unix_path import EscapesError
from unix_path.archive import EntryError, check

Entry = Tuple[str, str, str]
TYPES = {"d": tarfile.DIRTYPE, "f": tarfile.REGTYPE, "l": tarfile.SYMTYPE, "h": tarfile.LNKTYPE}

# Names of files, and whether they are accepted. Only a slash separates components.
BACKSLASHES = [("..\\..\\out", True), ("a\\..\\..\\out", True), ("C:\\out", True), ("a\\", True),
               ("..\\a/../out", False), ("a\\/..", False)]


def lists() -> Iterator[Tuple[bool, bool, List[Entry]]]:
    """Yields the rows of tests/entries.txt: whether the level is closed, whether the entries are
    accepted, and the entries. What no archive can have is left out."""
    for line in tables.lines_of("entries.txt"):
        level, answer, *fields = (it.strip(" ") for it in line.split("|"))
        texts = [tables.unescaped(it).decode("utf-8", "surrogateescape") for it in fields]
        entries = [*zip(texts[::3], texts[1::3], texts[2::3])]
        if answer.split()[0] != "cut" and len(texts) % 3 == 0:
            yield level == "closed", answer == "accepted", entries


def tar_of(entries: List[Entry]) -> List[tarfile.TarInfo]:
    """Returns the entries as tarfile has them."""
    found = []
    for kind, path, target in entries:
        member = tarfile.TarInfo(path)
        member.type, member.linkname = TYPES.get(kind, tarfile.FIFOTYPE), target
        found.append(member)
    return found


def zip_of(entries: List[Entry]) -> zipfile.ZipFile:
    """Returns an archive that is open for reading, with these files, directories and links."""
    file = io.BytesIO()
    with zipfile.ZipFile(file, "w") as archive:
        for kind, path, target in entries:
            info = zipfile.ZipInfo(path)
            info.external_attr = {"l": stat.S_IFLNK, "f": stat.S_IFREG}.get(kind, 0) << 16
            archive.writestr(info, target)
    return zipfile.ZipFile(file)


def is_accepted(members: Any, closed: bool = True) -> bool:
    try:
        return check(members, closed=closed) is not None
    except EntryError as error:
        assert error.member and error.path is not None
        return False


def unpacks_inside(members: List[tarfile.TarInfo]) -> bool:
    """Unpacks the members without a filter. Returns true if nothing outside has changed."""
    with tempfile.TemporaryDirectory() as top:
        os.makedirs(f"{top}/one/two/place")
        file = io.BytesIO()
        with tarfile.open(fileobj=file, mode="w") as archive:
            for member in members:
                archive.addfile(member)
        with tarfile.open(fileobj=io.BytesIO(file.getvalue())) as archive:
            setattr(archive, "extraction_filter", lambda member, _: member)
            try:
                archive.extractall(f"{top}/one/two/place")
            except (OSError, KeyError, ValueError, RecursionError):
                pass
        found = {f"{place}/{it}" for place, names, files in os.walk(top) for it in names + files}
        return all(it.startswith(f"{top}/one/two/place/") or
                   it in (f"{top}/one", f"{top}/one/two", f"{top}/one/two/place") for it in found)


class Archives(unittest.TestCase):
    """The rows of tests/entries.txt, and attacks."""

    def test_tar_rows(self) -> None:
        for closed, wanted, entries in lists():
            with self.subTest(entries):
                self.assertEqual(is_accepted(tar_of(entries), closed), wanted)
                if wanted:
                    self.assertTrue(unpacks_inside(tar_of(entries)))

    def test_zip_rows(self) -> None:
        """Those rows that a zip can have: a directory's name ends in a slash there."""
        tried = 0
        for closed, wanted, entries in lists():
            if all(kind in "fl" and path and target or kind == "f" and path[-1:] not in ("", "/")
                   for kind, path, target in entries):
                with self.subTest(entries):
                    self.assertEqual(is_accepted(zip_of(entries), closed), wanted)
                tried += 1
        self.assertGreater(tried, 10)

    def test_random(self) -> None:
        """What is accepted writes nothing outside when it is unpacked. What is refused is unpacked
        only in a sandbox (tests/test_archives.py), since it can change any place of the system."""
        counts: Dict[bool, int] = collections.Counter()
        numbers = random.Random("entries")
        for _ in range(1000):
            entries = [(numbers.choice("dffllh"), numbers.choice(["a", "b", "a/b", "a/../c", "b/a",
                                                                  "../out", "a/b/c", "./a"]),
                        numbers.choice(["..", "../..", "a", "b", "a/..", "../../out", "."]))
                       for _ in range(numbers.randrange(1, 6))]
            accepted = is_accepted(tar_of(entries), numbers.random() < 0.5)
            counts[accepted] += 1
            self.assertTrue(not accepted or unpacks_inside(tar_of(entries)), entries)
        self.assertGreater(counts[True], 100)
        self.assertGreater(counts[False], 100)

    def test_long_links(self) -> None:
        """CVE-2025-4517: links whose resolved path is too long for the system's realpath."""
        entries, path = [], ""
        for letter in "abcdefghijklmnop":
            entries += [("d", path + "d" * 247, ""), ("l", path + letter, "d" * 247)]
            path += f"{letter}/"
        last = path + "l" * 254
        entries += [("l", last, "../" * 16), ("l", "escape", f"{last}/../../../etc"),
                    ("f", "escape/passwd", "")]
        with self.assertRaises(EntryError) as found:
            check(tar_of(entries), closed=False)
        self.assertIsInstance(found.exception, EscapesError)

    def test_nul(self) -> None:
        """A NUL, at which a system call cuts a name, is refused."""
        self.assertFalse(is_accepted(tar_of([("f", "a\0/../b", "")])))
        self.assertFalse(is_accepted(tar_of([("f", "a", ""), ("h", "b", "a\0")])))

    def test_zip_links(self) -> None:
        """In a list of entries, a link has no target, and is refused. So is a target that is too
        long or empty."""
        archive = zip_of([("f", "a", "text"), ("l", "b", "a")])
        self.assertEqual(check(archive), archive.infolist())
        self.assertFalse(is_accepted(archive.infolist()))
        for target in "", "a" * 4096:
            self.assertFalse(is_accepted(zip_of([("l", "b", target)])))

    def test_zip_backslashes(self) -> None:
        """A backslash is part of a name, also in an archive that Windows made, and zipfile writes
        a file of that name."""
        for name, wanted in BACKSLASHES:
            info = zipfile.ZipInfo(name)
            info.create_system = 0
            file = io.BytesIO()
            with zipfile.ZipFile(file, "w") as archive:
                archive.writestr(info, "")
            read = zipfile.ZipFile(file)
            with self.subTest(name), tempfile.TemporaryDirectory() as top:
                self.assertEqual((read.infolist()[0].create_system, is_accepted(read)),
                                 (0, wanted))
                if wanted:
                    os.mkdir(f"{top}/place")
                    read.extractall(f"{top}/place")
                    self.assertEqual((os.listdir(top), os.listdir(f"{top}/place")),
                                     (["place"], [name]))

    def test_types(self) -> None:
        self.assertEqual(check(tar_of([])), [])
        for wrong in None, 1, ["a"], [None]:
            with self.subTest(wrong), self.assertRaises(TypeError):
                check(wrong)  # type: ignore[arg-type]


if __name__ == "__main__":
    unittest.main()
