"""Compares UnixPath with pathlib.PurePosixPath on random paths, and with the rows of pathlib.txt.

`differs` says where both may differ. `python3.13 test_pathlib.py --record` writes the answers of
pathlib to the rows.
"""
import operator
import pathlib
import platform
import random
import re
import sys
import unittest
from pathlib import PurePosixPath
from typing import Any, Callable, Iterator, Tuple

from unix_path import UnixPath

ROWS = pathlib.Path(__file__).with_name("pathlib.txt")
COUNT = 100_000  # Pairs of paths.
PIECES = ["/", "/", "/", ".", "..", "a", "b", ".a", "a.b", "a.", "a.b.c", "-", "é", "\udcff", "\0"]
NAMES = ["x.y", "..", "x/y", "", ".", ".x", "x"]
ORDERS = operator.lt, operator.le, operator.gt, operator.ge
# A row of pathlib.txt that is on the list of differences in README.md, and the answer here.
DIFFERENT = {"P('/').full_match('[!a]')": "False"}
# Methods that Python 3.8 lacks.
ADDED = "is_relative_to", "with_stem"
Call = Tuple[str, Callable[[Any, Any, str], Any]]
# Calls with a path, another path, and a name or suffix.
CALLS: Tuple[Call, ...] = (
    ("str", lambda p, q, name: str(p)),
    ("bytes", lambda p, q, name: bytes(p)),
    ("parts", lambda p, q, name: p.parts),
    ("root", lambda p, q, name: (p.drive, p.root, p.anchor, p.is_absolute())),
    ("parent", lambda p, q, name: p.parent),
    ("parents", lambda p, q, name: list(p.parents)),
    ("name", lambda p, q, name: (p.name, p.stem, p.suffix, p.suffixes)),
    ("with_name", lambda p, q, name: p.with_name(name)),
    ("with_stem", lambda p, q, name: p.with_stem(name or "x")),  # '' is refused since 3.13.
    ("with_suffix", lambda p, q, name: p.with_suffix(name)),
    ("joinpath", lambda p, q, name: (p / q, p.joinpath(q, name), name / p)),
    ("relative_to", lambda p, q, name: p.relative_to(q)),
    ("relative_to a parent", lambda p, q, name: (p / name).relative_to(p)),
    ("is_relative_to", lambda p, q, name: p.is_relative_to(q)),
    ("equal", lambda p, q, name: (p == q, p != q, hash(p) == hash(q))),
    ("order", lambda p, q, name: [order(p, q) for order in ORDERS]),
    ("as_uri", lambda p, q, name: p.as_uri()),
    ("match", lambda p, q, name: p.match("*" + str(q)[1:])),
)


def shown(value: Any) -> str:
    """Returns the text of a value, the same for paths of both types."""
    return repr(value).replace("PurePosixPath(", "P(").replace("UnixPath(", "P(")


def answer(call: Callable[..., Any], *values: Any) -> str:
    """Returns what a call returns or raises, as text."""
    try:
        return shown(call(*values))
    except (TypeError, ValueError) as error:
        kind = TypeError if isinstance(error, TypeError) else ValueError
        return kind.__name__


def differs(name: str, path: PurePosixPath, other: PurePosixPath) -> bool:
    """Returns True if the answers may differ by a row of the list in README.md."""
    if name in ("name", "with_name", "with_stem", "with_suffix"):
        # Other versions than 3.13 cut names otherwise that begin with two dots or end in one.
        is_other = sys.version_info[:2] != (3, 13)
        return path.name == ".." or is_other and (path.name[:2] == ".." or path.name[-1:] == ".")
    if name == "order":
        pairs = zip((*path.parts, ""), (*other.parts, ""))
        first = next((pair for pair in pairs if pair[0] != pair[1]), ())
        return bool({"", "/", ".."} & set(first))
    if name == "match":  # In 3.12 and before, `*` matches the root.
        return path.root != other.root or sys.version_info < (3, 13) and path.root == "/"
    return False


def recorded() -> Iterator[Tuple[str, str]]:
    """Yields the rows of pathlib.txt: an expression over the class P, and its answer."""
    for line in ROWS.read_text("utf-8").splitlines():
        if line and not line.startswith("#"):
            expression, _, wanted = line.partition(" -> ")
            yield expression, wanted


def evaluate(expression: str, kind: Any) -> str:
    return answer(lambda: eval(expression, {"P": kind}))  # pylint: disable=eval-used


def record() -> None:
    """Writes the answers of this Python's pathlib, and its version, to pathlib.txt."""
    head = "".join(f"{it}\n" for it in ROWS.read_text("utf-8").splitlines() if it[:1] == "#")
    head = re.sub(r"Python [\d.]*\d", f"Python {platform.python_version()}", head)
    rows = [f"{it} -> {evaluate(it, PurePosixPath)}\n" for it, _ in recorded()]
    ROWS.write_text(head + "".join(rows), "utf-8")


class Recorded(unittest.TestCase):
    """The rows of pathlib.txt."""

    def test_rows(self) -> None:
        for expression, wanted in recorded():
            with self.subTest(expression):
                found = evaluate(expression, UnixPath)
                self.assertEqual(found, DIFFERENT.get(expression, wanted))


class Random(unittest.TestCase):
    """Random paths. None has two leading slashes, which are one root here."""

    def test_calls(self) -> None:
        numbers, seen = random.Random("paths"), set()
        known = [it for it in CALLS if it[0] not in ADDED or hasattr(PurePosixPath, it[0])]
        for _ in range(COUNT):
            texts = ["".join(numbers.choices(PIECES, k=numbers.randrange(8))) for _ in "ab"]
            given = ["/" * (it[:1] == "/") + it.lstrip("/") for it in texts]
            name, theirs = numbers.choice(NAMES), [*map(PurePosixPath, given)]
            ours = [*map(UnixPath, given)]
            for label, call in known:
                if not differs(label, *theirs):
                    self.assertEqual(answer(call, *ours, name), answer(call, *theirs, name),
                                     (label, given, name))
                elif answer(call, *ours, name) != answer(call, *theirs, name):
                    seen.add(label)
        self.assertLessEqual({"name", "with_name", "order"}, seen)


if __name__ == "__main__":
    if sys.argv[1:] == ["--record"]:
        record()
    else:
        unittest.main()
