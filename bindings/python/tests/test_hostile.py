"""Calls each member of UnixPath with arguments of wrong types, with failing allocations, and often.

test_hostile.py [COUNT]     COUNT calls of each member, by default a million
"""
import gc
import itertools
import pickle
import sys
import threading
import unittest
from operator import attrgetter, methodcaller
from typing import Any, Callable, Dict, List

from unix_path import EscapesError, UnixPath

try:
    import _testcapi  # type: ignore[import]
except ImportError:
    _testcapi = None

COUNT = int(sys.argv.pop()) if sys.argv[-1].isdigit() else 1_000_000
LONG = "long/" * 200  # More than the extension module keeps on the stack.


class Derived(UnixPath):
    """A subclass without members of its own."""


class Text(str):
    """Text that says another length, and is encoded as something else."""

    def __len__(self) -> int:
        return 1 << 40

    def encode(self, *_: Any) -> bytes:
        return b"other"


class Fspath:
    """An object whose __fspath__ returns or raises what it was made with."""

    def __init__(self, value: Any) -> None:
        self.value = value

    def __fspath__(self) -> Any:
        if isinstance(self.value, BaseException):
            raise self.value
        return self.value


# Members that take a path or a text, those that take bytes, and those that take nothing.
OF_TEXT = ("with_segments", "joinpath", "join_beneath", "join_in_root", "join_verbatim",
           "relative_path", "relative_to", "is_relative_to", "with_name", "with_stem",
           "with_suffix", "match", "full_match")
OF_BYTES = ("from_bytes", "from_key")
OF_NOTHING = ("__str__", "__bytes__", "__repr__", "__hash__", "__fspath__", "__reduce__",
              "as_posix", "as_uri", "canonical", "escapes", "is_absolute", "is_reserved", "key",
              "resolved")
PROPERTIES = ("anchor", "drive", "name", "parent", "parents", "parts", "root", "stem", "suffix",
              "suffixes")
# Members that don't allocate, or whose results are kept.
UNFAILING = {"__eq__", "__ne__", "__lt__", "__hash__", "anchor", "drive", "root", "canonical",
             "escapes", "is_absolute", "is_reserved"}
# Members that are written in Python, which survives no failing allocation in some versions.
IN_PYTHON = {"as_uri", "full_match", "match", "parents", "suffixes"}
# Calls of all members. None runs Python's code but the members' own.
CALLS: Dict[str, Callable[[Any], Any]] = {
    **{name: attrgetter(name) for name in PROPERTIES},
    **{name: methodcaller(name) for name in OF_NOTHING},
    **{f"{name} of {given[:4]!r}": methodcaller(name, given)
       for name in (*OF_TEXT, "__truediv__", "__rtruediv__")
       for given in (".a", "../b", "\0\0", LONG)},
    **{f"{name} of {given[:4]!r}": methodcaller(name, given)
       for name in OF_BYTES for given in (b"a//b", b"\0\1a\0", LONG.encode())},
    **{name: methodcaller(name, UnixPath()) for name in ("__eq__", "__ne__", "__lt__")},
    "walk_up": methodcaller("relative_to", "/srv/b", walk_up=True)}


def attempt(call: Callable[..., Any], *values: Any) -> Any:
    """Makes a call, which may raise what a call of pathlib may."""
    try:
        return call(*values)
    except (ValueError, TypeError) as error:
        return type(error)


def fails(call: Callable[..., Any], value: Any, number: int) -> bool:
    """Makes a call while this allocation fails. Returns true if it raised MemoryError. Python
    loses an exception if it can't allocate a frame, and so the frame has to be there."""
    sys._getframe()  # pylint: disable=protected-access
    try:
        _testcapi.set_nomemory(number, number + 1)
        call(value)
    except MemoryError:
        return True
    except (ValueError, TypeError):
        pass
    finally:
        _testcapi.remove_mem_hooks()
    return False


class Wrong(unittest.TestCase):
    """Arguments that are wrong or lie."""

    def test_types(self) -> None:
        """An argument of a wrong type is a TypeError."""
        wrong: List[Any] = [None, 1, 1.5, True, b"a", bytearray(b"a"), memoryview(b"a"), [], {}, (),
                            object(), int, Fspath(b"a"), Fspath(1), iter("a")]
        for name, value in itertools.product(OF_TEXT, wrong):
            with self.subTest(f"{name} of {value!r}"), self.assertRaises(TypeError):
                getattr(UnixPath("a.b"), name)(value)
        for kind, value in itertools.product((UnixPath, UnixPath("a").__truediv__), wrong):
            with self.subTest(f"{kind} of {value!r}"):
                self.assertIn(attempt(kind, value), (TypeError, NotImplemented))
        for name, value in itertools.product(OF_BYTES, [None, 1, "a", [97], {}, UnixPath("a")]):
            with self.subTest(f"{name} of {value!r}"), self.assertRaises(TypeError):
                getattr(UnixPath, name)(value)

    def test_number(self) -> None:
        """A wrong number of arguments, or a keyword that isn't one, is a TypeError."""
        for name in (*OF_TEXT, *OF_BYTES):
            member = getattr(UnixPath("a.b"), name)
            with self.subTest(name), self.assertRaises(TypeError):
                member("a", other="a")
            if name not in ("joinpath", "with_segments"):
                with self.subTest(name), self.assertRaises(TypeError):
                    member()
                if "relative_to" not in name:
                    with self.subTest(name), self.assertRaises(TypeError):
                        member("a", "a")

    def test_lies(self) -> None:
        """A str or bytes of a subclass is read as what it is, and an exception is passed on."""
        self.assertEqual(UnixPath(Text("a//b")), UnixPath("a/b"))
        self.assertEqual(UnixPath("a") / Fspath(Text("b")), UnixPath("a/b"))
        lying = type("Bytes", (bytes,), {"__len__": lambda _: 1 << 40, "__bytes__": lambda _: b"x"})
        self.assertEqual(UnixPath.from_bytes(lying(b"a//b")), UnixPath("a/b"))
        with self.assertRaises(ZeroDivisionError):
            UnixPath(Fspath(ZeroDivisionError()))

    def test_text(self) -> None:
        """A surrogate that represents no byte is refused, and others are that byte."""
        self.assertEqual(bytes(UnixPath("a\udcff")), b"a\xff")
        for name in (*OF_TEXT, "__truediv__"):
            with self.subTest(name), self.assertRaises(UnicodeEncodeError):
                getattr(UnixPath("a.b"), name)(".\ud800")

    def test_nul(self) -> None:
        for name in "join_beneath", "join_in_root", "join_verbatim":
            with self.subTest(name), self.assertRaises(EscapesError) as found:
                getattr(UnixPath("/srv"), name)("a\0b")
            self.assertEqual(found.exception.path, "a\0b")

    def test_reasons(self) -> None:
        """The message says why a request is refused: join_verbatim refuses each `..`."""
        rows = [("join_beneath", "/a", "leaves its root"),
                ("join_beneath", "a/../..", "leaves its root"),
                ("join_verbatim", "/a", "leaves its root"),
                ("join_verbatim", "../b", "leaves its root"),
                ("join_verbatim", "a/../b", "has a '..'"),
                ("join_verbatim", "a\0b", "has a NUL byte")]
        for name, request, reason in rows:
            with self.subTest(name, request=request), self.assertRaises(EscapesError) as found:
                getattr(UnixPath("/srv"), name)(request)
            self.assertEqual(str(found.exception), f"{request!r} {reason}")

    def test_changing_buffer(self) -> None:
        """A buffer that another thread changes is copied before it is read."""
        buffer, is_done = bytearray(b"a//./b/" * 4000), threading.Event()

        def change() -> None:
            while not is_done.is_set():
                buffer[:] = buffer[::-1]

        thread = threading.Thread(target=change)
        thread.start()
        try:
            for _ in range(300):
                path = UnixPath.from_bytes(buffer)
                self.assertEqual(UnixPath(str(path)), path)
                attempt(UnixPath.from_key, buffer)
        finally:
            is_done.set()
            thread.join()

    def test_set_once(self) -> None:
        """A path doesn't change, also if __init__ is called again or by an argument."""
        path = UnixPath("a")
        UnixPath.__init__(path, "b")
        self.assertEqual(str(path), "a")
        fresh = UnixPath.__new__(UnixPath)
        self.assertEqual((fresh, hash(fresh)), (UnixPath(), hash(UnixPath())))

        class Again(Fspath):
            """Initializes a path while its own segments are read."""

            def __fspath__(self) -> Any:
                UnixPath.__init__(fresh, "a")
                return "b"

        UnixPath.__init__(fresh, Again(""))
        self.assertEqual(str(fresh), "a")
        with self.assertRaises(AttributeError):
            path.other = 1  # type: ignore[attr-defined]

    def test_subclasses(self) -> None:
        """A subclass stays one, by its own with_segments, and in pickles of every protocol."""
        path = Derived("/a/b.c")
        for name in ("parent", "canonical", "resolved"):
            self.assertIs(type(attempt(CALLS[name], path)), Derived, name)
        for name in set(OF_TEXT) - {"is_relative_to", "match", "full_match"}:
            given = {"with_suffix": ".d", "relative_to": "/a", "relative_path": "/c"}.get(name, "d")
            self.assertIs(type(getattr(path, name)(given)), Derived, name)
        for name in OF_BYTES:
            self.assertIs(type(getattr(Derived, name)(b"a\0")), Derived)
        for protocol, kind in itertools.product(range(pickle.HIGHEST_PROTOCOL + 1),
                                                (UnixPath, Derived)):
            copy = pickle.loads(pickle.dumps(kind("/a\udcff"), protocol))
            self.assertEqual((type(copy), copy), (kind, kind("/a\udcff")))


class Memory(unittest.TestCase):
    """Allocations that fail, and memory that is lost."""

    def test_no_leak(self) -> None:
        """Many calls of a member leave no block of memory and no reference behind."""
        kept = [None, True, False, UnixPath, UnixPath("a/b"), "a", b"a", (), ""]

        def counts() -> List[int]:
            gc.collect()
            return [sys.getallocatedblocks(), *map(sys.getrefcount, kept)]

        for name, call in CALLS.items():
            path = UnixPath("/srv/./name.end")
            attempt(call, path)
            before = counts()
            for _ in range(COUNT // 4 if " of " in name else COUNT):
                attempt(call, path)
            worst = max(abs(now - then) for now, then in zip(counts(), before))
            self.assertLess(worst, 1000 + COUNT // 1000, name)

    def test_failing_allocations(self) -> None:
        """If an allocation fails, a call raises MemoryError, and the path is unchanged."""
        if not _testcapi or hasattr(sys, "gettotalrefcount"):
            print("left out: failing allocations in Python, since it has no _testcapi, or is built "
                  "for debugging and then asserts too much")
            return
        calls = [it for it in CALLS.items() if it[0].split()[0] not in IN_PYTHON]
        for (name, call), kind in itertools.product(calls, (UnixPath, Derived)):
            path = kind(f"/srv/./{LONG}/name.end")
            failed = sum(fails(call, path, number) for number in range(100))
            self.assertTrue(failed or name in UNFAILING, name)
            self.assertEqual(str(path), f"/srv/{LONG}name.end", name)


if __name__ == "__main__":
    unittest.main()
