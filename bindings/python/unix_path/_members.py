"""Members of UnixPath that are written in Python, since they need no speed. None is proved."""
from __future__ import annotations

import fnmatch
import functools
import itertools
import re
from typing import TYPE_CHECKING, Iterator, Sequence, overload
from urllib.parse import quote_from_bytes

if TYPE_CHECKING:
    import os
    from unix_path._unix_path import UnixPath


class Parents(Sequence["UnixPath"]):
    """The parents of a path, the nearest first. Each is made when it is asked for."""

    def __init__(self, path: UnixPath) -> None:
        self._path = path

    def __len__(self) -> int:
        return len(self._path.parts) - self._path.is_absolute()

    def __iter__(self) -> Iterator[UnixPath]:
        path = self._path
        for _ in range(len(self)):
            path = path.parent
            yield path

    @overload
    def __getitem__(self, index: int) -> UnixPath: ...
    @overload
    def __getitem__(self, index: slice) -> tuple[UnixPath, ...]: ...
    def __getitem__(self, index: int | slice) -> UnixPath | tuple[UnixPath, ...]:
        if isinstance(index, slice):
            return tuple(self)[index]
        return next(itertools.islice(self, range(len(self))[index], None))

    def __repr__(self) -> str:
        return f"<{type(self._path).__name__}.parents>"


def suffixes(path: UnixPath) -> list[str]:
    """The suffixes of the name, without the dots at its beginning.

    >>> UnixPath("a.tar.gz").suffixes
    ['.tar', '.gz']
    """
    name = path.name
    return [] if name.endswith(".") else [f".{it}" for it in name.lstrip(".").split(".")[1:]]


def as_uri(path: UnixPath) -> str:
    """Returns the URI with the scheme `file`. Raises ValueError if the path has no root.

    >>> UnixPath("/a b").as_uri()
    'file:///a%20b'
    """
    if not path.is_absolute():
        raise ValueError(f"{path!r} has no root, and so no URI")
    return "file://" + quote_from_bytes(bytes(path))


@functools.lru_cache(maxsize=512)
def _compiled(pattern: str, is_exact: bool) -> re.Pattern[str]:
    return re.compile(fnmatch.translate(pattern), 0 if is_exact else re.IGNORECASE)


def _matches(part: str, pattern: str, is_exact: bool) -> bool:
    """Returns True if a component matches a pattern. The root matches only itself."""
    if part == "/" or pattern == "/":
        return part == pattern
    return _compiled(pattern, is_exact).match(part) is not None


def match(path: UnixPath, path_pattern: str | os.PathLike[str], *,
          case_sensitive: bool | None = None) -> bool:
    """Returns True if the last components match those of a pattern, and for a pattern with a root
    if all do. `**` is like `*`. Raises ValueError if the pattern is empty.

    >>> UnixPath("/a/b.py").match("*.py"), UnixPath("/a/b.py").match("/*.py")
    (True, False)
    """
    parts, patterns = path.parts, path.with_segments(path_pattern).parts
    if not patterns:
        raise ValueError("empty pattern")
    if len(parts) < len(patterns) or patterns[0] == "/" and len(parts) > len(patterns):
        return False
    return all(_matches(*pair, case_sensitive is not False)
               for pair in zip(reversed(parts), reversed(patterns)))


def _simplified(patterns: Sequence[str]) -> list[str]:
    """Returns the patterns without a `**` that follows another one. A `**` at the end, unless it
    is all after the root, matches at least one component."""
    found = [it for it, after in zip(patterns, [*patterns[1:], ""]) if not it == after == "**"]
    return found + ["*"] if found[1:] and found[-1] == "**" and found[-2] != "/" else found


def full_match(path: UnixPath, pattern: str | os.PathLike[str], *,
               case_sensitive: bool | None = None) -> bool:
    """Returns True if the whole path matches a pattern, in which `**` matches any number of
    components. The time is at most the product of both numbers of components.

    >>> UnixPath("a/b/c.py").full_match("a/**/*.py"), UnixPath("a/b.py").full_match("*.py")
    (True, False)
    """
    patterns = _simplified(path.with_segments(pattern).parts)

    def skipped(states: set[int]) -> set[int]:
        """Adds the numbers of the patterns to go on with if a `**` matches nothing more."""
        return states | {it + 1 for it in states if patterns[it:it + 1] == ["**"]}

    reached = skipped({0})
    for part in path.parts:
        stays = {it for it in reached if patterns[it:it + 1] == ["**"]}
        moves = {it + 1 for it in reached - stays
                 if patterns[it:] and _matches(part, patterns[it], case_sensitive is not False)}
        # A `**` doesn't match only the root, unless it is all of the pattern.
        reached = skipped(moves) | (stays if part == "/" else skipped(stays))
    return len(patterns) in skipped(reached)
