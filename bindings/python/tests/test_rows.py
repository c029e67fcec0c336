"""Makes the calls of the repository's tests/rows.txt through UnixPath.

Prints each row whose answer differs, and then the numbers of rows that were tried and left out. A
row is left out if UnixPath has no such member, or if README.md lists a difference: it drops a
leading `.`, and cuts names that end in a dot as pathlib does.
"""
import sys
from typing import Any, Callable, Dict, List, Union

import tables  # type: ignore[import]
from unix_path import UnixPath

Answer = Union[UnixPath, bytes, str, bool, int, List[Any]]
ERRORS = {"!escapes", "!nul_in_request", "!no_relative_path", "!not_a_key"}


def of(data: bytes) -> UnixPath:
    return UnixPath.from_bytes(data)


def request(data: bytes) -> str:
    """Returns a request verbatim, which a path wouldn't be."""
    return data.decode("utf-8", "surrogateescape")


# What each call does, given the bytes of its paths.
CALLS: Dict[str, Callable[..., Answer]] = {
    "components": lambda a: list(of(a).parts),
    "next_ancestor": lambda a: [of(a), *of(a).parents],
    "parent": lambda a: of(a).parent,
    "file_name": lambda a: of(a).name,
    "file_stem": lambda a: of(a).stem,
    "extension": lambda a: of(a).suffix[1:],
    "strip_prefix": lambda a, b: of(a).relative_to(of(b)),
    "starts_with": lambda a, b: of(a).is_relative_to(of(b)),
    "equal": lambda a, b: of(a) == of(b) and hash(of(a)) == hash(of(b)),
    "compare": lambda a, b: (of(a) > of(b)) - (of(a) < of(b)),
    "is_absolute": lambda a: of(a).is_absolute(),
    "escapes": lambda a: UnixPath(request(a)).escapes(),
    "join": lambda a, b: of(a) / request(b),
    "with_file_name": lambda a, b: of(a).with_name(request(b)),
    "canonical": lambda a: of(a).canonical(),
    "resolved": lambda a: of(a).resolved(),
    "relative_path": lambda a, b: of(a).relative_path(request(b)),
    "join_beneath": lambda a, b: of(a).join_beneath(request(b)),
    "join_in_root": lambda a, b: of(a).join_in_root(request(b)),
    "join_verbatim": lambda a, b: of(a).join_verbatim(request(b)),
    "key": lambda a: of(a).key(),
    "from_key": UnixPath.from_key,
}


# The calls that a leading `.` matters to, which UnixPath drops.
DOT_MATTERS = {"components", "next_ancestor", "compare", "equal", "key", "starts_with",
               "strip_prefix"}


def is_left_out(row: Any, paths: List[bytes]) -> bool:
    """Returns true if UnixPath has no such call, or differs from it."""
    if row.call in DOT_MATTERS and any(it[:2] in (b".", b"./") for it in paths):
        return True
    if row.call in ("file_stem", "extension"):
        return of(paths[0]).name[-1:] == "."
    if row.call in ("strip_prefix", "starts_with"):
        return paths[0][:1] == b"/" and not paths[1]
    if row.call == "with_file_name":
        return not of(paths[0]).name or paths[1] in (b"", b".") or b"/" in paths[1]
    return row.call not in CALLS


def wanted(row: Any, paths: List[bytes], given: Answer) -> object:
    """Returns the answer of a row, as the type of the answer that was given."""
    fields, spelled = row.fields[len(paths):], row.spelled[len(paths):]
    if isinstance(given, list):
        kind: Callable[[bytes], Any] = request if row.call == "components" else of
        return [*map(kind, fields[::2] if kind is request else fields)]
    if spelled[0] == "!none":
        return of(paths[0]) if isinstance(given, UnixPath) else ""
    if isinstance(given, (bool, int)):
        return {"true": True, "false": False}.get(spelled[0]) if isinstance(given, bool) \
            else int(spelled[0])
    return {UnixPath: of, str: request}.get(type(given), bytes)(fields[0])


def is_right(row: Any, paths: List[bytes]) -> bool:
    """Makes the call of a row, and returns true if it has the row's answer."""
    error = row.spelled[len(paths)] if len(row.spelled) > len(paths) else ""
    try:
        given = CALLS[row.call](*paths)
    except ValueError:
        return error in ERRORS or (row.call, error) == ("strip_prefix", "!none")
    return error not in ERRORS and given == wanted(row, paths, given)


def main() -> int:
    tried = wrong = 0
    rows = tables.rows()
    for row in rows:
        shape = tables.calls()[row.call][0]
        paths = row.fields[:2 if "TWO" in shape else 1]
        if not is_left_out(row, paths):
            tried += 1
            if not is_right(row, paths):
                print(f"wrong: {row.line}")
                wrong += 1
    print(f"{tried} rows, {len(rows) - tried} left out; {wrong} wrong")
    return 1 if wrong else 0


if __name__ == "__main__":
    sys.exit(main())
