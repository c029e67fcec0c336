"""For tools/count: the calls that calls.c makes, and the paths on which it makes each.

A family is a shape of paths: it makes two paths from a size, and lists the calls that are counted
on it. A call with one path uses the first. A row is a call, a family and a size. A family is here
because one of its rows is above the baseline, or because its calls take much of a job's time.

calls.c makes the calls. It doesn't check their results, because tests check them.
"""
import collections
import re
import struct

from repository import ROOT

# A row: its name, the call, and the pairs of paths whose instructions are added up.
Row = collections.namedtuple("Row", "name call pairs")

# The sizes around each size of a block that the library reads at once, and one size far above.
EDGES = {16: (15, 16, 17), 32: (31, 32, 33), 64: (63, 64, 65), 4000: (4000,)}
SHORT = {16: EDGES[16]}
DEPTHS = {depth: (depth,) for depth in (0, 1, 4)}
SCORES = {20: (20,), 4000: (4000,)}

FOLDERS = b"usr/share/doc/packages/lib/main/www/static/img/include/"


def plain(size):
    """Returns this many bytes of components that are names, without a root."""
    path = (FOLDERS * (size // len(FOLDERS) + 1))[:size]
    return path[:-1] + b"x" if path.endswith(b"/") else path


def name(size):
    """Returns one name of this many bytes, or no name for less than one."""
    return b"n" * max(size, 0)


def cut(size, repeated):
    """Returns about this many bytes: as many whole repetitions as fit, and at least one."""
    return repeated * max(size // len(repeated), 1)


def respelled_once(path):
    """Returns the path with another spelling of the first slash in its second half or, if there is
    none, of its first slash."""
    at = path.find(b"/", len(path) // 2)
    at = path.find(b"/") if at < 0 else at
    return path[:at] + b"/." + path[at:]


# Families of pairs: the function that makes both paths from a size, the sizes, and the calls.
TWO = "equal compare starts_with ends_with strip_prefix"
PAIRS = [
    ("same", lambda n: (plain(n), plain(n)), EDGES, TWO),
    ("next_listed", lambda n: (plain(n - 4) + b"-007", plain(n - 4) + b"-008"), EDGES,
     f"{TWO} common_dir relative_path"),
    ("respelled_once", lambda n: (plain(n), respelled_once(plain(n))), EDGES, TWO),
    ("respelled_each", lambda n: (plain(n), plain(n).replace(b"/", b"/./")), EDGES,
     f"{TWO} relative_path"),
    ("ups_respelled", lambda n: (cut(n, b"../"), cut(n, b".././")), EDGES, TWO),
    ("folder_above", lambda n: (plain(n), plain(n).rpartition(b"/")[0]), EDGES,
     "relative_path equal starts_with strip_prefix compare"),
    ("up_or_name", lambda n: (b"../" * n + b"a/x", b"../" * n + b"../x"), DEPTHS,
     "compare equal"),
    ("last_name_below", lambda n: (plain(n - 8) + b"/main.rs", b"src/main.rs"), EDGES,
     "ends_with"),
    ("other_last_names", lambda n: (plain(n - 10) + b"/conf.json", plain(n - 9) + b"/app.json"),
     EDGES, "ends_with"),
    ("tail_dots", lambda n: (b"a" + b"/." * n, b"a"), SCORES, TWO),
]

# Families of paths, and of a path with its other arguments.
FORMS = "canonical resolved"
PLACES = "parent file_name file_stem extension file_prefix"
TEXTS = "is_utf8 to_string_lossy next_chunk"
PATHS = [
    ("plain", lambda n: (plain(n), b"new.rs"), EDGES,
     f"is_canonical {FORMS} {PLACES} {TEXTS} components next next_back as_path next_ancestor hash "
     "join with_file_name key"),
    ("plain", lambda n: (plain(n), b"rs"), EDGES, "with_extension with_added_extension"),
    ("rooted", lambda n: (b"/" + plain(n - 1), b""), EDGES,
     f"is_absolute is_canonical {FORMS} key"),
    ("dotted_name", lambda n: (plain(n - 8) + b"/a.tar.gz", b"rs"), EDGES,
     "file_stem extension file_prefix with_extension"),
    ("broken_text", lambda n: (cut(n, b"caf\xe9/"), b""), EDGES, TEXTS),
    ("accents", lambda n: (cut(n, b"caf\xc3\xa9/"), b""), EDGES, TEXTS),
    ("gap_first", lambda n: (b"a//" + plain(n - 3), b""), EDGES, FORMS),
    ("gap_each", lambda n: (cut(n, b"a/./"), b""), EDGES,
     f"{FORMS} next next_back next_ancestor hash parent key"),
    ("gap_each_name", lambda n: (plain(n).replace(b"/", b"/./"), b""), EDGES, FORMS),
    ("name_before_gap", lambda n: (name(n - 3) + b"/./a", b""), EDGES, FORMS),
    ("name_behind_gap", lambda n: (b"a//" + name(n - 3), b""), EDGES, FORMS),
    ("double_slashes", lambda n: (cut(n, b"abcdefghijklmnop//"), b""), EDGES, f"{FORMS} key"),
    ("tail_dots", lambda n: (b"a" + b"/." * n, b"b"), SCORES,
     f"{FORMS} parent file_name components as_path with_file_name"),
    ("comes_down", lambda n: (cut(n, b"a/../"), b""), EDGES, "resolved"),
    ("up_late", lambda n: (plain(n - 5) + b"/../x", b""), EDGES, "resolved"),
    ("ups", lambda n: (cut(n, b"../"), b""), EDGES, "key"),
    ("key_rooted", lambda n: (b"\0\1" + plain(n).replace(b"/", b"\0") + b"\0", b""), EDGES,
     "from_key"),
]

# Families of keys.
KEYS = [
    ("key_plain", lambda n: plain(n).replace(b"/", b"\0") + b"\0", EDGES),
    ("key_ups", lambda n: cut(n, b"\0\3"), EDGES),
]

# Families of entries of an archive, as records.
ENTRIES = [
    ("files", lambda n: cut(n, b"f\0a/b\0\0"), EDGES),
    ("links", lambda n: cut(n, b"f\0a\0\0h\0b\0a\0"), EDGES),
]

# Families of requests, for `escapes`, `check_request` and the joins with a root.
REQUESTS = [
    ("plain", plain, EDGES),
    ("slash_end", lambda n: plain(n - 1) + b"/", EDGES),
    ("escapes_late", lambda n: name(n - 6) + b"/../..", EDGES),
    ("escapes_first", lambda n: b"../" + plain(n - 3), SHORT),
    ("comes_down", lambda n: cut(n, b"a/../"), EDGES),
    ("name_comes_down", lambda n: name(n - 5) + b"/../a", EDGES),
    ("double_slashes", lambda n: cut(n, b"abcdefghijklmnop//"), EDGES),
    ("gap_each", lambda n: cut(n, b"a/./"), EDGES),
    ("leading_dot", lambda n: b"./" + plain(n - 2), EDGES),
]
SERVED = b"/srv/www"


def families():
    """Yields each family: its name, the function that makes its paths, its sizes, and the calls."""
    yield from PAIRS + PATHS
    for title, make, sizes in REQUESTS:
        yield title, lambda n, make=make: (make(n), b""), sizes, "escapes check_request"
        yield title, lambda n, make=make: (SERVED, make(n)), sizes, "join_verbatim join_beneath"
    yield "rooted", lambda n: (SERVED, b"/" + plain(n - 1)), EDGES, "join_in_root"
    for title, make, sizes in KEYS:
        yield title, lambda n, make=make: (make(n), b""), sizes, "from_key key_range_end"
    for title, make, sizes in ENTRIES:
        yield title, lambda n, make=make: (make(n), b""), sizes, "check_entries entries_scratch"


def calls_of(checkout):
    """Returns the names of the calls that the header of a checkout declares."""
    with open(f"{checkout}/include/unix_path.h", encoding="utf-8") as file:
        return set(re.findall(r"^\w+ unix_path_(\w+)\(const", file.read(), re.M))


def rows_of(checkout):
    """Returns the rows of the calls from C that both a checkout and this one declare, family by
    family. A call that no family lists is counted on plain paths."""
    calls = calls_of(checkout) & calls_of(ROOT)
    found = [*families()]
    others = calls.difference(*(named.split() for *_, named in found))
    found.append(("plain", lambda n: (plain(n), b"new.rs"), EDGES, " ".join(sorted(others))))
    return [Row(f"{call} {title} {size}", call, [make(length) for length in lengths])
            for title, make, sizes, named in found for call in named.split() if call in calls
            for size, lengths in sizes.items()]


def records_of(asked):
    """Yields the input of calls.c: the calls of these rows, with the paths of each."""
    for row in asked:
        for number, (first, second) in enumerate(row.pairs, 1):
            yield struct.pack("<4I", len(row.call), len(first), len(second),
                              number == len(row.pairs))
            yield row.call.encode() + first + second
