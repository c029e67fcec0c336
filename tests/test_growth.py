#!/usr/bin/env python3
"""pathtool takes at most about twice the time for lines of twice the size.

A row is one of

- a command, or one edit, on a path with a long run of filler
- a path with a long end and two kinds of edits. This row has fifteen lines, each with a long list
  of edits of that path. One line repeats the two edits. Each of the other fourteen lines repeats
  the two edits and a third one, of another kind in each line. All these rows together contain
  every cycle of one to three edits on every end.

Rows are measured in parallel: the processor time of pathtool at one size, and at twice that size. A
row that takes more than 2.5 times as long is measured again with nothing in parallel. If it still
does, each of its lines is measured at eight times these sizes. A line fails if it takes more than
three times as long in the quickest of many tries.

A tenth of the rows is checked, always the same ones; with the variable ALL, all of them.
"""
import collections
import concurrent.futures
import itertools
import os
import random
import subprocess

from support import PROGRAM, Case, main
from tables import commands

SEED = 1
# The length in bytes of each long piece of a path.
SIZE = 48_000
# A list has one edit for each run of this many bytes.
BYTES_PER_EDIT = 16
# The time of a linear line doubles, and the time of a quadratic line quadruples. A row with one
# quadratic line takes about 2.8 times as long; with half the bytes and as many edits, it takes
# about 2.5 times as long.
SUSPICIOUS_GROWTH = 2.5
MOST_GROWTH = 3
# The factor by which a line is larger when it is measured by itself, so that the difference shows.
FACTOR = 8
# The most tries of a row or a line that is measured by itself, and the fewest before it may count
# as linear.
MOST_TRIES = 40
FEWEST_TRIES = 5

# A row: its name, a function that makes its lines from a size, and the edits that each line
# repeats.
Row = collections.namedtuple("Row", "name lines cycles", defaults=[[()]])

EDITS = [b"push:b", b"push:.", b"push:..", b"push:/b", b"push:", b"push:" + b"b" * 100, b"pop",
         b"name:b", b"name:..", b"name:", b"ext:x", b"ext:", b"add:x", b"add:"]


# The pieces of paths, by their labels in the names of rows: the first bytes of each, and the bytes
# that are repeated after them if the piece is long.
FILLERS = {"slashes": (b"", b"/"), "root_dots": (b"", b"/."), "dots": (b"", b"./")}
BEGINNINGS = {"": (b"", b""), "root": (b"/", b""), "b": (b"b", b"")}
PARTS = {"": (b"", b""), "a": (b"a", b""), "up": (b"..", b""), "dot": (b".", b"")}
LONG_PARTS = {"name": (b"", b"a"), "hidden_name": (b".", b"a"), "dotted_name": (b"", b"a."),
              "extension": (b"a.", b"a"), "ups": (b"", b"../"), "root_ups": (b"", b"/..")}
TAILS = {"": (b"", b""), **FILLERS}


def ends():
    """Yields the paths with a long end: for each, its label in the row's name, and its pieces."""
    for named in [*itertools.product(BEGINNINGS.items(), FILLERS.items(), PARTS.items(),
                                     TAILS.items()),
                  *itertools.product(LONG_PARTS.items(), TAILS.items())]:
        names, pieces = zip(*named)
        yield " ".join(filter(None, names)), pieces


def path_of(pieces, size):
    """Joins the pieces, with a slash between two that would otherwise be one component."""
    path = b""
    for first, repeated in pieces:
        piece = first + repeated * (size // max(1, len(repeated)))
        needs_slash = path and piece and not path.endswith(b"/") and not piece.startswith(b"/")
        path += b"/" * bool(needs_slash) + piece
    return path


def edit_line(pieces, cycle, size):
    """Returns a line with a list of edits, which repeats this cycle, on a path of these pieces."""
    turns = size // BYTES_PER_EDIT // len(cycle)
    return b"edit\t" + path_of(pieces, size) + (b"\t" + b"\t".join(cycle)) * turns


def edit_rows():
    """Yields the rows of lists of edits."""
    for (name, pieces), pair in itertools.product(ends(), itertools.product(EDITS, repeat=2)):
        cycles = [pair, *((*pair, third) for third in EDITS)]
        yield Row(f"edits {name} {b' '.join(pair).decode()}",
                  lambda size, pieces=pieces, cycles=cycles:
                      [edit_line(pieces, cycle, size) for cycle in cycles], cycles)


def fields_of(command, path):
    """Returns the possible fields after the command's name, if each line has the path."""
    if command.rest == "EDIT..":
        return [[path, edit] for edit in EDITS]
    if command.rest == "TURNS":
        return [[path, turn * (len(path) // 2)] for turn in (b"f", b"b", b"fb")]
    if command.rest:
        return [[path, b"a"], [b"a", path], [path, path]]
    return [[path]]


def call_rows():
    """Yields the rows of single commands and edits."""
    a, b, below = (b"a", b""), (b"b", b""), (b"/b", b"")
    places = {"after": lambda filler: [a, below, filler],
              "before": lambda filler: [a, filler, b],
              "in front": lambda filler: [filler, a, below]}
    for command, (filler, piece), (place, pieces) in itertools.product(
            commands(), FILLERS.items(), places.items()):
        for number in range(len(fields_of(command, b""))):
            yield Row(f"{command.name} {filler} {place} {number}",
                      lambda size, command=command, pieces=pieces(piece), number=number:
                          [b"\t".join([command.name.encode(),
                                       *fields_of(command, path_of(pieces, size))[number]])])


def seconds(lines):
    """Returns the processor seconds that pathtool takes for these lines."""
    with os.fdopen(os.memfd_create("lines"), "r+b") as file:
        for line in lines:
            file.write(line + b"\n")
        file.seek(0)
        with subprocess.Popen([PROGRAM], stdin=file, stdout=subprocess.DEVNULL) as child:
            _, status, usage = os.wait4(child.pid, 0)
            child.returncode = status
    if status:
        raise AssertionError(f"{PROGRAM} ended with the status {status}")
    return usage.ru_utime + usage.ru_stime


def growth_of(row):
    """Returns the factor by which the row's time grows at twice the size."""
    return seconds(row.lines(2 * SIZE)) / seconds(row.lines(SIZE))


def least_growth(lines, size, most):
    """Returns the factor by which the time of the lines grows at twice the size, in the quickest of
    several tries. Other programs make a try slower and never quicker, so tries are added while the
    factor is above `most`."""
    small, large = lines(size), lines(2 * size)
    times_small, times_large = [], []
    while len(times_small) < MOST_TRIES:
        times_small.append(seconds(small))
        times_large.append(seconds(large))
        if len(times_small) >= FEWEST_TRIES and min(times_large) <= most * min(times_small):
            break
    return min(times_large) / min(times_small)


def steep_lines(row):
    """Yields the lines of the row that take too long at twice the size, each with its factor."""
    if least_growth(row.lines, SIZE, SUSPICIOUS_GROWTH) > SUSPICIOUS_GROWTH:
        for place, cycle in enumerate(row.cycles):
            times = least_growth(lambda size: row.lines(size)[place:place + 1], FACTOR * SIZE,
                                 MOST_GROWTH)
            if times > MOST_GROWTH:
                yield f"{b' '.join(cycle).decode()}: {times:.1f} times as long at twice the size"


class Growth(Case):

    def test_rows(self):
        rows = [*call_rows(), *edit_rows()]
        if not os.environ.get("ALL"):
            rows = random.Random(SEED).sample(rows, len(rows) // 10)
        with concurrent.futures.ThreadPoolExecutor(len(os.sched_getaffinity(0))) as pool:
            grown = [*pool.map(growth_of, rows)]
        for row, times in zip(rows, grown):
            with self.row(row.name):
                self.assertEqual(
                    [*steep_lines(row)] if times > SUSPICIOUS_GROWTH else [], [])


if __name__ == "__main__":
    main()
