#!/usr/bin/env python3
"""pathtool and a Rust program over std::path answer the same lines, most of them random.

Each command of commands.txt is asked equally many random lines: LINES in all, by default a million,
made from SEED, by default a random number. bench/calls/std_pathtool.rs answers the same lines, or a
function here does if Rust's library lacks the command. First come fixed lines: each command on long
runs of bytes, and the walks over all short paths with all short lists of turns. A command with a
line that is answered differently fails with the shortest such line that is found. Needs rustc.
"""
import collections
import itertools
import json
import os
import random
import subprocess
import tempfile

from support import PROGRAM, ROOT, Case, main, needs
from tables import commands

COUNT = int(os.environ.get("LINES") or 1_000_000)
SEED = os.environ.get("SEED") or str(random.SystemRandom().randrange(10**9))
ROWS = {row.name: row for row in commands()}

# The pieces that random paths are made of, each with its frequency.
PIECES = {
    b"/": 40, b"//": 6, b"/./": 6, b"/../": 5, b".": 16, b"..": 8, b"...": 2, b"a": 16, b"b": 8,
    b"ab": 4, b"a.b": 4, b".a": 3, b"a.": 3, b"Ab+-~": 1, b" ": 1, b":": 1, b"\\": 1, b'"': 1,
    b"\0": 1, b"\r": 1, b"\x1f": 1, b"\x7f": 1, b"\xc3\xa9": 2, b"\xe2\x82\xac": 2, b"\xff": 2,
    b"\xf0\x9f\x98\x80": 2, b"\xc3": 2, b"\xe2\x82": 2, b"\xed\xa0\x80": 2, b"\xf4\x90\x80\x80": 2,
    b"\xf0\x9f\x98": 1, b"\xc0\xaf": 1, b"n" * 255: 1, b"n" * 63 + b"/": 1, b"." * 70: 1,
}
WEIGHTS = [*itertools.accumulate(PIECES.values())]
SIMPLE = b"a/."
SPELLINGS = [b"//", b"/./", b"/.//", b"/"]
ANY_BYTES = bytes(byte for byte in range(256) if byte not in b"\t\n")
# The pieces that long paths repeat, and the edits that are tried on each long path.
REPEATED = [b"/", b"/.", b"./", b"/./", b"../", b"a/.//", b".", b"\xff"]
EDITS = [b"add:x", b"pop", b"name:y.z", b"ext:", b"push:.", b"ext:x"]
# The most bytes of a line that is shown as a whole.
MOST_SHOWN = 2000


class Lines:
    """Random lines of a command."""

    def __init__(self, seed, command):
        self.random = random.Random(f"{seed} {command}")
        self.command = command

    def path(self):
        rng = self.random.random
        if rng() < 0.05:
            return bytes(self.random.choices(ANY_BYTES, k=int(12 * rng())))
        count = int(12 * rng() ** 1.5)
        return b"".join(self.random.choices([*PIECES], cum_weights=WEIGHTS, k=count))

    def other_path(self, path):
        """Returns a path that is related to this one, or any path."""
        way, place = self.random.random(), int(self.random.random() * (len(path) + 1))
        if way < 0.3:
            return path[:place]
        if way < 0.5:
            return path[place:]
        if way < 0.7:
            return self.other_spelling(path)
        return self.path()

    def paths_about(self, base):
        """Returns some paths, many of which start with the base, and others nearly do."""
        paths = []
        for _ in range(int(7 * self.random.random())):
            way = self.random.random()
            path = self.other_path(self.random.choice((base, *paths)))
            joint = b"" if way < 0.1 else self.random.choice(SPELLINGS)
            paths.append(path if way > 0.6 else self.other_spelling(base) + joint + path)
        return paths

    def other_spelling(self, path):
        return path.replace(b"/", self.random.choice(SPELLINGS))

    def edit(self):
        way = self.random.random()
        if way < 0.25:
            return b"pop"
        if way < 0.28:
            return b"clear"
        if way < 0.30:
            return self.path()
        if way < 0.6:
            extension = self.path()
            name = self.random.choice((b"ext:", b"add:"))
            return name + (extension if way < 0.33 else extension.replace(b"/", b""))
        return self.random.choice((b"push:", b"name:")) + self.path()

    def fields(self, rest):
        """Returns a path, and the fields of this form that follow it."""
        path = self.path()
        if rest == "TURNS":
            count = int(9 * self.random.random())
            turns = bytes(self.random.choices(b"ffffbbbb", k=count))
            return [path, turns if self.random.random() < 0.98 else turns + b"x"]
        if rest == "EDIT..":
            return [path, *(self.edit() for _ in range(int(6 * self.random.random())))]
        if rest == "P..":
            return [path, *self.paths_about(path)]
        return [path, self.other_path(path)] if rest else [path]

    def line(self):
        command = self.command
        if command == "other":
            command = self.random.choice((*ROWS, "", "partsx", "Parts", "pop"))
            fields = [self.path() for _ in range(int(5 * self.random.random()))]
            if is_ours_alone(command, len(fields)):
                fields = []
        else:
            fields = self.fields(ROWS[command].rest)
        return b"\t".join([command.encode(), *fields])


def strings(letters, longest):
    """Yields all strings of these bytes up to this length."""
    for length in range(longest + 1):
        yield from map(bytes, itertools.product(letters, repeat=length))


def fixed_lines(command):
    """Yields the lines of a command that are always asked."""
    for piece in REPEATED:
        # The length of the answer of `ancestors` is quadratic.
        path = piece * (1_000 if command == "ancestors" else 100_000)
        other = path.replace(b"//", b"/") + b"/."
        rest = {"": [], "TURNS": [b"fbfb"], "EDIT..": EDITS, "P..": [other, path + b"/b"]}
        fields = rest.get(ROWS[command].rest, [other])
        yield b"\t".join([command.encode(), path, *fields])
    if command == "walk":
        turns = list(strings(b"fb", 8))
        for path in strings(b"/.a", 6):
            yield from (b"\t".join([b"walk", path, it]) for it in turns)


def json_answer(path):
    try:
        return json.dumps(path.decode(), ensure_ascii=False).encode()
    except UnicodeDecodeError:
        return b"path contains invalid UTF-8 characters"


# Functions that answer the commands that Rust's library lacks, from their fields.
ANSWERERS = {"json": json_answer}


def is_ours_alone(command, count):
    """Returns true if the program over std::path lacks the command with this many fields."""
    row = ROWS.get(command)
    return row is not None and row.std == "-" and row.takes(count)


def answers_of(program, lines):
    """Returns the program's answers to these lines, as bytes; or how it ended."""
    found = subprocess.run([program], input=b"".join(line + b"\n" for line in lines),
                           stdout=subprocess.PIPE, stderr=subprocess.DEVNULL, timeout=300,
                           check=False)
    return found.stdout if found.returncode == 0 else f"status {found.returncode}"


class Pair(collections.namedtuple("Pair", "ours theirs")):
    """pathtool and the program that it is compared with."""

    def answers(self, lines):
        ours = answers_of(self.ours, lines)
        command, *fields = lines[0].split(b"\t")
        if is_ours_alone(command.decode(), len(fields)):
            answer = ANSWERERS[command.decode()]
            return ours, b"".join(answer(*line.split(b"\t")[1:]) + b"\n" for line in lines)
        return ours, answers_of(self.theirs, lines)

    def first_differing(self, lines):
        """Returns the first line that is answered differently, or None."""
        if not lines:
            return None
        ours, theirs = self.answers(lines)
        if ours == theirs and not isinstance(ours, str):
            return None
        if len(lines) == 1:
            return lines[0]
        if not isinstance(ours, str) and not isinstance(theirs, str):
            ours, theirs = ours.split(b"\n"), theirs.split(b"\n")
            if len(ours) == len(theirs) == len(lines) + 1:
                return next(line for line, *pair in zip(lines, ours, theirs) if pair[0] != pair[1])
        half = len(lines) // 2
        found = self.first_differing(lines[:half])
        return self.first_differing(lines[half:]) if found is None else found

    def shrink(self, line):
        """Returns the shortest line found that is also answered differently."""
        shorter = line
        while shorter is not None:
            line, shorter = shorter, self.first_differing(simpler(shorter))
        return line


def simpler(line):
    """Returns the line without some consecutive bytes of its fields, or with a simpler byte
    somewhere. The shortest lines come first."""
    command, tab, rest = line.partition(b"\t")
    cuts = [(at, at + count, b"") for count in halves(len(rest))
            for at in range(len(rest) - count + 1)]
    cuts += [(at, at + 1, bytes([it])) for at, byte in enumerate(rest) if byte != ord("\t")
             for it in SIMPLE.partition(bytes([byte]))[0]]
    lines = [command + tab + rest[:at] + new + rest[end:] for at, end, new in cuts]
    is_alone = is_ours_alone(command.decode(), line.count(b"\t"))
    return [it for it in lines if is_ours_alone(command.decode(), it.count(b"\t")) == is_alone]


def halves(count):
    """Yields the number, its half, the half of that, and so on down to 1."""
    while count:
        yield count
        count //= 2


def printable(line):
    """Returns the line as a word of printf."""
    return "".join(chr(byte) if 32 <= byte < 127 and chr(byte) not in "\\'%" else f"\\{byte:03o}"
                   for byte in line).replace("\\011", "\\t")


def difference(pair, line):
    """Returns a text about a line that is answered differently."""
    if len(line) > MOST_SHOWN:
        return f"the line has {len(line)} bytes, and begins {line[:60]!r}"
    shortest = pair.shrink(line)
    ours, theirs = pair.answers([shortest])
    return (f"\nthe line:     printf '{printable(line)}\\n'"
            f"\nthe shortest: printf '{printable(shortest)}\\n'"
            f"\n  pathtool:   {ours!r}\n  beside it:  {theirs!r}")


@needs("rustc")
class Differential(Case):

    def test_commands(self):
        print(f"SEED={SEED}", flush=True)
        asked = [it.name for it in ROWS.values() if it.std != "-" or it.name in ANSWERERS]
        each = -(-COUNT // (len(asked) + 1))
        with tempfile.TemporaryDirectory() as folder:
            theirs = f"{folder}/std_pathtool"
            self.call("rustc", "--edition", "2021", "-O",
                      f"{ROOT}/bench/calls/std_pathtool.rs", "-o", theirs)
            for command in [*asked, "other"]:
                with self.row(command):
                    self.compare(Pair(PROGRAM, theirs), command, each)
        for name in ROWS.keys() - asked:
            with self.row(name):
                self.leave_out(name, "neither Rust's library nor this file answers it")

    def compare(self, pair, command, count):
        """Asks the fixed lines of the command, and this many random ones."""
        lines = Lines(SEED, command)
        fixed = fixed_lines(command) if command in ROWS else ()
        left = itertools.chain(fixed, (lines.line() for _ in range(count)))
        while made := list(itertools.islice(left, 50000)):
            differing = pair.first_differing(made)
            if differing is not None:
                self.fail(difference(pair, differing))


if __name__ == "__main__":
    main()
