"""For tools/count: random lines of input for each command of pathtool.

The generator of random numbers is defined here, so that the lines are the same with every Python.
"""
import sys

from repository import ROOT

sys.path.append(f"{ROOT}/tests")

from tables import commands

LINES = 300
FOLDERS = b"usr share doc lib main www static img include .git node_modules src build".split()
NAMES = b"main.rs conf.json app.json a.tar.gz README .bashrc caf\xc3\xa9.txt x\xff.c index".split()
SPELLINGS = [b"//", b"/./", b"/.//"]
MASK = (1 << 64) - 1


class Lines:
    """Random lines of one command."""

    def __init__(self, seed):
        self.state = seed

    def below(self, limit):
        """Returns a random number from 0 to `limit` - 1, by Steele's SplitMix64."""
        self.state = (self.state + 0x9E3779B97F4A7C15) & MASK
        z = (self.state ^ (self.state >> 30)) * 0xBF58476D1CE4E5B9 & MASK
        z = (z ^ (z >> 27)) * 0x94D049BB133111EB & MASK
        return (z ^ (z >> 31)) % limit

    def one_of(self, items):
        return items[self.below(len(items))]

    def respelled(self, path):
        """Returns the path, one time in four with another spelling of its slashes."""
        return path.replace(b"/", self.one_of(SPELLINGS)) if self.below(4) == 0 else path

    def path(self):
        """Returns a path of one to nine names, with or without a root, and sometimes with dots."""
        parts = [self.one_of(FOLDERS) for _ in range(self.below(9))]
        if self.below(8) == 0:
            parts.insert(self.below(len(parts) + 1), self.one_of([b".", b".."]))
        start = b"/" if self.below(2) else b""
        return self.respelled(start + b"/".join([*parts, self.one_of(NAMES)]))

    def with_base(self):
        """Returns a path and a prefix of it; or, one time in three, another path."""
        path = self.path()
        folder = path[:path.rfind(b"/") + 1 if self.below(2) else self.below(len(path))]
        return [path, self.path() if self.below(3) == 0 else self.respelled(folder)]

    def with_end(self):
        """Returns a path and its last bytes; or, one time in three, another path."""
        path = self.path()
        end = path[self.below(len(path)):]
        return [path, self.path() if self.below(3) == 0 else self.respelled(end)]

    def compared(self):
        """Returns a path and another path in its directory, the same path, or any other path."""
        path = self.path()
        others = [path[:path.rfind(b"/") + 1] + self.one_of(NAMES), path, self.path()]
        return [path, self.respelled(self.one_of(others))]

    def edit(self):
        names = self.one_of([b"name:", b"push:"]) + self.one_of(NAMES)
        extensions = self.one_of([b"ext:", b"add:"]) + self.one_of([b"rs", b"tar", b"", b"a/b"])
        return self.one_of([b"pop", b"clear", names, extensions, b"push:" + self.path()])

    def under(self):
        """Returns a base and some paths, many of which start with it."""
        base = self.one_of([b"/usr", b"/usr/share", b"src"])
        return [base, *(self.respelled(base) + b"/" + self.path() if self.below(3) else self.path()
                        for _ in range(self.below(40)))]


# The functions that make the fields of a line, by the fields after the first one in
# tests/commands.txt.
FIELDS = {"": lambda it: [it.path()], "B": lambda it: [it.path(), it.path()],
          "BASE": Lines.with_base, "END": Lines.with_end, "Q": Lines.compared,
          "TURNS": lambda it: [it.path(),
                               bytes(it.one_of(b"fb") for _ in range(it.below(10)))],
          "EDIT..": lambda it: [it.path(), *(it.edit() for _ in range(it.below(9)))],
          "P..": Lines.under}


def all_lines(seed):
    """Returns the lines of each command, and of a name that is no command, as bytes by name."""
    rests = {**{row.name: row.rest for row in commands()}, "other": ""}
    found = {}
    for name, rest in rests.items():
        lines = Lines(seed)
        found[name] = b"".join(b"\t".join([name.encode(), *FIELDS[rest](lines)]) + b"\n"
                               for _ in range(LINES))
    return found
