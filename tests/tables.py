"""Reads the tables of tests/: rows.txt, commands.txt, requests.txt and vectors/.

The head of each table says what a row is. A line that is no row ends the program that reads it.
"""
import collections
import dataclasses
import glob
import os
import re
import sys

from support import ROOT, read

WORDS = {"!none", "!separator", "!escapes", "!nul_in_request", "!not_a_key", "!no_end",
         "!no_relative_path"}
# The calls of a walk, which are also made for the rows of `components`.
ASKED_BY = {"next": "components", "next_back": "components", "as_path": "components"}
ESCAPE = re.compile(rb"\\(?:\\|x([0-9A-F]{2}))")
COMMAND = re.compile(r"(\w+) ([A-Z]+)(?: ([A-Z]+(?:\.\.)?))? \| (\w+) \| (\S.*)")
EXAMPLE = re.compile(r' +"((?:[^"\\]|\\.)*)" "((?:[^"\\]|\\.)*)"')
REQUEST = re.compile(
    r"([\w:]+)[^|#]*\| (\w+)(?: of (\w+))? \| (\d+)(?: of (\d+) bytes)? \| (\d+)")
# The commands of `pathtool` that answer the rows of a call. In FOUND the answer is `+` and the
# field after the paths, or says that nothing was found. In SAID it is the row's last field.
FOUND = {"parent": "parent", "file_name": "name", "file_stem": "stem", "extension": "ext",
         "strip_prefix": "strip"}
SAID = {"starts_with": "starts", "ends_with": "ends", "join": "join", "canonical": "canon",
        "to_string_lossy": "show"}
ORDERS = {b"-1": b"less", b"0": b"equal", b"1": b"greater"}
# The edits that change a path in place in the same way as the call changes a copy.
EDITS = {"join": b"push:", "with_file_name": b"name:"}


@dataclasses.dataclass(frozen=True)
class Row:
    """A row of rows.txt: its line, its call, and its other fields as they are spelled."""
    line: str
    call: str
    spelled: tuple

    @property
    def fields(self):
        """Returns the fields as bytes."""
        return [unescaped(it) for it in self.spelled]


@dataclasses.dataclass(frozen=True)
class Command:
    """A row of commands.txt: the command's name; its first field and the fields after it, if any,
    as in the manual page; its group; the function of Rust's library that has the answer, or `-`;
    and example lines with their answers, as bytes."""
    name: str
    first: str
    rest: str
    group: str
    std: str
    examples: list

    @property
    def fields(self):
        return f"{self.first} {self.rest}".rstrip()

    @property
    def most(self):
        """Returns the most fields that the command takes; None for any number."""
        return None if self.rest.endswith("..") else 2 if self.rest else 1

    @property
    def fewest(self):
        return self.most or 1

    def takes(self, count):
        """Returns true if the command takes this many fields."""
        return count >= self.fewest and (self.most is None or count <= self.most)


# A row of requests.txt: a call; the test that makes the call and the test's crate, or the name of
# an input and `pathtool`; the number of allocations that the call makes there; their bytes in all,
# if the call's documentation says how many; and the number of the test's other allocations.
Request = collections.namedtuple("Request", "call test crate requests size others")


def lines_of(name):
    """Returns the lines of a table that aren't empty or a comment."""
    text = read(f"tests/{name}").decode("ascii")
    return [it for it in text.splitlines() if it and not it.startswith("#")]


def refuse(name, line, why="is no row"):
    sys.exit(f"tests/{name} has a line that {why}: {line}")


def unescaped(field):
    """Returns the bytes that a field represents."""
    return ESCAPE.sub(lambda it: bytes([int(it[1], 16)]) if it[1] else b"\\", field.encode())


def spelled(data):
    """Returns the field that represents these bytes."""
    field = "".join("\\\\" if it == ord("\\") else
                    chr(it) if 0x20 <= it < 0x7F and it != ord("|") else f"\\x{it:02X}"
                    for it in data)
    field = re.sub(r"^[ !]", lambda it: f"\\x{ord(it[0]):02X}", field)
    return re.sub(r" $", r"\\x20", field)


def spelled_row(call, fields):
    """Returns the line of a row with these fields."""
    return call + "".join(f" | {it}" if it else " |" for it in fields)


def calls():
    """Returns the calls of the library by their names without `unix_path_`: each as its shape, and
    the type in C that it returns if it answers a question."""
    text = read("tests/calls.inc").decode("ascii")
    found = re.findall(r"^(\w+)\((?:(\w+), )?(\w+)\)$", text, re.M)
    return {name: (shape, answer) for shape, answer, name in found}


def rows():
    """Returns the rows of rows.txt. Each call of the library has to have a row, but `version` and
    those of which entries.txt has the rows."""
    found, known = {}, calls()
    for line in lines_of("rows.txt"):
        call, *fields = (it.strip(" ") for it in line.split("|"))
        anew = [it if it in WORDS else spelled(unescaped(it)) for it in fields]
        if call not in known or not fields or line != spelled_row(call, anew):
            refuse("rows.txt", line)
        if line in found:
            refuse("rows.txt", line, "occurs twice")
        found[line] = Row(line, call, tuple(fields))
    asked = {row.call for row in found.values()}
    elsewhere = {"version", "entries_scratch", "check_entries"}
    lacking = [it for it in known.keys() - elsewhere if ASKED_BY.get(it, it) not in asked]
    if lacking:
        sys.exit(f"tests/rows.txt has no row of {' '.join(sorted(lacking))}")
    return list(found.values())


def lines_for(row):
    """Yields the lines of `pathtool` that ask for the row's answer: each as a list of fields, with
    the answer."""
    fields = row.fields
    if row.call in FOUND:
        count = 2 if row.call == "strip_prefix" else 1
        none = b"prefix not found" if count == 2 else b"-"
        answer = none if row.spelled[count] == "!none" else b"+" + fields[count]
        yield [FOUND[row.call].encode(), *fields[:count]], answer
    elif row.call in SAID:
        yield [SAID[row.call].encode(), *fields[:-1]], fields[-1]
    elif row.call == "compare":
        yield [b"cmp", *fields[:2]], ORDERS[fields[2]]
    elif row.call == "components":
        yield [b"parts", fields[0]], b"\t".join(fields[1::2])
        yield [b"back", fields[0]], b"\t".join(fields[1::2][::-1])
    elif row.call == "next_ancestor":
        yield [b"ancestors", fields[0]], b"\t".join(fields[1:])
    elif row.call == "is_utf8" and row.spelled[1] == "false":
        yield [b"json", fields[0]], b"path contains invalid UTF-8 characters"
    yield from edits_for(row)


def edits_for(row):
    """Yields the lines of `pathtool` that ask for the row's answer by one edit in place."""
    fields = row.fields
    if row.call in EDITS:
        yield [b"edit", fields[0], EDITS[row.call] + fields[1]], fields[2] + b"\tok"
    elif row.call == "parent":
        is_top = row.spelled[1] == "!none"
        answer = fields[0] + b"\tfalse" if is_top else fields[1] + b"\ttrue"
        yield [b"edit", fields[0], b"pop"], answer


def lines():
    """Returns the rows of vectors/lines.txt: each a line and its answer, as bytes."""
    found = {}
    for row in lines_of("vectors/lines.txt"):
        sides = [[unescaped(it.strip(" ")) for it in side.split("|")] for side in row.split("||")]
        anew = "||".join("|".join(f" {spelled(it)} " if it else " " for it in side)
                         for side in sides).strip(" ")
        line, *answer = map(b"\t".join, sides)
        if row != anew or len(answer) != 1 or b"\n" in line + answer[0]:
            refuse("vectors/lines.txt", row)
        if line in found:
            refuse("vectors/lines.txt", row, "occurs twice")
        found[line] = answer[0]
    return list(found.items())


def literal(text):
    """Returns the bytes that a text with the escapes of commands.txt represents."""
    return text.encode().decode("unicode_escape").encode("latin-1")


def commands():
    """Returns the rows of commands.txt."""
    found = []
    for line in re.sub(r'"\n {8}"', '" "', "\n".join(lines_of("commands.txt"))).splitlines():
        row, example = COMMAND.fullmatch(line), EXAMPLE.fullmatch(line)
        if row:
            found.append(Command(*row.groups(""), []))
        elif example and found:
            found[-1].examples.append(tuple(map(literal, example.groups())))
        else:
            refuse("commands.txt", line)
    return found


def write_commands(path):
    """Writes a header for C that has COMMAND(NAME, FEWEST, MOST) for each command."""
    with open(path, "w", encoding="utf-8") as file:
        for it in commands():
            most = "SIZE_MAX" if it.most is None else it.most
            print(f"COMMAND({it.name}, {it.fewest}, {most})", file=file)


def requests():
    """Returns the rows of requests.txt."""
    found = []
    for line in lines_of("requests.txt"):
        row = REQUEST.fullmatch(line) or refuse("requests.txt", line)
        call, test, crate, count, size, others = row.groups()
        found.append(Request(call, test, crate or "memory_tests", int(count), size and int(size),
                             int(others)))
    return found


def vectors(folder):
    """Yields the vectors, the examples of commands.txt, the lines for rows.txt, and
    vectors/lines.txt: for each its name, and the paths of its lines and of its answers. Writes the
    last three to this folder."""
    made = {
        "examples": [it for row in commands() for it in row.examples],
        "rows": [(b"\t".join(words), answer) for row in rows() for words, answer in lines_for(row)],
        "lines": lines(),
    }
    for name, pairs in made.items():
        for ending, texts in zip(("in", "out"), zip(*pairs)):
            with open(f"{folder}/{name}.{ending}", "wb") as file:
                file.writelines(it + b"\n" for it in texts)
    for given in sorted(glob.glob(f"{ROOT}/tests/vectors/*.in")) + [f"{folder}/{it}.in"
                                                                   for it in made]:
        yield os.path.basename(given)[:-3], given, f"{given[:-3]}.out"
