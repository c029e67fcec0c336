#!/usr/bin/env python3
"""Tests upath: its results, compared with a model and with tests/upath_rows.txt, when it reads and
writes, the examples of its pages, scripts that call it, and how memory and instructions grow.

The environment may have `runs` and `seed`: the number (2,000) and the seed of the random runs,
which have hostile paths and options. tests/test_faults.py has inputs, outputs and allocations that
fail.
"""
import ast
import itertools
import os
import random
import re
import resource
import select
import shutil
import socket
import subprocess
import tarfile
import tempfile
import tty

from support import ROOT, UPATH, Case, main, needs
from upath_model import (COMMANDS, COMMON, NEEDED, TASKS, TEXTS, Call, Usage, all_parts,
                         entries_of, expected, key, order_of, requested)

SECONDS = 60
# What the paths of random runs are made of, each with its frequency.
PIECES = {b"/": 30, b"//": 5, b"/./": 5, b"/../": 9, b".": 6, b"..": 12, b"...": 1, b"a": 14,
          b"b": 8, b"c": 3, b"a.b": 3, b".a": 2, b"a.": 2, b"-": 2, b"\\": 1, b"\t": 1, b"\r": 1,
          b"\xff": 2, b"\xc3\xa9": 1, b"\xc2\x9b": 1, b"\xed\xa0\x80": 1, b"\x1b[2J": 1,
          b"n" * 300: 1, b"\0": 1, b"\n": 1}
# Words that come in between.
HOSTILE = [b"--help", b"-h", b"--version", b"--", b"-", b"", b"-q", b"-z", b"-zx", b"-\xc3\xa9",
           b"-p\xff", b"--null=1", b"--nul", b"--\n", b"---", b"--from", b"--from=a", b"--or",
           b"--or=", b"--or=\n", b"help", b"canon", b"a\nb", b"-b", b"--strip", b"--beneath"]


class Maker:
    """Makes random runs."""

    def __init__(self, seed):
        self.random = random.Random(seed)

    def often(self, chance):
        return self.random.random() < chance

    def path(self, forbidden):
        words = self.random.choices([*PIECES], [*PIECES.values()], k=self.random.randrange(9))
        return b"".join(words).translate(None, forbidden)

    def key_text(self, forbidden):
        """Returns the key of a path in hexadecimal, or what is almost one."""
        data = bytearray(key(self.path(b"")))
        if data and self.often(0.2):
            data[self.random.randrange(len(data))] = self.random.choice(b"\0\1\2\3\x2e/0\xff")
        if self.often(0.1):
            data = data[:-1]
        text = data.hex().encode()
        text = self.random.choice([text, text, text.upper()])
        return text if self.often(0.9) else self.random.choice([text[1:], text + b"g0"])

    def spelled_again(self, path):
        """Returns an equal path, with more slashes and dots."""
        filler = self.random.choice([b"//", b"/./", b"/.//"])
        end = self.random.choice([b"", b"/", b"/.", b"//"]) if path else b""
        return path.replace(b"/", filler, self.random.randrange(4)) + end

    def paths(self, command, most, forbidden):
        make = self.key_text if command.name == "unkey" else self.path
        found = [make(forbidden) for _ in range(self.random.randrange(most))]
        found += [self.spelled_again(it) for it in found if self.often(0.3)]
        return self.random.sample(found, len(found))

    def entries(self):
        """Returns entries that often clash: kinds, paths and targets."""
        found = []
        for _ in range(self.random.choice([0, 1, 2, 3, 4, 5, 6, 9])):
            kind = self.random.choice([b"d", b"d", b"f", b"f", b"l", b"l", b"h", b"h", b"o", b""])
            path, target = (b"/".join(self.random.choices(
                [b"a", b"b", b"a.b", b"..", b".", b"\n", b"\xff"], [9, 9, 2, 1, 1, 1, 1],
                k=self.random.choice([1, 1, 2, 3]))) for _ in range(2))
            if self.often(0.1):
                path, target = self.path(b"\0"), self.path(b"\0")
            found.append((kind, path, target))
        return found

    def archive(self, is_listed):
        """Returns the entries of an archive as records, or as they are listed. Some bytes may be
        missing or others."""
        lines = [self.line(*it) if is_listed else b"\0".join(it) + b"\0"
                 for it in self.entries()]
        data = bytearray(b"".join(lines))
        if data and self.often(0.2):
            data[self.random.randrange(len(data))] = self.random.choice(b"\0 \"\\/0x-\n\xff")
        if self.often(0.1):
            data = data[:self.random.randrange(len(data) + 1)]
        return bytes(data)

    def line(self, kind, path, target):
        """Returns an entry as GNU tar lists it. A path has a byte or more there."""
        letter = {b"f": b"-", b"o": b"p", b"": b"C"}.get(kind, kind)
        words = {b"l": b" -> ", b"h": b" link to "}.get(kind)
        columns = self.random.choice([
            b"rwxr-xr-x 0/0 0 2026-11-30 12:00", b"rwsr-sr-T 1000/100     12 1970-01-01 00:00",
            b"rw-r--r-- 7/8 8,0 -1-01-01 23:59", b"--------- 0/0 9  -62135596801"])
        name = quoted(path or b"a")
        return letter + columns + b" " + name + (words + quoted(target) if words else b"") + b"\n"

    def option(self, option):
        """Returns an option as one argument or as two."""
        letter, name = f"-{option.letter}".encode(), f"--{option.name}".encode()
        if not option.value:
            return [self.random.choice([it for it in (letter, name) if it not in (b"-", b"--")])]
        value = self.path(b"\n\0")
        return self.random.choice([[name, value], [name + b"=" + value]])

    def run(self):
        """Returns arguments and an input. Most are right usage."""
        command = self.random.choice(COMMANDS)
        is_null = self.often(0.4)
        options = [it for it in (*COMMON[1:4], *command.options)
                   if f"--{it.name}" not in command.lacks and f"-{it.letter}" not in command.lacks
                   and self.often(0.9 if it.name == "from" else 0.2)] + COMMON[:1] * is_null
        operands = [self.path(b"\n\0") for _ in range(
            2 if command.name == "equal" else command.name in NEEDED)]
        paths = self.paths(command, 6, b"\0" if is_null else b"\n\0")
        paths *= self.often(0.4) and command.name not in ("equal", "archive")
        head = [[command.name.encode()], *([it] for it in operands)]
        for it in options:
            head.insert(self.random.randrange(len(head) + 1), self.option(it))
        words = [it for group in head for it in group]
        words += [b"--"] * (bool(paths) or self.often(0.2)) + paths
        for _ in range(self.random.choice([0, 0, 0, 1, 2])):
            at = self.random.randrange(len(words) + 1)
            words[at:at + self.random.randrange(2)] = [self.random.choice(HOSTILE)]
        if command.name == "archive":
            return words, self.archive(b"--tar-list" in words)
        end = b"\0" if is_null else b"\n"
        data = b"".join(it + end for it in self.paths(command, 30, end))
        return words, data[:-1] if self.often(0.2) else data


def quoted(name):
    """Returns a name as GNU tar quotes it with --quoting-style=c."""
    letters = dict(zip(b'\a\b\t\n\v\f\r"\\', b'abtnvfr"\\'))
    return b'"%b"' % b"".join(
        b"\\%c" % letters[it] if it in letters
        else bytes([it]) if 32 <= it <= 126 else b"\\%03o" % it for it in name)


def call(words, data=b"", **options):
    """Returns the status and both outputs of a run."""
    found = subprocess.run([UPATH, *words], input=data, capture_output=True, timeout=SECONDS,
                           check=False, **options)
    return found.returncode, found.stdout, found.stderr


class Random(Case):
    def test_random(self):
        seed = os.environ.get("seed") or str(random.randrange(10**9))
        print(f"seed={seed}", flush=True)
        maker = Maker(seed)
        self.each(self.check, [maker.run() for _ in range(int(os.environ.get("runs", "2000")))])

    def check(self, run):
        self.assertEqual(call(*run), expected(*run))


# Paths in path order: the empty path and the root, what is below it, a leading `.`, `..`, and names
# by their bytes.
IN_ORDER = [b"", b"/", b"/..", b"/../a", b"/a", b"/a/b", b".", b"./..", b"./a", b"..", b"../..",
            b"../a", b"\x01", b"\t", b"-", b"...", b".a", b"a", b"a/..", b"a/../b", b"a/a",
            b"a/b/c", b"a\0", b"a\0/b", b"a\0\x01", b"a\x01", b"a-", b"a.b", b"a0", b"aa", b"b",
            b"n" * 300, b"n" * 300 + b"/a", b"n" * 301, b"\xc3\xa9", b"\xff", b"\xff\xff"]


def unescaped(text):
    return ast.literal_eval(f'b"{text}"')


def read_rows():
    """Yields the rows of tests/upath_rows.txt: the arguments as they are written, their bytes, the
    input, and the status and both outputs."""
    with open(f"{ROOT}/tests/upath_rows.txt", encoding="ascii") as file:
        rows = [it for it in file.read().splitlines() if it and it[0] != "#"]
    for row in rows:
        status, line, output, messages = [*(it.strip() for it in row.split("|")), "", ""][:4]
        words, _, data = line.partition(" < ")
        said = b"".join(b"upath: %b\n" % it for it in unescaped(messages).split(b"\n") if messages)
        said += b"Try 'upath --help'.\n" * (status == "2")
        yield (line, [unescaped(it.replace("''", "")) for it in words.split()], unescaped(data),
               (int(status), unescaped(output), said))


class Given(Case):
    """Results that are given, and not calculated. The model has to agree with them."""

    def same(self, name, words, data, wanted):
        with self.row(name):
            self.assertEqual(call(words, data), wanted)
            self.assertEqual(expected(words, data), wanted, "the model")

    def test_rows(self):
        for row in read_rows():
            self.same(*row)

    def test_equal(self):
        paths = [b"", b".", b"a", b"a/.", b"./a", b"/", b"//", b"/a"]
        for a, b in itertools.product(paths, repeat=2):
            wanted = int(all_parts(a) != all_parts(b)), b"", b""
            self.same(f"equal {a} {b}", [b"equal", a, b], b"", wanted)

    def test_order(self):
        """`sort` puts paths in an order that is written down here, and every byte in its place."""
        single = [bytes([it]) for it in range(256) if it not in b"./"]
        ends = random.Random(1)
        for end, paths in [(b"\0", [b"/", *(it for it in single if it != b"\0")]),
                           (b"\n", [b"/", b".", *(it for it in single if it != b"\n")]),
                           (b"\n", IN_ORDER)]:
            words = [b"sort"] + [b"-z"] * (end == b"\0")
            whole, back = (b"".join(it + end for it in it) for it in (paths, paths[::-1]))
            for number in range(20):
                with self.row("order", len(paths), number):
                    data = b"".join(it + end for it in ends.sample(paths, len(paths)))
                    self.assertEqual(call(words, data), (0, whole, b""))
                    self.assertEqual(call([*words, b"-r"], data), (0, back, b""))
                    self.assertEqual(call([*words, b"-cu"], data)[0], int(data != whole))
                    self.assertEqual(call([*words, b"-c"], whole), (0, b"", b""))

    def test_arguments_of_every_byte(self):
        every = bytes(range(1, 256))
        operands = [every, *(bytes([it]) for it in every)]
        wanted = b"".join(it + b"\0" + it + b"\0" for it in [
            b"/", b".", *sorted(it for it in operands if it not in (b"/", b"."))])
        self.assertEqual(call([b"sort", b"-zp", b"--", *operands[::-1]]), (0, wanted, b""))

    def test_help(self):
        """Help texts are those of tools/upath.txt, wherever they are asked for."""
        whole = TEXTS["general_help"](COMMON, COMMANDS, TASKS)
        asked = [(it, whole) for it in ("--help", "-h", "help", "help -x", "--help -x")]
        for it in COMMANDS:
            asked += [(line.format(it.name), TEXTS["command_help"](it)) for line in (
                "{} --help", "{} -h -x", "help {}", "-h {}", "--help {} --version", "-z {} --help")]
        asked += [(it, TEXTS["version"]()) for it in ("--version", "canon --version -x")]
        for line, text in asked:
            output = "".join(f"{it}\n" for it in text).encode()
            self.same(line, line.encode().split(), b"a\n", (0, output, b""))


class AtOnce(Case):
    """Results and messages come before upath waits for more input. After a record without its end,
    nothing is read."""

    # Commands, and records with what has to come before the next one is written.
    TURNS = [("canon", [("a//b\n", "a/b\n"), ("\n", "\n"), ("c//d\ne", "c/d\n"), ("/\n", "e\n")]),
             ("canon -z", [("a//b\0", "a/b\0"), ("\n\0", "\n\0")]),
             ("uniq", [("a\n", "a\n"), ("a/\nb\n", "b\n")]), ("escapes", [("a\n/\n", "/\n")]),
             ("parent", [("/\n", "upath: /: no parent\n"), ("a\n", ".\n")]),
             ("under -v a", [("b\n", "b\n"), ("a\nc\n", "c\n")])]

    def test_turns(self):
        for (line, turns), make in itertools.product(self.TURNS, (os.pipe, os.openpty)):
            with self.row(make.__name__, line):
                reader, writer = make()
                if make is os.openpty:
                    tty.setraw(writer)
                with open(reader, "rb", buffering=0) as output, subprocess.Popen(
                        [UPATH, *line.split()], stdin=subprocess.PIPE, stdout=writer,
                        stderr=writer) as run:
                    os.close(writer)
                    for record, wanted in turns:
                        os.write(run.stdin.fileno(), record.encode())
                        self.assertEqual(self.read(output, len(wanted)), wanted.encode())

    def read(self, output, size):
        """Returns as many bytes, or those that come within some seconds."""
        found = b""
        while len(found) < size and select.select([output], [], [], SECONDS)[0]:
            found += output.read(size - len(found))
        return found

    def test_sort_waits(self):
        with subprocess.Popen([UPATH, "sort"], stdin=subprocess.PIPE,
                              stdout=subprocess.PIPE) as run:
            run.stdin.write(b"b\na\n")
            run.stdin.flush()
            self.assertFalse(select.select([run.stdout], [], [], 0.2)[0])
            self.assertEqual(run.communicate(timeout=SECONDS)[0], b"a\nb\n")

    def test_typed(self):
        """In a terminal, two ^D end a line, and what is typed after them stays unread."""
        for line in ("canon", "resolve", "sort", "uniq"):
            with self.row(line):
                keys, terminal = os.openpty()
                os.write(keys, b"b/a\nc\x04\x04d\n")
                found = subprocess.run([UPATH, line], stdin=terminal, timeout=SECONDS,
                                       stdout=subprocess.PIPE, check=True).stdout
                self.assertEqual((found, os.read(terminal, 10)), (b"b/a\nc\n", b"d\n"))
                os.close(keys)
                os.close(terminal)

    def test_more_after_the_end(self):
        """An input that grows after its end was read. Each packet is a read, and an empty one is
        the end of the input."""
        for line, packets, wanted in [
                ("canon", [b"a", b"", b"b\n"], b"a\n"), ("canon", [b"a\n", b"", b"b\n"], b"a\n"),
                ("canon -z", [b"a\0b", b"", b"\0"], b"a\0b\0"), ("uniq", [b"a", b"", b"b"], b"a\n"),
                ("escapes -v", [b"a", b"c", b"", b"b"], b"ac\n"), ("canon", [b"", b"b\n"], b""),
                ("sort", [b"b\n", b"a", b"", b"c\n"], b"a\nb\n"),
                ("sort -c", [b"a", b"", b"b"], b"")]:
            with self.row(line, packets):
                ours, theirs = socket.socketpair(socket.AF_UNIX, socket.SOCK_SEQPACKET)
                with ours, theirs:
                    for packet in packets:
                        ours.send(packet)
                    found = subprocess.run([UPATH, *line.split()], stdin=theirs, timeout=SECONDS,
                                           stdout=subprocess.PIPE, check=True).stdout
                    self.assertEqual((found, theirs.recv(10)), (wanted, packets[-1]))


class Unread(Case):
    def test_rows(self):
        """Without an input nothing is read: not from one that has a line, and never ends."""
        for name, words, _, wanted in read_rows():
            if not self.reads(words):
                with self.row(name):
                    reader, writer = os.pipe()
                    os.write(writer, b"a\n")
                    found = subprocess.run([UPATH, *words], stdin=reader, capture_output=True,
                                           timeout=SECONDS, check=False)
                    self.assertEqual((found.returncode, found.stdout, found.stderr), wanted)
                    self.assertEqual(os.read(reader, 10), b"a\n")
                    os.close(reader)
                    os.close(writer)

    def reads(self, words):
        try:
            return requested(words) is None and Call(words).paths is None
        except Usage:
            return False


# Requests from outside, and what `join --beneath /srv` makes of them, or its status.
REQUESTS = [("--help", "/srv/--help"), ("-h", "/srv/-h"), ("--version", "/srv/--version"),
            ("-q", "/srv/-q"), ("-zq", "/srv/-zq"), ("--", "/srv/--"), ("-", "/srv/-"),
            ("--or=x", "/srv/--or=x"), ("--in-root", "/srv/--in-root"), ("-x", "/srv/-x"),
            ("help", "/srv/help"), ("", "/srv"), (".", "/srv"), ("a//b/../c", "/srv/a/c"),
            ("a b", "/srv/a b"), ("*", "/srv/*"), ("$(id)", "/srv/$(id)"), ("\\n", "/srv/\\n"),
            ("..", "1"), ("/etc", "1"), ("a/../../b", "1"), ("a\nb", "2"), ("\n", "2")]
# The examples of `upath --help`, and what each prints in the directory that test_tasks makes.
TASK_RESULTS = ["../evil\n", ".\0./bin\0./lib\0./lib/tool\0./list\0./x.tar\0", "./a\0-z\0",
                "/srv/-q\n", "yes\n", "../lib/tool\n"]


class Shells(Case):
    """Scripts, in a directory of their own, that call upath."""

    def setUp(self):
        folder = tempfile.TemporaryDirectory()
        self.addCleanup(folder.cleanup)
        self.here = f"{folder.name}/here"
        os.makedirs(self.here)
        os.symlink(UPATH, f"{folder.name}/upath")
        self.places = {**os.environ, "PATH": f"{folder.name}:{os.environ['PATH']}"}

    def run_in(self, words, data=b"", **variables):
        """Returns the status and what is printed to both outputs."""
        found = subprocess.run(words, cwd=self.here, env={**self.places, **variables}, input=data,
                               stdout=subprocess.PIPE, stderr=subprocess.STDOUT, timeout=SECONDS,
                               check=False)
        return found.returncode, found.stdout

    def sh(self, script, *words, **more):
        return self.run_in(["sh", "-c", script, "sh", *words], **more)[1].decode()

    def test_requests(self):
        """A loop over requests, which doesn't read the script's own input."""
        script = """serve() { upath join --beneath "$root" -- "$@" 2> log; }
            serve
            for request do
                if path=$(serve "$request"); then printf '%s\n' "$path"; else echo $?; fi
            done
            cat"""
        for request, wanted in REQUESTS:
            with self.row(repr(request)):
                self.assertEqual(self.sh(script, request, data=b"mine\n", root="/srv"),
                                 f"{wanted}\nmine\n")
        requests = [it for it, _ in REQUESTS]
        wanted = "".join(f"{it}\n" for _, it in REQUESTS) + "mine\n"
        self.assertEqual(self.sh(script, *requests, data=b"mine\n", root="/srv"), wanted)
        given = [it for it, path in REQUESTS if path[0] == "/"]
        self.assertEqual(self.sh('upath join -- "$root" "$@"', *given[:-1], root="-q"),
                         "".join(f"-q/{it}\n" for it in given[:-1]))

    def test_parents(self):
        """A loop over parents ends, and prints what `ancestors` does."""
        script = """path=$1; while echo "$path"; path=$(upath parent -- "$path"); do :; done 2> log
            echo; upath ancestors -- "$1" """
        for path, wanted in [("a/b//c/", "a/b//c/ a/b a ."), ("/a/b", "/a/b /a /"), (".", "."),
                             ("../../a", "../../a ../.. .. ."), ("./a/..", "./a/.. ./a ."),
                             ("-q/--help", "-q/--help -q ."), ("/", "/"), ("/..", "/.. /"),
                             ("//a/.", "//a/. /"), ("--", "-- .")]:
            with self.row(path):
                lines = wanted.replace(" ", "\n")
                self.assertEqual(self.sh(script, path), f"{lines}\n\n{lines}\n")

    def test_links(self):
        """A link made from `relative` leads where it should, also to its own directory."""
        for name in "a/b/-q", "c/d":
            os.makedirs(f"{self.here}/{name}")
        for start, end in itertools.product(("a", "a/b", "c/d", ".", "a/b/-q"), repeat=2):
            with self.row(start, end):
                link = f"{start}/{end}".replace("/", "_")
                self.sh('ln -s -- "$(upath relative --from="$1" -- "$2")" "$1/$3"',
                        start, end, link)
                self.assertTrue(os.path.samefile(f"{self.here}/{start}/{link}",
                                                 f"{self.here}/{end}"))

    def test_conditions(self):
        script = 'for it do if upath under -q /srv -- "$it"; then echo yes; else echo no; fi; done'
        paths = {"/srv": "yes", "/srv/a/..": "yes", "/srv/../etc": "no", "srv": "no", "/srvx": "no",
                 "-q": "no", "--help": "no", "": "no", "/srv/--help": "yes"}
        self.assertEqual(self.sh(script, *paths), "".join(f"{it}\n" for it in paths.values()))

    @needs("find")
    def test_find(self):
        """Files with any names, each as a record that ends with NUL."""
        names = ["a", "a/b\n", "a/b\n/c", "a/-q", "a.b", "--help", "\n", "a/\udcff"]
        for it in names:
            os.makedirs(f"{self.here}/{it}")
        found = self.sh("find . -mindepth 1 -print0 | upath sort -zu | od -An -c -v")
        wanted = b"".join(it + b"\0" for it in sorted((os.fsencode(f"./{it}") for it in names),
                                                      key=order_of))
        self.assertEqual(found, self.run_in(["od", "-An", "-c", "-v"], wanted)[1].decode())

    def test_examples(self):
        """The examples of the help texts."""
        for it in COMMANDS:
            with self.row(it.example):
                self.assertEqual(self.sh(it.example).splitlines(), it.answer)

    def blocks(self):
        """Returns the lines of each example of the manual page."""
        with open(f"{ROOT}/man/upath.1", encoding="utf-8") as file:
            found = re.findall(r"^\.EX\n(.*?)^\.EE$", file.read(), re.M | re.S)
        return [it.replace(r"\-", "-").replace(r"\e", "\\").replace(r"\&", "").splitlines()
                for it in found]

    @needs("bash")
    def test_manual(self):
        """The examples of the manual page, except that with an archive."""
        blocks = [it for it in self.blocks() if it[0].startswith("$ ") and "tar" not in it[0]]
        self.assertGreater(len(blocks), 12)
        for lines in blocks:
            with self.row(lines[0]):
                script = "".join(f"{it[2:]}\n" for it in lines if it[:2] in ("$ ", "> "))
                wanted = "".join(f"{it}\n" for it in lines if it[:2] not in ("$ ", "> "))
                self.assertEqual(self.run_in(["bash", "-c", script])[1].decode(), wanted)

    def test_basename(self):
        """The table of the manual page that compares name and parent with basename and dirname."""
        head, *lines = next(it for it in self.blocks() if "basename" in it[0])
        for line in lines:
            path, *wanted = line.split()
            for name, result in zip(head.split()[1:], wanted):
                with self.row(name, path):
                    words = [name] if shutil.which(name) and "name" in name[3:] else ["upath", name]
                    found = self.run_in([*words, path])
                    self.assertEqual(found[1].decode() if found[0] == 0 else "-\n", f"{result}\n")

    @needs("tar", "find")
    def test_tasks(self):
        for name in "bin", "lib":
            os.mkdir(f"{self.here}/{name}")
        with open(f"{self.here}/lib/tool", "w", encoding="utf-8"):
            pass
        with tarfile.open(f"{self.here}/x.tar", "w") as archive:
            for name in "a/b", "../evil":
                archive.addfile(tarfile.TarInfo(name))
        with open(f"{self.here}/list", "wb") as file:
            file.write(self.run_in(["tar", "-tvP", "--numeric-owner", "--quoting-style=c", "-f",
                                    "x.tar"], LC_ALL="C")[1])
        self.assertEqual(len(TASKS), len(TASK_RESULTS))
        for (what, line), wanted in zip(TASKS, TASK_RESULTS):
            with self.row(what):
                line = f"exec 2> /dev/null; {line}" + "; readlink bin/tool" * ("ln" in line)
                self.assertEqual(self.sh(line, ".//a", "-z", request="-q", path="/srv/a"), wanted)


def limited(kilobytes, line, data):
    """Returns the status and both outputs of a run in an address space of this size."""
    with tempfile.TemporaryFile() as source:
        source.write(data)
        source.seek(0)
        found = subprocess.run(
            [UPATH, *line.split()], stdin=source, capture_output=True, timeout=600, check=False,
            preexec_fn=lambda: resource.setrlimit(resource.RLIMIT_AS, (kilobytes * 1024,) * 2))
    return found.returncode, found.stdout, found.stderr


class Sizes(Case):
    def test_memory(self):
        """Commands that answer record by record need little memory, whatever the number of lines.
        `sort` keeps every path, and `uniq` each path that it prints, in at most 330 bytes for a
        path of 20."""
        count = 1_000_000
        same = b"usr/share/doc//x.txt\n" * count
        other = b"".join(b"usr/share/doc/%06d\n" % it for it in range(count))
        for line, data, wanted, keeps in [
                ("canon", same, same.replace(b"//", b"/"), False), ("canon", other, other, False),
                ("escapes -v", other, other, False), ("under usr", other, other, False),
                ("uniq", same, same[:21], False), ("uniq", other, other, True),
                ("sort", other, other, True), ("sort -r", same, same, True)]:
            with self.row("memory", line):
                least = self.least(line, data[:2100])
                most = least + (330 * count // 1024 if keeps else 1000)
                self.assertEqual(limited(most, line, data), (0, wanted, b""))
                self.assertEqual(limited(least + 1000, line, data)[0], 3 if keeps else 0)

    def least(self, line, data):
        """Returns an address space, in kilobytes, that is hardly enough for this input."""
        low, high = 1000, 50000
        while high - low > 250:
            middle = (low + high) // 2
            low, high = (low, middle) if limited(middle, line, data)[0] == 0 else (middle, high)
        return high

    @needs("valgrind")
    def test_growth(self):
        """For four times as many paths, `sort` and `uniq` take at most five times the instructions.
        The paths differ at their beginning, at their end or in their spelling, in any order."""
        count = 160_000
        numbers = [*range(count)]
        mixed = random.Random(1).sample(numbers, count)
        kinds = {"in order": [b"%07d/x\n" % it for it in numbers],
                 "from the last": [b"%07d/x\n" % it for it in numbers[::-1]],
                 "mixed": [b"%07d/x\n" % it for it in mixed],
                 "deep": [b"a/" * 40 + b"%d\n" % it for it in mixed],
                 "climbing": [b"../" * (it % 50) + b"%d\n" % it for it in mixed],
                 "equal": [b"usr//share\n", b"usr/./share\n"] * (count // 2)}

        def check(row):
            name, kind = row
            fewer, more = (instructions(name, b"".join(kinds[kind][:it]))
                           for it in (count // 4, count))
            self.assertLessEqual(more, 5 * fewer, f"{fewer} and {more} instructions")
        self.each(check, itertools.product(("sort", "uniq"), kinds))

    def test_large(self):
        """Paths of 100 MB, and five million paths."""
        letters, parts, many = b"a/" * 50_000_000, b"a/" * 25_000_000, b"a\n" * 5_000_000
        for line, data, wanted in [
                ("canon", letters + b"\n", letters[:-1] + b"\n"), ("canon", many, many),
                ("canon", b"/" * 100_000_000 + b"\n", b"/\n"),
                ("sort", parts + b"b\n" + parts + b"\n", parts + b"\n" + parts + b"b\n"),
                ("uniq", parts + b"\n" + parts + b"./\n", parts + b"\n")]:
            with self.row("large", line, len(wanted)):
                with tempfile.TemporaryFile() as source:
                    source.write(data)
                    source.seek(0)
                    found = subprocess.run([UPATH, line], stdin=source, stdout=subprocess.PIPE,
                                           check=True).stdout
                self.assertTrue(found == wanted, f"{len(found)} bytes")

    @needs("valgrind")
    def test_long_paths(self):
        """For paths four times as long, a command takes at most five times the instructions."""
        pieces = b"a/", b"/", b"../", b"a/../", b"./"

        def check(line):
            fewer, more = (instructions(line, b"".join(it * count + b"\n" for it in pieces))
                           for count in (10_000, 40_000))
            self.assertLessEqual(more, 5 * fewer, f"{fewer} and {more} instructions")
        own = {"relative": " --from=a", **{it: " a" for it in NEEDED}}
        self.each(check, [it.name + own.get(it.name, "") for it in COMMANDS
                          if it.name not in ("ancestors", "equal")])


def instructions(line, data):
    """Returns how many instructions a run takes."""
    run = subprocess.run(["valgrind", "--tool=cachegrind", "--cache-sim=no",
                          "--cachegrind-out-file=/dev/null", UPATH, *line.split()], input=data,
                         stdout=subprocess.DEVNULL, stderr=subprocess.PIPE, check=False)
    return int(re.search(rb"I +refs: +([\d,]+)", run.stderr)[1].replace(b",", b""))


if __name__ == "__main__":
    main()
