"""What the tests share: the built programs, commands and files, rows, and what is left out.

A test file is run by itself, `tests/test_NAME.py [-k WORD]`. Each row (Case.row) and each test
without rows counts once. A skipped test prints `left out: WHAT, since WHY`. The last line is
`N passed, M failed`.
"""
import concurrent.futures
import functools
import os
import pathlib
import re
import shutil
import subprocess
import sys
import tempfile
import unittest

sys.path.append(f"{os.path.dirname(os.path.dirname(os.path.abspath(__file__)))}/tools")

# pylint: disable=wrong-import-position
from repository import LIBRARY, PROGRAM, ROOT, UPATH, read_version, read_versions

VERSION = f"{read_version()}.0"
SONAME = f"libunix_path.so.{VERSION.partition('.')[0]}"
# The calls of the libraries, and with their versions as in the shared library.
VERSIONED = {f"unix_path_{it}@@UNIX_PATH_{version}"
             for version, calls in read_versions().items() for it in calls}
CALLS = {it.partition("@")[0] for it in VERSIONED}
# The functions of the C library that the libraries may need.
NEEDED = {"memcpy", "memmove", "memset", "memcmp"}
# The directory of asm/ for this machine.
TARGET = "{}-{}".format(os.uname().machine, os.uname().sysname.lower())
# What make reads from the environment, besides the variables that begin with UNIX_PATH_.
SETTINGS = """CC CXX AR CFLAGS CPPFLAGS LDFLAGS MAKEFLAGS MAKELEVEL PREFIX DESTDIR LIBDIR INCLUDEDIR
    MANDIR""".split()


def run(words, cwd=ROOT, path=None, given=b"", **variables):
    """Runs a command with that path and these variables, and without the caller's settings."""
    env = {name: it for name, it in os.environ.items()
           if not name.startswith("UNIX_PATH_") and name not in SETTINGS}
    env.update(PATH=path or env["PATH"], LC_ALL="C", **variables)
    return subprocess.run(words, cwd=cwd, env=env, input=given, stdout=subprocess.PIPE,
                          stderr=subprocess.PIPE, check=False)


def said(found):
    """Returns what a command printed, as text."""
    return (found.stdout + found.stderr).decode(errors="replace")


def read(path):
    """Returns the bytes of a file of the repository, or of an absolute path."""
    return pathlib.Path(ROOT, path).read_bytes()


def write(path, *lines, mode=0o644):
    """Writes a file, in place of what has its name."""
    os.makedirs(os.path.dirname(path), exist_ok=True)
    if os.path.lexists(path):
        os.remove(path)
    with open(path, "w", encoding="utf-8") as file:
        print(*lines, sep="\n", file=file)
    os.chmod(path, mode)


def write_package(folder, program, crates, *more):
    """Writes a Rust program, which depends on the crates of these lines."""
    write(f"{folder}/Cargo.toml", "[package]", "name = 'outside'", "version = '0.1.0'",
          "edition = '2021'", "[workspace]", "[dependencies]", *crates, *more)
    write(f"{folder}/src/main.rs", program)


def shim(name, folder):
    """Compiles a file of tests/c that is loaded before the C library. Returns its path."""
    path = f"{folder}/{name}.so"
    Case().call("cc", "-O2", "-Wall", "-shared", "-fPIC", f"tests/c/{name}.c", "-o", path, "-ldl")
    return path


def copy_repository(folder):
    """Returns a copy of the repository, without what was built and the mutants."""
    def built(place, names):
        made = (".git", "out", "target", "build", "dist", "__pycache__", "must-fail")
        return [it for it in names if it in made and os.path.isdir(f"{place}/{it}")]

    return shutil.copytree(ROOT, f"{folder}/top", symlinks=True, ignore=built)


def link_commands(folder, names, other=None):
    """Returns a directory that has only these commands, as links; or as links to `other`, if it is
    given."""
    path = f"{folder}/path"
    os.makedirs(path, exist_ok=True)
    for name in names:
        if shutil.which(name) or other:
            os.symlink(other or shutil.which(name), f"{path}/{name}")
    return path


def needs(*commands):
    """Leaves a test, or all tests of a class, out if one of these commands isn't on the path."""
    missing = [it for it in commands if not shutil.which(it)]
    return unittest.skipIf(missing, f"{' and '.join(missing)} isn't on the path")


class Case(unittest.TestCase):
    """Tests made of rows."""

    @functools.cached_property
    def folder(self):
        """A directory of the test's own, which is removed after it."""
        made = tempfile.TemporaryDirectory()
        self.addCleanup(made.cleanup)
        return made.name

    def row(self, *name):
        """Counts what runs in a `with` block over this as a row. The other rows still run if it
        fails."""
        return self.subTest(" ".join(map(str, name)))

    def each(self, do, rows, workers=len(os.sched_getaffinity(0))):
        """Calls do(row) for each row, several at a time. A row passes if its call returns."""
        with concurrent.futures.ThreadPoolExecutor(workers) as pool:
            for row, done in [(row, pool.submit(do, row)) for row in rows]:
                with self.row(row):
                    done.result()

    def leave_out(self, what, why):
        """Ends this row or test, which is then listed as left out."""
        self.skipTest(f"{what}, since {why}")

    def call(self, *words, **options):
        """Runs a command, and returns what it printed. Fails with that if the command fails."""
        options = {"cwd": ROOT, "stdin": subprocess.DEVNULL, **options}
        ran = subprocess.run(words, stdout=subprocess.PIPE, stderr=subprocess.STDOUT, check=False,
                             **options)
        if ran.returncode:
            self.fail(f"{words} ended with {ran.returncode}:\n"
                      + ran.stdout[-4000:].decode(errors="replace"))
        return ran.stdout

    def ran(self, words, *rest, **options):
        """Runs a command as `run` does. Fails with what the command printed if it fails."""
        found = run(words, *rest, **options)
        self.assertEqual(found.returncode, 0, f"{words}: {said(found)}")
        return found

    def fails(self, found, why):
        """Checks that a command failed, and printed why."""
        self.assertNotEqual(found.returncode, 0, said(found))
        self.assertIn(why, said(found))

    def answers(self, words, given, wanted, **options):
        """Runs a command with the file `given` as its input. It has to print the file `wanted`."""
        found = subprocess.run(words, cwd=ROOT, input=read(given), stdout=subprocess.PIPE,
                               stderr=subprocess.PIPE, check=False, **options)
        self.assertEqual(found.returncode, 0, found.stderr[-4000:])
        self.same_lines(found.stdout, read(wanted))

    def same_lines(self, found, wanted):
        """Compares two outputs. Fails with the first line in which they differ."""
        if found != wanted:
            pairs = zip(found.split(b"\n") + [b""], wanted.split(b"\n") + [b""])
            for number, (line, other) in enumerate(pairs, 1):
                if line != other:
                    self.fail(f"line {number}: {line[:500]} and not {other[:500]}")
            self.fail("more or fewer lines than are wanted")

    def example(self, words, name, **options):
        """Runs a command, which has to give the answers of the example with this name."""
        self.answers(words, f"examples/{name}.stdin", f"examples/{name}.stdout", **options)

    def symbols(self, file, *options, nm="nm"):
        """Returns the symbols that nm prints of a file: for each its kind and its name."""
        printed = self.call(nm, *options, file).decode()
        return re.findall(r"^[0-9a-f ]{16} (\w) (.+)$", printed, re.M)


class Counts(unittest.TextTestResult):
    """Counts rows, and lists what is left out."""

    def __init__(self, *words, **options):
        super().__init__(*words, **options)
        self.passed = 0
        self.with_rows = set()

    def addSubTest(self, test, subtest, err):
        super().addSubTest(test, subtest, err)
        self.with_rows.add(test.id())
        self.passed += err is None

    def addSuccess(self, test):
        super().addSuccess(test)
        self.passed += test.id() not in self.with_rows

    def addSkip(self, test, reason):
        super().addSkip(test, reason)
        what = "" if ", since " in reason else f"{test.id().partition('.')[2]}, since "
        print(f"left out: {what}{reason}", flush=True)


class Runner(unittest.TextTestRunner):
    """Ends with the counts."""
    resultclass = Counts

    def run(self, test):
        result = super().run(test)
        failed = len(result.failures) + len(result.errors) + len(result.unexpectedSuccesses)
        print(f"{result.passed} passed, {failed} failed", flush=True)
        return result


def main():
    unittest.main(testRunner=Runner, verbosity=0)
