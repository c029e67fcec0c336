"""Builds the tests and the pathtool of tests/c and tests/cpp with a compiler, and runs them."""
import collections
import glob
import os
import re
import subprocess
import tempfile

import tables
from support import ROOT, Case

STRICT = ["-Wall", "-Wextra", "-Wconversion", "-Wpedantic", "-Werror", "-Iinclude"]
CALL_TESTS = ("rows", "entries", "keys", "walks", "laws", "nulls")
# The tests that replay rows.txt.
ROW_TESTS = ("rows", "view_rows")
PATHTOOL = [f"tests/c/{name}.c" for name in ("pathtool", "answers", "edits")]

# How programs are built and run: a label, the words of the compiler with its flags, what is linked,
# and the words that come before the program.
Build = collections.namedtuple("Build", "label words linked runner", defaults=[()])


class CTest(Case):
    """Tests of programs that a compiler builds."""

    def together(self, jobs):
        """Calls functions, each given with its arguments, several at a time. Each name is a row."""
        self.each(lambda name: jobs[name][0](*jobs[name][1:]), jobs)

    def passes(self, words, **options):
        """Runs a command, and returns what it printed. Wine may end with 0 after a crash, but
        prints that there was one."""
        printed = self.call(*words, **options)
        self.assertNotIn(b"Unhandled exception", printed)
        return printed

    def refused(self, words, why, **options):
        """Runs a command that has to fail, and to print what `why` matches."""
        found = subprocess.run(words, cwd=ROOT, stdin=subprocess.DEVNULL, stdout=subprocess.PIPE,
                               stderr=subprocess.STDOUT, check=False, **options)
        self.assertNotEqual(found.returncode, 0)
        self.assertRegex(found.stdout.decode(errors="replace"), why)

    def all_rows(self, words, **options):
        """Runs a command that replays rows.txt. It prints how many rows it tried and how many it
        left out; together these have to be all rows."""
        printed = self.passes(words, **options)
        said = re.search(rb"\b(\d+) rows, (\d+) left out", printed)
        self.assertIsNotNone(said, printed[-4000:])
        self.assertEqual(sum(map(int, said.groups())), len(tables.rows()))

    def replay(self, label, words):
        """Replays the vectors through the program that these words run. Each is a row."""
        with tempfile.TemporaryDirectory() as folder:
            self.together({f"{label}: {name}": (self.answers, words, *files)
                           for name, *files in tables.vectors(folder)})

    def compiled(self, build, sources, program):
        """Builds a program, and returns its path. A compiler for Windows adds .exe to it."""
        self.passes([*build.words, *sources, *build.linked, "-o", program])
        return program if os.path.exists(program) else f"{program}.exe"

    def try_test(self, build, name):
        """Builds and runs a test of tests/c or tests/cpp."""
        source = glob.glob(f"{ROOT}/tests/c*/{name}.c*")[0]
        with tempfile.TemporaryDirectory() as folder:
            program = self.compiled(build, [source], f"{folder}/{name}")
            run = self.all_rows if name in ROW_TESTS else self.passes
            run([*build.runner, program])

    def try_pathtool(self, build):
        """Builds the pathtool in C, and replays the vectors through it."""
        with tempfile.TemporaryDirectory() as folder:
            program = None
            with self.row(build.label, "builds pathtool"):
                tables.write_commands(f"{folder}/commands.h")
                build = build._replace(words=[*build.words, f"-I{folder}"])
                program = self.compiled(build, PATHTOOL, f"{folder}/pathtool")
            if program:
                self.replay(build.label, [*build.runner, program])
