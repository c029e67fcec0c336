#!/usr/bin/env python3
"""Tests requests.txt, the table of the calls that can fail because an allocation fails.

The table has to name each public function of the crates below that returns a Result, except those
whose error never comes from an allocation.

Each test that the table names runs repeatedly: with its first allocation failing, then its second,
and so on up to its last, counted from the test's start. The test's call has to fail as often as the
table says and, if the table has a size, for as many bytes in all. Each time the test checks what
the contract promises. The test's other allocations, which are made before the call or whose failure
the call ignores, have to be as many as the table says. So a call that allocates once more than it
has to is noticed.

A row of pathtool names an input instead of a test, and the program runs over that input. Each time
it has to print `out of memory` and a prefix of the answers, or all answers if it ignores the
failure. The tests are those that `rt ci` built.
"""
import functools
import glob
import os
import re
import subprocess
import unittest

import tables
from support import PROGRAM, ROOT, Case, main, needs, read, shim

CRATES = ("unix_bytes", "unix_path", "path_runs", "path_table", "path_within", "path_keys",
          "path_archive", "tar_listing", "path_tree")
TESTS = f"{ROOT}/crates/memory_tests/out/memory_tests_tests"
OTHER_ERRORS = {"StripPrefixError", "RequestError", "StripError"}
BLOCK = re.compile(r"impl(?:<.*?>)? (?:.* for )?(\w+).* \{$")
FUNCTION = re.compile(r"(?:pub )?fn (\w+)")
ANSWER = re.compile(r"-> Result<.*\b(\w+)>$")
MADE = re.compile(rb"^requests: (\d+), refused: (\d+) bytes\n", re.M)
ENDED, REFUSED, FAILED = b"test result: ok", b"refused", b"error: AllocError"
MOST_REQUESTS = 1000


def signature(lines):
    """Returns the signature of the function at the beginning of these lines, on one line."""
    found = []
    for line in map(str.strip, lines):
        if re.match(r"(requires|ensures|where)\b", line):
            break
        found.append(line.rstrip(" {};"))
        if line.endswith(("{", "}", ";")):
            break
    return " ".join(found).rstrip()


def calls_of(lines):
    """Yields each public function of a source file that can fail because an allocation fails, as
    Type::name or name."""
    owner, is_trait = "", False
    for at, line in enumerate(lines):
        block = BLOCK.match(line)
        if block:
            owner, is_trait = f"{block.group(1)}::", " for " in line
        elif line == "}":
            owner, is_trait = "", False
        function = FUNCTION.match(line.strip())
        if function and (line.strip().startswith("pub") or is_trait):
            answer = ANSWER.search(signature(lines[at:]))
            if answer and answer.group(1) not in OTHER_ERRORS:
                yield owner + function.group(1)


def public_calls():
    """Returns the functions of the crates that can fail because an allocation fails."""
    for crate in CRATES:
        for path in glob.glob(f"{ROOT}/crates/{crate}/src/**/*.rt", recursive=True):
            if "/tests" not in os.path.relpath(path, ROOT):
                yield from calls_of(read(path).decode().split("\n"))


@functools.lru_cache(maxsize=None)
def test_names():
    """Returns the full name of each test in Rattle, by the name of its function."""
    run = subprocess.run([TESTS, "--list"], stdout=subprocess.PIPE, text=True, check=True)
    names = re.findall(r"^(\S+): test$", run.stdout, re.M)
    return {name.rsplit("::", 1)[1]: name for name in names}


def input_of(name):
    """Returns the input of pathtool that has this name in the table, and its answers."""
    if name == "line_of_under":
        return b"under\t/a\t/a//b/./c\t/d\t/a/b/c\n", b"b/c\n"
    return [read(f"crates/pathtool/{it}") for it in {"stored_lines": ("stdin", "stdout")}[name]]


def ends_of_test(run):
    """Returns how a test ended, from the lines that it printed."""
    return [line for line in (run.stdout + b"\n" + run.stderr).split(b"\n")
            if line in (ENDED, REFUSED, FAILED)]


def ends_of_program(answers, run):
    """Returns how the program ended, in the words of a test; nothing if it ended wrongly."""
    said = MADE.sub(b"", run.stderr)
    if (run.returncode, run.stdout, said) == (0, answers, b""):
        return [ENDED]
    is_told = (run.returncode, said) == (1, b"out of memory\n")
    return [REFUSED] if is_told and answers.startswith(run.stdout) else []


@needs("cc")
class Requests(Case):
    """Allocations that fail, one at a time."""

    def setUp(self):
        self.refuser = shim("refuse_request", self.folder)

    def run_refusing(self, number, command, data, ends_of):
        """Runs a command while the allocation with this number fails. Returns how it ended, and how
        many bytes the allocation is for; an end of None if there are fewer allocations."""
        run = subprocess.run(command, input=data, stdout=subprocess.PIPE, stderr=subprocess.PIPE,
                             check=False, env={**os.environ, "LD_PRELOAD": self.refuser,
                                               "REFUSED_REQUEST": str(number)})
        made, ends = MADE.search(run.stderr), ends_of(run)
        said = f"request {number}: {run.stdout + run.stderr}"
        self.assertIsNotNone(made, said)
        self.assertEqual(len(ends), 1, said)
        if int(made[1]) < number:
            self.assertEqual(ends, [ENDED], said)
            return None, 0
        return ends[0], int(made[2])

    def check_count(self, row, *how):
        """Checks the number of allocations of the row's call and of the others, and their bytes."""
        requests = size = others = 0
        for number in range(1, MOST_REQUESTS):
            end, refused = self.run_refusing(number, *how)
            if end is None:
                break
            requests, size = requests + (end == REFUSED), size + refused * (end == REFUSED)
            others += end != REFUSED
        found = requests, size if row.size is not None else None, others
        self.assertEqual(found, (row.requests, row.size, row.others))

    @unittest.skipUnless(os.path.exists(TESTS), "rt ci hasn't built the tests in Rattle")
    def test_calls(self):
        rows = {f"{it.call} ({it.test})": it for it in tables.requests() if it.crate != "pathtool"}
        self.each(lambda name: self.check_count(
            rows[name], [TESTS, test_names().get(rows[name].test, rows[name].test)], b"",
            ends_of_test), rows)

    @unittest.skipUnless(os.path.exists(PROGRAM), f"{PROGRAM} can't be found")
    def test_program(self):
        rows = {f"{it.call} ({it.test})": it for it in tables.requests() if it.crate == "pathtool"}
        inputs = {name: input_of(row.test) for name, row in rows.items()}
        self.each(lambda name: self.check_count(
            rows[name], [PROGRAM], inputs[name][0],
            functools.partial(ends_of_program, inputs[name][1])), rows)


class Table(Case):
    def test_names(self):
        """The table names the calls that can fail because an allocation fails, and no others."""
        calls, named = set(public_calls()), {it.call for it in tables.requests()}
        self.assertTrue(calls)
        self.assertEqual(named - {"run"}, calls)


if __name__ == "__main__":
    main()
