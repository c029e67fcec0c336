#!/usr/bin/env python3
"""Replays the vectors against pathtool: the program that UNIX_PATH_PROGRAM names, or else a debug
build by rt.

The examples of commands.txt, the lines for rows.txt and vectors/lines.txt are vectors too. Each
vector is a row.
"""
import os
import re
import shutil
import tempfile
import unittest

import support
import tables


def by_rt(vectors, folder):
    """Yields the name of each vector, and true if a debug build answers it correctly, with what rt
    prints about it."""
    for name, given, wanted in vectors:
        shutil.copy(given, f"{folder}/{name}")
        shutil.copy(wanted, f"{folder}/{name}.stdout")
    found = support.run(["rt", "try", "--cases", folder], f"{support.ROOT}/crates/pathtool")
    said = support.said(found)
    same = set(re.findall(r"^case=(\S+) run=ended status=0 .*output=expected", said, re.M))
    yield from ((name, name in same, said[-4000:]) for name, _, _ in vectors)


def by_program(vectors):
    """Yields the name of each vector, and true if the program answers it correctly, with how the
    program ended."""
    for name, given, wanted in vectors:
        run = support.run([support.PROGRAM], given=support.read(given))
        is_same = (run.returncode, run.stdout, run.stderr) == (0, support.read(wanted), b"")
        yield name, is_same, f"it ended with {run.returncode}: {run.stderr[-4000:]}"


class Vectors(support.Case):
    @unittest.skipUnless(os.environ.get("UNIX_PATH_PROGRAM") or shutil.which("rt"),
                         "UNIX_PATH_PROGRAM isn't set, and rt isn't on the path")
    def test_replay(self):
        with tempfile.TemporaryDirectory() as made, tempfile.TemporaryDirectory() as folder:
            vectors, program = list(tables.vectors(made)), os.environ.get("UNIX_PATH_PROGRAM")
            for name, is_same, said in by_program(vectors) if program else by_rt(vectors, folder):
                with self.row(name):
                    self.assertTrue(is_same, said)


if __name__ == "__main__":
    support.main()
