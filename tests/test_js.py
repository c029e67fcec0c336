#!/usr/bin/env python3
"""Tests the package for JavaScript, bindings/js, and docs/playground.html.

Node and headless Chromium replay the rows of rows.txt, the vectors of tables.vectors, and from SEED
LINES random lines (by default 100,000) with the answers of pathtool, and a quarter as many random
rows with those of the shared library. They do so by the module of asm/wasm64 and by the one for
32-bit memories that wasm-opt makes of it. The package's tests are in bindings/js/tests. It needs
nodejs, chromium, binaryen and node-typescript of Debian; what lacks one of them is left out.
"""
import importlib
import os
import random
import re
import shutil
import subprocess
import sys
import tempfile
import unittest

import tables
from support import PROGRAM, ROOT, Case, main, needs, read, run, said, write
from test_differential import ROWS, Lines

COUNT = int(os.environ.get("LINES") or 100_000)
SEED = os.environ.get("SEED") or str(random.SystemRandom().randrange(10**9))
MOST_BYTES = 260_000
PACKAGE = "bindings/js"
# The files of the package.
FILES = {"package.json", "README.md", "LICENSE-APACHE", "LICENSE-MIT", "NOTICES.txt",
         "unix_path.mjs", "unix_path.d.ts", "unix_path.wasm"}
# A test in the output of Node, what it lacks if it was left out, and its message.
RESULT = re.compile(r"^(not )?ok \d+ - (.*?)(?: # SKIP (.*))?\n((?:  .*\n)*)", re.M)
MEMORY64 = "--experimental-wasm-memory64"


def write_random(folder):
    """Writes random lines as a vector, with the answers of pathtool."""
    makers = [Lines(SEED, it) for it in (*ROWS, "other")]
    lines = [makers[at % len(makers)].line() for at in range(COUNT)]
    given = b"".join(it + b"\n" for it in lines)
    found = run([PROGRAM], given=given)
    if found.returncode:
        sys.exit(f"{PROGRAM}: {said(found)}")
    for ending, text in ("in", given), ("out", found.stdout):
        with open(f"{folder}/random-{SEED}.{ending}", "wb") as file:
            file.write(text)


def write_random_rows(folder):
    """Writes random rows, with the answers of the shared library."""
    calls = list(importlib.import_module("shared_calls").CALLS.items())
    maker = Lines(SEED, "rows")
    with open(f"{folder}/random-{SEED}.rows", "w", encoding="ascii") as file:
        for at in range(COUNT // 4):
            name, (count, ask) = calls[at % len(calls)]
            path = maker.path()
            paths = [path, maker.other_path(path)][:count]
            line = tables.spelled_row(name, [*map(tables.spelled, paths), *ask(name, *paths)])
            print(line, file=file)


@needs("node")
class Js(Case):
    """The tests that Node runs."""

    @classmethod
    def setUpClass(cls):
        cls.vectors = tempfile.mkdtemp()
        cls.addClassCleanup(shutil.rmtree, cls.vectors)
        for _, *files in tables.vectors(cls.vectors):
            for file in files:
                if os.path.dirname(file) != cls.vectors:
                    shutil.copy(file, cls.vectors)
        write_random(cls.vectors)
        write_random_rows(cls.vectors)

    def replay(self, name):
        """Runs a file of tests. Each of its tests is a row."""
        has_flag = run(["node", MEMORY64, "-e", "0"]).returncode == 0
        found = run(["timeout", "-k", "5", "600", "node", *[MEMORY64] * has_flag,
                     "--test-reporter=tap", f"{PACKAGE}/tests/{name}.test.mjs"],
                    UNIX_PATH_VECTORS=self.vectors)
        results = RESULT.findall(found.stdout.decode())
        is_failed = any(it[0] for it in results)
        self.assertTrue(results and is_failed == (found.returncode != 0), said(found)[-4000:])
        for failed, test, missing, what in results:
            with self.row(f"{name}: {test}"):
                if missing:
                    self.leave_out(test, missing)
                self.assertFalse(failed, what[:4000])

    def test_package(self):
        self.replay("package")

    def test_node(self):
        self.replay("replay")

    @needs("chromium")
    def test_chromium(self):
        self.replay("browser")

    @needs("chromium")
    def test_page(self):
        self.replay("page")

    def test_example(self):
        """Runs the example, with the package installed for it."""
        os.makedirs(f"{self.folder}/node_modules")
        os.symlink(f"{ROOT}/{PACKAGE}", f"{self.folder}/node_modules/unix_path")
        shutil.copy(f"{ROOT}/examples/js/join_beneath.mjs", self.folder)
        self.example(["node", f"{self.folder}/join_beneath.mjs"], "js/join_beneath")

    @needs("tsc")
    def test_types(self):
        """Compiles a program whose every line has the types that it claims."""
        os.makedirs(f"{self.folder}/node_modules")
        os.symlink(f"{ROOT}/{PACKAGE}", f"{self.folder}/node_modules/unix_path")
        shutil.copy(f"{ROOT}/{PACKAGE}/tests/types.mts", self.folder)
        self.call("tsc", "--noEmit", "--strict", "--target", "es2022", "--module", "node16",
                  f"{self.folder}/types.mts")

    @needs("npm")
    def test_pack(self):
        """Packs the package, and uses what is in the archive."""
        self.call("npm", "pack", "--offline", "--silent", "--pack-destination", self.folder,
                  cwd=f"{ROOT}/{PACKAGE}", env={**os.environ, "HOME": self.folder})
        [name] = [it for it in os.listdir(self.folder) if it.endswith(".tgz")]
        self.call("tar", "-xzf", name, cwd=self.folder)
        self.assertEqual(set(os.listdir(f"{self.folder}/package")), FILES)
        program = "import {load} from './package/unix_path.mjs'; " \
                  "console.log((await load()).resolved('a/../b'))"
        write(f"{self.folder}/use.mjs", program)
        self.assertEqual(self.call("node", f"{self.folder}/use.mjs"), b"b\n")


class Module(unittest.TestCase):
    """The module for 32-bit memories, and the page that contains it."""

    @needs("wasm-opt")
    def test_made(self):
        """Both are what bindings/js/build makes again."""
        found = subprocess.run([f"{ROOT}/{PACKAGE}/build", "--check"], stdout=subprocess.PIPE,
                               stderr=subprocess.STDOUT, check=False)
        self.assertEqual(found.returncode, 0, found.stdout.decode())

    def test_size(self):
        sizes = [len(read(it)) for it in (f"{PACKAGE}/unix_path.wasm", "docs/playground.html")]
        self.assertLessEqual(sum(sizes), MOST_BYTES)


if __name__ == "__main__":
    main()
