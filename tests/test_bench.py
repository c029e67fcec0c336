#!/usr/bin/env python3
"""The benchmarks run, the timed jobs give the same answers on each side, and upath is quick enough.

The jobs of bench/workloads.txt and bench/later.txt print digests of their answers, which have to be
those of bench/std_jobs, for the seed 1 and for SEED, by default a random one. They are also
compiled without a proof for the baseline, the commit that docs/PERF.md names. Needs cargo, the
program that `tools/prove --build path_jobs` builds or UNIX_PATH_JOBS names, and for the baseline rt
and the history of Git.
"""
import os
import random
import shutil
import sys
import unittest

from support import PROGRAM, ROOT, UPATH, Case, main, needs, read, run

sys.path.append(f"{ROOT}/bench")
os.environ["UNIX_PATH_UPATH"] = UPATH
import upath  # pylint: disable=wrong-import-position

JOBS = os.path.abspath(os.environ.get("UNIX_PATH_JOBS")
                       or f"{ROOT}/crates/path_jobs/out/path_jobs")
COUNT = 2000
SEED = int(os.environ.get("SEED") or random.SystemRandom().randrange(1 << 64))


def names_of(*files):
    """Returns the names of the jobs of these files of bench/."""
    return [line.split()[0] for file in files
            for line in read(f"bench/{file}.txt").decode().splitlines() if line.strip()]


def has_baseline():
    """Returns true if Git knows the commit of the first line of docs/PERF.md."""
    commit = read("docs/PERF.md").decode().splitlines()[0].split()[-1].rstrip(".")
    return bool(shutil.which("git")) and run(
        ["git", "cat-file", "-e", f"{commit}^{{commit}}"]).returncode == 0


class Baseline(Case):

    @needs("rt")
    @unittest.skipUnless(has_baseline(), "the history of Git lacks the baseline")
    def test_start(self):
        """bench/start makes the jobs compile there, and they print today's digests."""
        printed = self.call("bench/start", "--try", f"{self.folder}/start").split()
        names = [it.encode() for it in names_of("workloads")]
        for name, digest in map(bytes.split, read("crates/path_jobs/stdout").splitlines()):
            if name in names or name in printed:
                with self.row(name.decode()):
                    self.assertEqual(printed[printed.index(name) + 1], digest)


class Upath(Case):

    def test_times(self):
        """upath takes no longer than bench/upath.py allows."""
        for row in upath.rows():
            with self.row(row.name):
                (seconds, other), is_right = upath.compare(row)
                self.assertTrue(is_right, "the outputs differ")
                self.assertLessEqual(seconds, row.bound * other)


@needs("cargo")
class Rust(Case):

    def cargo(self, crate, *words):
        """Runs cargo on a crate of bench/, which is built without optimisations, since these would
        take longer than they save."""
        return self.call("cargo", *words, "--offline", "--quiet", "--target-dir", self.folder,
                         cwd=f"{ROOT}/bench/{crate}")

    def test_calls(self):
        """bench/calls compiles, its tests pass, and both sides of a call answer the same."""
        with self.row("bench/calls, its tests"):
            self.cargo("calls", "test")
        with self.row("bench/calls, std_pathtool"):
            self.cargo("calls", "build")
        with self.row("bench/calls, a row"):
            found = self.call(f"{self.folder}/debug/calls", "reps=1", "only=file_name,pathtool",
                              env={**os.environ, "UNIX_PATH_PROGRAM": PROGRAM})
            self.assertIn(b"| file_name |", found)
            self.assertIn(b"| pathtool |", found)

    def test_jobs(self):
        if not os.path.exists(JOBS):
            self.leave_out("the answers of the jobs", f"{JOBS} isn't built")
        self.cargo("std_jobs", "build")
        print(f"SEED={SEED}", flush=True)
        for seed in 1, SEED:
            found, wanted = (self.digests(it, seed)
                             for it in (JOBS, f"{self.folder}/debug/std_jobs"))
            for name in names_of("workloads", "later"):
                with self.row(name, seed):
                    self.assertEqual(found[name], wanted[name])

    def digests(self, program, seed):
        """Returns the digest of each job that a program prints, by the job's name."""
        lines = self.call(program, "all", str(seed), str(COUNT)).decode().splitlines()
        return dict(line.split() for line in lines)


if __name__ == "__main__":
    main()
