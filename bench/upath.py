#!/usr/bin/env python3
"""Compares the processor time of upath with that of other programs, and with its own for half of
the input.

bench/upath.py

A row fails if upath takes longer than the bound, a multiple of the other command's time, in each of
many tries: the sides run in turn, the best run of each counts, and other programs only make a run
slower. Where both print the same, it compares that first. With `cat` the input comes by a pipe. It
runs the program that UNIX_PATH_UPATH names, or else build/upath; tests/test_bench.py runs it too.
"""
import collections
import functools
import os
import shlex
import subprocess
import sys
import tempfile

UPATH = os.path.abspath(os.environ.get("UNIX_PATH_UPATH")
                        or f"{os.path.dirname(os.path.abspath(__file__))}/../build/upath")
# The fewest and the most runs of each side.
FEWEST, TRIES = 3, 60
NAMES = 200_000
# In the C locale sed and sort compare bytes, and are fastest.
C_LOCALE = {**os.environ, "LC_ALL": "C"}
# The canonical form in sed, and whether a path has a `..` in grep.
SED = "sed -E -e 's#/(\\.?/)+#/#g' -e 's#(.)/\\.?$#\\1#' -e 's#^/\\.$#/#'"
GREP = "grep -E '(^|/)\\.\\.(/|$)'"
# Sorts paths that begin with `./` and have no `..` by components. Keeps the first of equal ones.
SORT = """\
import sys
found = {}
for path in sys.stdin.buffer.read().split(b"\\0")[:-1]:
    parts = tuple(it for it in path.split(b"/") if it not in (b"", b"."))
    found.setdefault(parts, path)
sys.stdout.buffer.write(b"".join(found[it] + b"\\0" for it in sorted(found)))
"""
LOOP = "for it in $(seq 500); do {} /usr/lib/libc.so; done"

# Two lines of sh, each with its input, and the bound. Both print the same if `same` is set. The
# first one's input comes by a pipe if the name begins with `cat`.
Row = collections.namedtuple("Row", "name command source other other_source bound same")


@functools.lru_cache(maxsize=None)
def data_of(source):
    """Returns an input by its name."""
    canonical = [b"usr/./share//doc/%d/\n", b"a//b/%d/.\n", b"/srv/%d/x.tar.gz\n", b"../.././%d\n"]
    name = b"./usr/share/doc/package-%05d/file-%d.txt"
    sources = {
        "lines": lambda: b"".join(canonical[it % 4] % it for it in range(500_000)),
        "names": lambda: b"".join(name % (it // 8 * 7919 % 99991, it % 8) + b"\0"
                                  for it in range(NAMES)),
        "name lines": lambda: data_of("names").replace(b"\0", b"\n"),
        "a long line": lambda: b"a/" * 25_000_000, "half a line": lambda: b"a/" * 12_500_000,
        "short lines": lambda: b"a\n" * 1_000_000, "half of them": lambda: b"a\n" * 500_000,
        "nothing": lambda: b""}
    return sources[source]()


def rows():
    """Returns the rows."""
    upath, python = shlex.quote(UPATH), f"{shlex.quote(sys.executable)} -c {shlex.quote(SORT)}"
    canon, sort = f"{upath} canon", f"{upath} sort -zu"
    return [
        Row("canon; sed", canon, "lines", SED, "lines", 1 / 3, True),
        Row("escapes; grep", f"{upath} escapes", "name lines", GREP, "name lines", 3, True),
        Row("sort -zu; sort -zu", sort, "names", "sort -zu", "names", 3, False),
        Row("sort -zu; Python", sort, "names", python, "names", 1 / 5, True),
        Row("name, 500 times; basename", LOOP.format(f"{upath} name"), "nothing",
            LOOP.format("basename"), "nothing", 1.3, True),
        Row("canon, a long line; half", canon, "a long line", canon, "half a line", 2.6, False),
        Row("canon, short lines; half", canon, "short lines", canon, "half of them", 2.6, False),
    ] + [Row(f"cat | {it}; < FILE", f"{upath} {it}", "lines", f"{upath} {it}", "lines", 1.3, True)
         for it in ("canon", "resolve", "escapes -v", "under usr", "uniq", "sort", "name",
                    "relative --from=/a 2> /dev/null", "join a", "key")]


def run(line, file, cat=False):
    """Runs a line of sh on this input. Returns what it prints, and its processor seconds without
    those of cat."""
    file.seek(0)
    with tempfile.TemporaryFile() as output:
        pipe = subprocess.Popen(["cat"], stdin=file, stdout=subprocess.PIPE) if cat else None
        with subprocess.Popen(["sh", "-c", line], stdin=pipe.stdout if cat else file,
                              stdout=output, env=C_LOCALE) as process:
            _, process.returncode, usage = os.wait4(process.pid, 0)
        if cat:
            pipe.stdout.close()
            pipe.wait()
        output.seek(0)
        return output.read(), usage.ru_utime + usage.ru_stime


def compare(row):
    """Returns the best times of both sides, and whether they print what they have to."""
    with tempfile.TemporaryFile() as file, tempfile.TemporaryFile() as other_file:
        file.write(data_of(row.source))
        other_file.write(data_of(row.other_source))
        best = [float("inf")] * 2
        for turn in range(TRIES):
            printed, seconds = run(row.command, file, row.name.startswith("cat"))
            other_printed, other_seconds = run(row.other, other_file)
            best = [min(best[0], seconds), min(best[1], other_seconds)]
            if row.same and printed != other_printed:
                return best, False
            if turn + 1 >= FEWEST and best[0] <= row.bound * best[1]:
                break
        return best, True


def main():
    failed = 0
    print(f"{'processor seconds':34}{'upath':>8} {'other':>8} {'ratio':>8} {'at most':>7}")
    for row in rows():
        (seconds, other), is_right = compare(row)
        is_right = is_right and seconds <= row.bound * other
        failed += not is_right
        print(f"{row.name:34}{seconds:8.3f} {other:8.3f} {seconds / (other or 1):8.2f} "
              f"{row.bound:7.2f}{'' if is_right else '  FAILED'}", flush=True)
    return 1 if failed else 0


if __name__ == "__main__":
    sys.exit(main())
