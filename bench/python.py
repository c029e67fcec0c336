#!/usr/bin/env python3
"""Times UnixPath of bindings/python beside pathlib.PurePosixPath, in one run.

bench/python.py [COUNT]     COUNT paths, by default 200,000

The package has to be installed for the Python that runs this. Each job starts from fresh paths,
since pathlib keeps results in them. Times are the least processor seconds of seven turns, which
alternate between both. Fails if a job takes more than its share of pathlib's time: half, or a fifth
for sorting by keys.
"""
import gc
import random
import sys
import time
from pathlib import PurePosixPath

from unix_path import UnixPath

TURNS = 7
COUNT = int(sys.argv[1]) if len(sys.argv) > 1 else 200_000


def names():
    """Returns the names of a made-up tree of files, shuffled."""
    numbers = random.Random("names")
    found = [f"/srv/www/{it % 97}/lib{it % 1009}/file-{it}.tar.gz" for it in range(COUNT)]
    numbers.shuffle(found)
    return found


def each(statement):
    """Returns a job that runs a statement with each path `p` and the last one, `q`."""
    found = {}
    text = f"def job(paths):\n q = paths[-1]\n for p in paths: {statement}"
    exec(text, found)  # pylint: disable=exec-used
    return found["job"]


# Each job, the same in pathlib if that is different, and its share of pathlib's time.
JOBS = {
    "make": (None, None, 0.5),
    "hash": (each("hash(p)"), None, 0.5),
    "compare `==`": (each("p == q"), None, 0.5),
    "compare `<`": (each("p < q"), None, 0.5),
    "sort": (sorted, None, 0.5),
    "sort by `key`": (lambda paths: sorted(paths, key=UnixPath.key), sorted, 0.2),
    "put into a set": (set, None, 0.5),
    "`parent`": (each("p.parent"), None, 0.5),
    "`name`": (each("p.name"), None, 0.5),
    "join by `/`": (each("p / 'a'"), None, 0.5),
    "`suffix`": (each("p.suffix"), None, None),
    "`parts`": (each("p.parts"), None, None),
    "`str`": (each("str(p)"), None, None),
    "`relative_to`": (each("p.relative_to('/srv/www')"), None, None),
    "`is_relative_to`": (each("p.is_relative_to('/srv/www')"), None, None),
    "`with_suffix`": (each("p.with_suffix('.xz')"), None, None),
}


def seconds(kind, job, texts):
    """Returns the processor seconds of a job over fresh paths; for no job, of making them."""
    gc.collect()
    start = time.process_time()
    paths = [*map(kind, texts)]
    if job:
        start = time.process_time()
        job(paths)
    return time.process_time() - start


def main():
    texts, is_slow = names(), False
    print(f"| {COUNT:,} paths | `pathlib` | `unix_path` | share |\n|---|---|---|---|")
    for name, (ours, theirs, share) in JOBS.items():
        jobs = theirs or ours, ours
        turns = [[seconds(kind, job, texts) for kind, job in zip((PurePosixPath, UnixPath), jobs)]
                 for _ in range(TURNS)]
        before, after = map(min, zip(*turns))
        is_slow |= share is not None and after > share * before
        print(f"| {name} | {before:.3f} | {after:.3f} | {after / before:.2f} |", flush=True)
    sys.exit(is_slow)


if __name__ == "__main__":
    main()
