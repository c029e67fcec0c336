#!/usr/bin/env python3
"""The decision on archives, beside a model, programs that extract archives, and Debian's packages.

The model is the rule of crates/path_archive/README.md, over lists of components. The programs run
in a sandbox of bubblewrap (extract.py): lists that are accepted must not change anything outside,
and lists that are accepted at the level `closed` must leave no path that leads out. Most of the
refused lists below do write outside with some program.
"""
import ctypes
import glob
import itertools
import json
import os
import random
import subprocess
import sys
import tarfile
import unittest

from support import LIBRARY, ROOT, Case, main, needs

SEED = 1
# How many lists are decided, and how many of those that are accepted, and refused, are extracted.
LISTS, EXTRACTED = 20_000, 250
LEVELS = INSIDE, CLOSED = range(2)
ACCEPTED, REFUSED, CUT_OFF, NO_ROOM = range(4)
NAME, KIND, BELOW_LEAF, LINK_USED_TWICE, TARGET_IS_LINK, LEADS_OUT = range(6)
# The packages that are decided: at most so many, none with more bytes.
PACKAGES, PACKAGE_SIZE = 150, 300_000
SANDBOX = ["bwrap", "--ro-bind", "/", "/", "--dev", "/dev", "--proc", "/proc", "--tmpfs", "/tmp",
           "--ro-bind", f"{ROOT}/tests", f"{ROOT}/tests", "--unshare-all", "--die-with-parent",
           sys.executable, f"{ROOT}/tests/extract.py"]

# Lists through which programs have written outside, and why the last entry is refused. Each name
# stays inside by itself.
ESCAPES = [
    ([("l", "x", "/OUTSIDE/dir"), ("f", "x/new", "")], BELOW_LEAF),
    ([("d", "c", ""), ("l", "c/a", ".."), ("l", "c/a/b", "../outside"), ("f", "b/new", "")],
     BELOW_LEAF),
    ([("l", "x", "/OUTSIDE/file"), ("f", "x", "")], LINK_USED_TWICE),
    ([("l", "x", "/OUTSIDE/dir"), ("d", "x", "")], LINK_USED_TWICE),
    ([("h", "x", "../outside/file")], NAME),
    ([("h", "x", "../outside/file"), ("f", "x", "")], NAME),
    ([("l", "x", "/OUTSIDE/file"), ("h", "y", "x"), ("f", "y", "")], TARGET_IS_LINK),
]


def long_links(levels="abcdefghijklmnop"):
    """Returns entries whose links are longer, once followed, than the system resolves in one call
    (CVE-2025-4517). The last one is written through a link that leads out."""
    name, folder, entries = "d" * 247, "", []
    for level in levels:
        entries += [("d", f"{folder}{name}", ""), ("l", f"{folder}{level}", name)]
        folder += f"{name}/"
    deep = "/".join(levels) + "/" + "l" * 254
    return [*entries, ("l", deep, "../" * len(levels)),
            ("l", "out", f"{deep}/../outside"), ("h", "y", "out/file"), ("f", "y", "")]


ESCAPES.append((long_links(), BELOW_LEAF))


def records(entries):
    return b"".join(it.encode("utf-8", "surrogateescape") + b"\0" for it in
                    itertools.chain.from_iterable(entries))


class Refusal(ctypes.Structure):
    _fields_ = [("entry", ctypes.c_size_t), ("cause", ctypes.c_size_t),
                ("reason", ctypes.c_uint32)]


class Use(ctypes.Structure):
    _fields_ = [("words", ctypes.c_size_t * 5)]


def load():
    """Returns the library's decision of records: its answer, and the refusal."""
    library = ctypes.CDLL(f"{os.path.dirname(os.path.abspath(LIBRARY))}/libunix_path.so")
    given = [ctypes.c_char_p, ctypes.c_size_t]
    room, check = library.unix_path_entries_scratch, library.unix_path_check_entries
    room.restype, room.argtypes = ctypes.c_size_t, given
    check.restype = ctypes.c_uint32
    check.argtypes = [*given, ctypes.POINTER(Use), ctypes.c_size_t, ctypes.c_uint32,
                      ctypes.POINTER(Refusal)]

    def decide(text, level, less=0):
        count, refusal = room(text, len(text)), Refusal()
        scratch = (Use * max(count - less, 1))()
        answer = check(text, len(text), scratch, count - less, level, ctypes.byref(refusal))
        return answer, refusal
    return decide


def components(path):
    return [it for it in path.split("/") if it not in ("", ".")]


def is_named(kind, path):
    ends_in_name = path.split("/")[-1] not in ("", ".")
    return not path.startswith("/") and ".." not in components(path) and "\0" not in path \
        and (kind == "d" or ends_in_name)


def clash(one, other):
    """Returns true if two uses of paths can't stand in one list."""
    (kind, path), (kind_below, below) = sorted([one, other], key=lambda use: len(use[1]))
    if path == below:
        return "l" in (kind, kind_below) or {kind, kind_below} == {"h", "target"}
    return kind != "d" and below[:len(path)] == path


def stays_below(path, target):
    parts = components(target)
    ups = len(list(itertools.takewhile("..".__eq__, parts)))
    return not target.startswith("/") and "\0" not in target and ".." not in parts[ups:] \
        and ups < max(len(components(path)), 1)


def is_accepted(entries, level):
    uses = [(kind, path) for kind, path, _ in entries]
    uses += [("target", target) for kind, _, target in entries if kind == "h"]
    pairs = itertools.combinations([(kind, components(path)) for kind, path in uses], 2)
    return all(kind in "dflh" for kind, _, _ in entries) \
        and all(is_named(*use) for use in uses) and not any(clash(*pair) for pair in pairs) \
        and (level == INSIDE or all(stays_below(path, target) for kind, path, target in entries
                                    if kind == "l"))


def random_path(rng):
    hostile = rng.random() < 0.04
    path = "/".join(rng.choice("abc") for _ in range(rng.choice([1, 1, 1, 2, 2, 3])))
    if hostile:
        path = rng.choice([f"../{path}", f"/{path}", f"{path}/..", f"{path}/.", "..", "."])
    return rng.choice(["", "", "", "", "./"]) + path + rng.choice(["", "", "", "", "", "/"])


def random_target(rng):
    inside = "/".join(rng.choice(["a", "b", "c", ".."]) for _ in range(rng.choice([1, 1, 2, 3])))
    return rng.choice([inside, inside, "..", ".", "../outside", "../outside/file", "/OUTSIDE/dir",
                       "/OUTSIDE/file", "../../outside/dir", "a/../../outside"])


def random_list(rng):
    entries = []
    for _ in range(rng.choice([1, 2, 3, 3, 4, 4, 5, 6])):
        kind = rng.choice("ddddfffllllhhho")
        path = random_path(rng)
        path = path if kind == "d" else path.rstrip("/") if rng.random() < 0.95 else path
        used = [it[1] for it in entries]
        target = {"l": random_target, "h": random_path}.get(kind, lambda rng: "")(rng)
        if kind == "h" and used and rng.random() < 0.7:
            target = rng.choice(used)
        entries.append((kind, path, target))
    return entries


def random_lists():
    rng = random.Random(SEED)
    return [random_list(rng) for _ in range(LISTS)]


class Decision(Case):
    """The library's decision is the model's."""

    def test_random_lists(self):
        decide = load()
        for entries in random_lists():
            for level in LEVELS:
                found = decide(records(entries), level)[0]
                wanted = ACCEPTED if is_accepted(entries, level) else REFUSED
                self.assertEqual(found, wanted, (entries, level))

    def test_lists_that_escape(self):
        decide = load()
        for entries, reason in ESCAPES:
            with self.row(entries[-1]):
                found, refusal = decide(records(entries), INSIDE)
                self.assertEqual((found, refusal.reason), (REFUSED, reason))

    def test_room(self):
        decide, text = load(), records(ESCAPES[0][0])
        self.assertEqual(decide(text, INSIDE, less=2)[0], NO_ROOM)
        self.assertEqual(decide(text[:-1], INSIDE)[0], CUT_OFF)
        self.assertEqual(decide(b"", INSIDE)[0], ACCEPTED)

    def test_packages(self):
        paths = sorted(glob.glob("/var/cache/apt/archives/*.deb"))
        paths = [it for it in paths if os.path.getsize(it) <= PACKAGE_SIZE][:PACKAGES]
        if not paths:
            self.leave_out("Debian's packages", "none is at hand")
        decide = load()

        def decide_package(path):
            with subprocess.Popen(["dpkg-deb", "--fsys-tarfile", path],
                                  stdout=subprocess.PIPE) as tar, \
                    tarfile.open(fileobj=tar.stdout, mode="r|") as members:
                entries = [entry_of(it) for it in members]
            self.assertEqual(decide(records(entries), INSIDE)[0], ACCEPTED)

        self.each(decide_package, paths)


def entry_of(member):
    kinds = {tarfile.DIRTYPE: "d", tarfile.REGTYPE: "f", tarfile.SYMTYPE: "l",
             tarfile.LNKTYPE: "h"}
    kind = kinds.get(member.type, "o")
    return kind, member.name, member.linkname if kind in "lh" else ""


@needs("bwrap")
class Extractions(Case):
    """What programs do with lists, in a sandbox."""

    def extract(self, lists):
        """Returns for each list what each program did."""
        given = "".join(json.dumps(it) + "\n" for it in lists).encode()
        ran = subprocess.run(SANDBOX, input=given, stdout=subprocess.PIPE, check=False)
        self.assertEqual(ran.returncode, 0)
        return list(map(json.loads, ran.stdout.splitlines()))

    def setUp(self):
        if subprocess.run([*SANDBOX[:-2], "true"], check=False).returncode:
            self.leave_out("extractions", "there is no user namespace")

    def test_random_lists(self):
        """Nothing outside changes for accepted lists; for the others something does with some."""
        kept = {True: [], False: []}
        for entries in random_lists():
            kept[is_accepted(entries, INSIDE)].append(entries)
        accepted, refused = (kept[it][:EXTRACTED] for it in (True, False))
        found = self.extract(accepted + refused)
        for entries, results in zip(accepted, found):
            is_closed = is_accepted(entries, CLOSED)
            for program, did in results.items():
                with self.row(entries, program):
                    self.assertNotEqual(did, "changed")
                    self.assertFalse(is_closed and did == "leads_out")
        self.assertTrue(any("changed" in it.values() for it in found[len(accepted):]))

    def test_lists_that_escape(self):
        """At least six of the refused lists write outside with some program."""
        found = self.extract([entries for entries, _ in ESCAPES])
        self.assertGreaterEqual(sum("changed" in it.values() for it in found), 6, found)


if __name__ == "__main__":
    main()
