#!/usr/bin/env python3
"""Archives that GNU tar lists and `upath archive --tar-list` reads, beside Python's tarfile.

Python writes archives whose names, targets and owners are hostile, and says what each entry is.
Then tar lists them, and what upath refuses has to be what the entries that Python wrote allow. What
breaks the way to unpack an archive safely is tested too: it is refused, or does what the page of
upath warns about.
"""
import collections
import io
import os
import random
import shutil
import subprocess
import sys
import tarfile
import tempfile
import zipfile

from support import ROOT, UPATH, Case, main, needs
from test_archives import CLOSED, INSIDE, is_accepted

SEED = 1
FORMATS = [tarfile.GNU_FORMAT, tarfile.PAX_FORMAT]
# How many entries of other kinds, pairs of a symbolic and a hard link, and lists there are in each
# format. Together these are more than 12,000 entries.
OTHERS, PAIRS, LISTS = 3000, 1000, 150
LIST = ["tar", "-tvP", "--numeric-owner", "--quoting-style=c", "-f"]
KINDS = {"d": tarfile.DIRTYPE, "f": tarfile.REGTYPE, "l": tarfile.SYMTYPE, "h": tarfile.LNKTYPE,
         "p": tarfile.FIFOTYPE, "b": tarfile.BLKTYPE, "c": tarfile.CHRTYPE, "C": tarfile.CONTTYPE}
LINE = '-rw-r--r-- 0/0 5 2026-01-31 12:00 "a"\n'
PIECES = ['"', "\n", " -> ", " link to ", "\\", '" -> "', '"\n', "\\n", '\\"', "\\101", " ",
          "é", "a", "77", "?", "%s", "''"]
PIECES += [os.fsdecode(bytes([byte])) for byte in range(1, 256) if byte != ord("/")]
OWNERS = ["", "root", "a\nb", '"x" -> "y"', f"0/0 1 x\n{LINE}"]
TIMES = [0, 1_700_000_000, 2**31, 2**33, 2**40, 2**62, -5, -2**40, -2**62]


def text(rng):
    """Returns the name of a file, of up to 250 bytes."""
    while True:
        pieces = rng.choices(PIECES, k=rng.choice([1, 2, 3, 5, 8, 13, 60]))
        found = os.fsdecode(os.fsencode("".join(pieces))[:250])
        if found not in (".", ".."):
            return found


def path(rng):
    """Returns a path, some of which contain a line of a listing."""
    names = [text(rng) for _ in range(rng.choice([1, 1, 2, 3]))]
    return "/".join(names + rng.choices(["", f'"\n{LINE}'], [9, 1])).rstrip("/")


def member(rng, kind, name, target=""):
    """Returns a member of this kind whose owner, mode and time are hostile."""
    info = tarfile.TarInfo(name)
    info.type, info.linkname = KINDS[kind], target
    info.mode, info.mtime = rng.randrange(0o10000), rng.choice(TIMES)
    info.uid, info.gid = rng.choice([0, 1000, 2**31]), rng.choice([0, 100, 2**32 - 1])
    info.uname, info.gname = rng.choice(OWNERS), rng.choice(OWNERS)
    info.devmajor, info.devminor = rng.randrange(256), rng.randrange(256)
    return info


def plain(kind, name, target=""):
    """Returns a member of this kind, of root."""
    info = tarfile.TarInfo(name)
    info.type, info.linkname, info.uname, info.gname = KINDS[kind], target, "root", "root"
    return info


def listed(members, *options, style=tarfile.GNU_FORMAT, words=LIST, **variables):
    """Returns what tar prints of an archive with these members."""
    with tempfile.TemporaryDirectory() as folder:
        with tarfile.open(f"{folder}/x.tar", "w", format=style, errors="surrogateescape",
                          encoding="utf-8") as archive:
            for info in members:
                archive.addfile(info)
        found = subprocess.run([*words, f"{folder}/x.tar", *options], stdout=subprocess.PIPE,
                               env={**os.environ, "LC_ALL": "C", **variables}, check=False,
                               stderr=subprocess.DEVNULL)
    return found.stdout


def decided(listing, *options):
    """Returns the status, and what is printed and said of a listing."""
    found = subprocess.run([UPATH, "archive", "--tar-list", *options], input=listing, check=False,
                           stdout=subprocess.PIPE, stderr=subprocess.PIPE)
    return found.returncode, found.stdout, found.stderr


def refused(listing, *options):
    """Returns how often each entry is refused, by reason and path."""
    records = decided(listing, "-z", "--reason", *options)[1].split(b"\0")
    return collections.Counter(records[:-1])


def records_of(reason, names):
    return collections.Counter(reason + b"\t" + os.fsencode(name) for name in names)


@needs("tar")
class Readings(Case):
    """What is read of a listing is what Python wrote."""

    def test_other_kinds(self):
        """Each entry is refused, so each path is printed as it was read."""
        for style in FORMATS:
            with self.row(style):
                rng = random.Random(SEED)
                names = [path(rng) for _ in range(OTHERS)]
                listing = listed([member(rng, rng.choice("pbc"), it) for it in names], style=style)
                self.assertEqual(refused(listing), records_of(b"kind", names))

    def test_targets_of_hard_links(self):
        """Each target is the path of a symbolic link, and of no other entry."""
        for style in FORMATS:
            with self.row(style):
                rng = random.Random(SEED + 1)
                names = [f"{at}{path(rng)}" for at in range(PAIRS)]
                links = [member(rng, "l", it, path(rng)) for it in names]
                hard = [member(rng, "h", f"h{at}", it) for at, it in enumerate(names)]
                listing = listed(links + hard, style=style)
                wanted = records_of(b"target", [f"h{at}" for at in range(PAIRS)])
                self.assertEqual(refused(listing), wanted)

    def test_targets_of_symbolic_links(self):
        """At the level closed a link with one `..` less is accepted."""
        for style in FORMATS:
            with self.row(style):
                rng = random.Random(SEED + 2)
                names = [f"{at}{text(rng)}/{text(rng)}/{text(rng)}" for at in range(PAIRS)]
                ups = [rng.choice([2, 3]) for _ in names]
                listing = listed([member(rng, "l", name, "../" * up + path(rng))
                                  for name, up in zip(names, ups)], style=style)
                wanted = records_of(b"out", [name for name, up in zip(names, ups) if up == 3])
                self.assertEqual(refused(listing, "--closed"), wanted)

    def test_lists(self):
        """Lists are accepted as Python's entries are by the rule."""
        for style in FORMATS:
            rng = random.Random(SEED + 3)
            for _ in range(LISTS):
                entries = random_list(rng)
                listing = listed([member(rng, *it) for it in entries], style=style)
                known = [("f" if kind == "C" else kind, *rest) for kind, *rest in entries]
                for level, option in ((INSIDE, []), (CLOSED, ["--closed"])):
                    with self.row(style, entries, level):
                        wanted = 0 if is_accepted(known, level) else 1
                        self.assertEqual(decided(listing, *option)[0], wanted)


def random_list(rng):
    """Returns entries with few names, so that they often clash."""
    names = [text(rng) for _ in range(3)]

    def some():
        return "/".join(rng.choices(names, k=rng.choice([1, 1, 2])))

    entries = []
    for kind in rng.choices("dddfffCllhp", k=rng.choice([1, 2, 3, 4])):
        up = rng.choice(["", "", "../", "../../"])
        target = {"l": up + some(), "h": rng.choice(names)}.get(kind, "")
        entries.append((kind, some() + "/" * (kind == "d"), target))
    return entries


@needs("tar")
class Traps(Case):
    """What breaks the way to unpack an archive safely."""

    def assert_line(self, listing, number):
        status, printed, said = decided(listing)
        message = f"upath: line {number}: not a line of tar's listing\n".encode()
        self.assertEqual((status, printed, said), (1, b"", message))

    def test_without_names_as_they_are(self):
        """Without `-P` tar shortens the target of a hard link, so an archive that would write
        outside is accepted."""
        members = [plain("h", "x", "../../etc/passwd")]
        words = [it.replace("-tvP", "-tv") for it in LIST]
        self.assertEqual(decided(listed(members))[:2], (1, b"x\n"))
        self.assertEqual(decided(listed(members, words=words))[0], 0)

    def test_names_of_owners(self):
        words = [it for it in LIST if it != "--numeric-owner"]
        members = [plain("f", "a"), plain("f", "b")]
        members[1].uname = f"0/0 1 x\n{LINE}".strip()
        self.assert_line(listed(members, words=words), 1)

    def test_options_of_the_environment(self):
        for option, number in (("--block-number", 1), ("--full-time", 1), ("--utc", None),
                               ("--quote-chars=:", 2), ("--quoting-style=escape", None)):
            with self.row(option):
                listing = listed([plain("f", "a"), plain("f", ":")], TAR_OPTIONS=option)
                if number:
                    self.assert_line(listing, number)
                else:
                    self.assertEqual(decided(listing)[0], 0)

    def test_other_listings(self):
        """Those of other styles, of another locale's letters, and without `-v`."""
        members = [plain("f", "é")]
        for words in (["tar", "-tvP", "--numeric-owner", "-f"], ["tar", "-tP", "-f"],
                      [*LIST[:3], "--quoting-style=shell", "-f"]):
            with self.row(words):
                self.assert_line(listed(members, words=words), 1)
        locales = subprocess.run(["locale", "-a"], stdout=subprocess.PIPE, check=False).stdout
        if b"C.utf8" in locales.lower():
            self.assert_line(listed(members, LC_ALL="C.UTF-8"), 1)

    def test_other_lines(self):
        """A label, a kind that tar doesn't know, and an empty name."""
        label, unknown, empty = (plain("f", it) for it in ("label", "u", ""))
        label.type, unknown.type = b"V", b"Z"
        for info in (label, unknown, empty):
            with self.row(info.name):
                self.assert_line(listed([plain("f", "a"), info]), 2)

    def test_options_that_change_names(self):
        """Names are refused only if they are listed as they will be extracted."""
        members = [plain("l", "x/a", "/etc"), plain("f", "y/a/new")]
        shown = ["--strip-components=1", "--show-transformed-names"]
        self.assertEqual(decided(listed(members))[0], 0)
        self.assertEqual(decided(listed(members, *shown))[:2], (1, b"a/new\n"))
        self.assert_line(listed([plain("d", "x"), *members], *shown), 1)

    def test_cut_off(self):
        """A listing that ends in a line is refused, and so is an empty one. One that ends after a
        line is a shorter list."""
        listing = listed([plain("l", "x", "/etc"), plain("f", "x/new")])
        first = listing.index(b"\n") + 1
        self.assertEqual(decided(listing)[:2], (1, b"x/new\n"))
        self.assert_line(listing[:-1], 2)
        self.assertEqual(decided(b"")[0], 1)
        self.assertEqual(decided(listing[:first])[0], 0)


def add(archive, kind, name, target="", size=0):
    info = plain(kind, name, target)
    info.size = size
    archive.addfile(info, io.BytesIO(b"x" * size))


def write_zip(path, entries):
    """Writes a zip archive in which each symbolic link is a member with that kind."""
    modes = {"d": 0o40755, "f": 0o100644, "l": 0o120777}
    with zipfile.ZipFile(path, "w") as archive:
        for kind, name, target in entries:
            info = zipfile.ZipInfo(name + "/" * (kind == "d"))
            info.create_system, info.external_attr = 3, modes[kind] << 16
            archive.writestr(info, target)


@needs("tar", "find")
class Examples(Case):
    """The examples of docs/UNPACKING.md, in a directory of their own."""

    def setUp(self):
        folder = tempfile.TemporaryDirectory()
        self.addCleanup(folder.cleanup)
        self.here = f"{folder.name}/here"
        os.makedirs(f"{folder.name}/bin")
        os.symlink(os.path.abspath(UPATH), f"{folder.name}/bin/upath")
        self.places = {**os.environ, "PATH": f"{folder.name}/bin:{os.environ['PATH']}"}

    def begin(self):
        shutil.rmtree(self.here, ignore_errors=True)
        os.makedirs(self.here)

    def write_tar(self, name, entries):
        with tarfile.open(f"{self.here}/{name}", "w", format=tarfile.GNU_FORMAT) as archive:
            for kind, *rest in entries:
                add(archive, kind, *rest, size=2000 if kind == "f" else 0)

    def ran(self, *words):
        """Returns what a command prints, and whether it succeeds."""
        found = subprocess.run(words, cwd=self.here, env=self.places, stdout=subprocess.PIPE,
                               stderr=subprocess.DEVNULL, check=False)
        return found.stdout, found.returncode == 0

    def made(self, folder):
        """Returns the names in this directory; None if there is none."""
        path = f"{self.here}/{folder}"
        return sorted(os.listdir(path)) if os.path.isdir(path) else None

    def test_unpacked(self):
        """An archive is unpacked, unless an entry could be written outside, it is cut off, or the
        directory exists."""
        good = [("d", "a"), ("f", "a/b"), ("l", "c", "a/b"), ("h", "d", "a/b")]
        for entries, printed in ((good, b""), ([*good, ("f", "../evil")], b"../evil\n"),
                                 ([*good, ("f", "/evil")], b"/evil\n"),
                                 ([*good, ("f", "c/new")], b"c/new\n"),
                                 ([*good, ("l", "e", "/etc")], b"e\n"),
                                 ([*good, ("h", "e", "../../evil")], b"e\n"),
                                 ([*good, ("f", "c")], b"c\n")):
            with self.row(entries):
                self.begin()
                self.write_tar("x.tar", entries)
                self.assertEqual(self.ran(f"{ROOT}/examples/sh/unpack.sh"), (printed, not printed))
                self.assertEqual(self.made("new"), None if printed else ["a", "c", "d"])
        for what in ("cut off", "empty", "not new"):
            with self.row(what):
                self.begin()
                self.write_tar("x.tar", [] if what == "empty" else good)
                if what == "cut off":
                    os.truncate(f"{self.here}/x.tar", 1500)
                if what == "not new":
                    os.mkdir(f"{self.here}/new")
                self.assertEqual(self.ran(f"{ROOT}/examples/sh/unpack.sh"), (b"", False))
                self.assertFalse(self.made("new"))

    def test_layers(self):
        """Layers of an image, of which the second may be written through a link of the first."""
        first = [("d", "usr"), ("d", "usr/bin"), ("l", "bin", "usr/bin"), ("l", "run", "/run"),
                 ("f", "usr/bin/sh")]
        for second, printed in (([("f", "usr/bin/.wh.sh"), ("f", "usr/new")], b""),
                                ([("f", "run/evil")], b"run/evil\n")):
            with self.row(second):
                self.begin()
                self.write_tar("1.tar", first)
                self.write_tar("2.tar", second)
                found = self.ran(f"{ROOT}/examples/sh/unpack_layers.sh", "1.tar", "2.tar")
                self.assertEqual(found, (printed, not printed))
                self.assertEqual(self.made("root"), None if printed else ["bin", "run", "usr"])
        with self.row("a layer is missing"):
            self.begin()
            self.write_tar("1.tar", first)
            found = self.ran(f"{ROOT}/examples/sh/unpack_layers.sh", "1.tar", "2.tar")
            self.assertEqual((found, self.made("root")), ((b"", False), None))

    def test_tree(self):
        for target, printed in (("b", b""), ("../a", b""), ("../../a", b"a/link\n"),
                                ("/etc", b"a/link\n")):
            with self.row(target):
                self.begin()
                os.makedirs(f"{self.here}/tree/a")
                os.symlink(target, f"{self.here}/tree/a/link")
                found = self.ran(f"{ROOT}/examples/sh/check_tree.sh")
                self.assertEqual(found, (printed, not printed))

    def test_zip(self):
        """An archive is unpacked by Python, unless an entry could be written outside."""
        good = [("d", "a/", ""), ("f", "a/b", "")]
        for entries, printed in ((good, b""), ([*good, ("f", "../evil", "")], b"../evil\n"),
                                 ([*good, ("l", "c", "/etc")], b"c\n")):
            with self.row(entries):
                self.begin()
                os.symlink(f"{ROOT}/examples", f"{self.here}/examples")
                write_zip(f"{self.here}/x.zip", entries)
                self.assertEqual(self.ran(f"{ROOT}/examples/sh/unpack_zip.sh"),
                                 (printed, not printed))
                self.assertEqual(self.made("new"), None if printed else ["a"])

    def test_records(self):
        """The records of Python's tarfile and zipfile."""
        lists = [([("d", "a", ""), ("f", "a/b", ""), ("l", "c", "a/b")], b""),
                 ([("l", "x", "../y"), ("f", "x/new", "")], b"x\nx/new\n"),
                 ([("l", "x", "/etc")], b"x\n"), ([("f", "../evil", "")], b"../evil\n")]
        for entries, printed in lists:
            for name in ("x.tar", "x.zip"):
                with self.row(entries, name):
                    self.begin()
                    if name == "x.tar":
                        self.write_tar(name, entries)
                    else:
                        write_zip(f"{self.here}/{name}", entries)
                    line = f"{sys.executable} {ROOT}/examples/python/records.py {name} > list && " \
                        "upath archive --closed < list"
                    found, accepted = self.ran("sh", "-c", line)
                    self.assertEqual((b"".join(sorted(found.splitlines(True))), accepted),
                                     (printed, not printed))
        with self.row("kinds of tar"):
            self.begin()
            self.write_tar("x.tar", [("p", "p"), ("c", "c"), ("h", "h", "f"), ("f", "f")])
            found = self.ran(sys.executable, f"{ROOT}/examples/python/records.py", "x.tar")
            self.assertEqual(found[0], b"other\0p\0\0other\0c\0\0h\0h\0f\0f\0f\0\0")


if __name__ == "__main__":
    main()
