#!/usr/bin/env python3
"""Tests asm/: it is what tools/generate makes, damage to it is found, and assemblers take it.

Generating it again uses the proofs that rt has kept. That part is left out without the toolchain
that asm/PROVED.txt names. A compiler that is missing is left out too.
"""
import importlib.machinery
import importlib.util
import os
import pathlib
import re
import shutil
import tempfile
from unittest import mock

from support import NEEDED, ROOT, Case, copy_repository, main, needs, read
from asm import BY_HAND, MAIN, MOST_BYTES, PROVED, all_faults, exports_of, read_fact, read_files

# Every name of a shared library has to be defined, and the linker may write nothing into the code.
LINKED = ["-shared", "-Wl,-z,defs", "-Wl,-z,text"]
FATAL = ["-Wall", "-Werror", "-Wl,--fatal-warnings"]
# How the files of a directory of asm/ are assembled: with which compilers, without extra flags; and
# the nm that reads their output. With the option GNU as rejects instructions that not every x86-64
# processor has. Only objects for Linux are linked here.
SYSTEMS = {
    "x86_64-linux": ("nm", [["gcc"], ["gcc", "-Wa,-march=generic64"], ["clang"]]),
    "aarch64-linux": ("aarch64-linux-gnu-nm", [["aarch64-linux-gnu-gcc"]]),
    "x86_64-windows": ("x86_64-w64-mingw32-nm", [["x86_64-w64-mingw32-gcc"],
                                                 ["clang", "--target=x86_64-pc-windows-msvc"]]),
    "x86_64-macos": ("llvm-nm", [["clang", "--target=x86_64-apple-macos11"]]),
    "aarch64-macos": ("llvm-nm", [["clang", "--target=arm64-apple-macos11"]]),
}
# Assembly that breaks a rule, and the message that it has to cause.
WRONG = [("\tjmp\t.LBB0_1\n", ".LBB0_1: a local label without prefix"),
         (".LBB0_1:\n", ".LBB0_1: a local label without prefix"),
         ("\tjmp\tLBB0_1\n", "LBB0_1: a local label without prefix"),
         ("lCPI0_0:\n", "lCPI0_0: a local label without prefix"),
         ("\tadrp\tx1, l_static.0@PAGE\n", "l_static: a local label without prefix"),
         ("memchr:\n", "memchr: a local name that C or Rust may have"),
         ("core.a:\ncore.a:\n", "core.a: defined twice"),
         ("\t.globl\tmemchr\n", "memchr: exported, or not, by mistake"),
         ('"core::a":\n', '"core::a":: a name between quotes'),
         (f"# {ROOT}\n", f"names {ROOT}"),
         ("#" * MOST_BYTES + "\n", " bytes")]
# Files of which asm/ is made, and some of which it isn't.
SOURCES = ["crates.txt", "HANDLES", "crates/unix_bytes/specs/Lossy.antt",
           "crates/path_table/src/lib.rt", "crates/pathtool/src/main.rt",
           "crates/unix_path_c/proofs/Lib.antt"]
NO_SOURCES = ["crates/callers/src/url.rt", "Makefile", "crates/pathtool/README.md"]


def load_generate():
    """Returns tools/generate as a module."""
    loader = importlib.machinery.SourceFileLoader("generate", f"{ROOT}/tools/generate")
    module = importlib.util.module_from_spec(importlib.util.spec_from_loader("generate", loader))
    loader.exec_module(module)
    return module


def turned(data, at):
    """Returns bytes with one byte changed."""
    return data[:at] + bytes([data[at] ^ 1]) + data[at + 1:]


class Generated(Case):
    """Generating asm/ again, and what is checked when it is generated."""

    def test_again(self):
        """asm/ is not stale, and generated again it has the same bytes."""
        said = self.call("tools/generate", "--check").decode()
        why = re.search("it was not generated again, since (.*)", said)
        if why:
            self.leave_out("asm/ generated again", why[1])
        self.assertIn("it has the same bytes", said)

    def test_compared(self):
        """Each file that differs from what is generated, or that only one side has, is named."""
        module, files = load_generate(), read_files()
        others = [(name, {**files, name: turned(data, 0)}) for name, data in files.items()]
        others += [("asm/other.s", {**files, "asm/other.s": b""}), ("asm/support.c", {
            name: data for name, data in files.items() if name != "asm/support.c"})]
        for name, made in others:
            with self.row(name), mock.patch.multiple(
                    module, generate=lambda _, made=made: made, why_not_again=lambda: None,
                    sources=lambda: read_fact("sources"), print=mock.DEFAULT,
                    create=True) as patched:
                self.assertFalse(module.check(""))
                patched["print"].assert_called_once_with(f"{name}: generated again, it differs")

    def test_rules(self):
        """Assembly that breaks a rule is rejected, and asm/ breaks none."""
        for text, wanted in WRONG:
            with self.row(wanted):
                faults = all_faults({"asm/x86_64-linux/unix_path.s": text.encode()}, [ROOT])
                self.assertTrue([it for it in faults if it.endswith(wanted)], faults)
        with self.row("asm/"):
            self.assertEqual(all_faults(read_files(), [ROOT, tempfile.gettempdir()]), [])


class Damage(Case):
    """What is found in a copy of the repository."""

    def setUp(self):
        self.top = copy_repository(self.folder)

    def check_refused(self, name, data, named):
        """Checks that `make digests` names a file if a file has these bytes, or is missing."""
        path = pathlib.Path(self.top, name)
        before = path.read_bytes()
        if data is None:
            path.unlink()
        else:
            path.write_bytes(data)
        try:
            with self.assertRaisesRegex(AssertionError, re.escape(named)):
                self.call("make", "-s", "digests", cwd=self.top)
        finally:
            path.write_bytes(before)

    def test_bytes(self):
        """Each file of asm/ and each header is refused with a changed byte, or if it is missing."""
        self.call("make", "-s", "digests", cwd=self.top)
        files = read_files()
        self.assertLess({*BY_HAND, PROVED}, set(files))
        for name, data in files.items():
            for at in None, 0, len(data) // 2, len(data) - 1:
                with self.row(name, "is missing" if at is None else f"byte {at}"):
                    self.check_refused(name, None if at is None else turned(data, at), name)

    def test_digest(self):
        """A Makefile with another digest, or without one, is refused."""
        data = read(f"{self.top}/Makefile")
        digest = re.search(rb"^PROVED = (\w{64})\n", data, re.M)
        for name, makefile in (("another", turned(data, digest.start(1))),
                               ("none", data.replace(digest[0], b""))):
            with self.row(name):
                self.check_refused("Makefile", makefile, PROVED)

    def digest_with(self, name):
        """Returns what tools/asm_sources prints after one byte is appended to a file."""
        with open(f"{self.top}/{name}", "ab") as file:
            before = file.tell()
            file.write(b"\n")
        digest = self.call("tools/asm_sources", cwd=self.top)
        os.truncate(f"{self.top}/{name}", before)
        return digest

    def test_sources(self):
        """tools/asm_sources prints another digest if sources change or have other names, and only
        then. asm/ is stale then."""
        before = self.call("tools/asm_sources", cwd=self.top)
        for name in SOURCES + NO_SOURCES:
            with self.row(name):
                self.assertEqual(self.digest_with(name) == before, name in NO_SOURCES)
        file = f"{self.top}/crates/pathtool/src/run.rt"
        os.rename(file, f"{file}x")
        with self.row("another name"):
            self.assertNotEqual(self.call("tools/asm_sources", cwd=self.top), before)
        with self.row("stale"), self.assertRaisesRegex(AssertionError, "the sources have changed"):
            self.call("tools/generate", "--check", cwd=self.top)


class Assemblers(Case):
    """Each installed compiler assembles each file for its system, without extra flags."""

    def check_names(self, name, nm, made):
        """Checks which names an object exports and needs, according to this nm."""
        shown = self.symbols(made, "-g", nm=nm)
        needed = {it[1:] if "-macos/" in name else it for kind, it in shown if kind == "U"}
        self.assertEqual({it for kind, it in shown if kind != "U"}, exports_of(name))
        self.assertFalse(exports_of(name) != {MAIN} and needed - NEEDED, needed)

    def assemble(self, row):
        """Assembles a file. The linked output has no relocation in its code, and doesn't need an
        executable stack."""
        name, words, nm = row
        with tempfile.TemporaryDirectory() as folder:
            made, linked = f"{folder}/it.o", f"{folder}/it.so"
            self.assertEqual(self.call(*words, "-c", name, "-o", made), b"")
            self.check_names(name, nm, made)
            if "-linux/" not in name:
                return
            more = ["asm/support.c"] if exports_of(name) == {MAIN} else LINKED
            self.assertEqual(self.call(*words, *FATAL, made, *more, "-o", linked), b"")
            said = self.call("readelf", "-lW", linked).decode()
            self.assertEqual(re.findall(r"GNU_STACK.* (RWE?) +0x", said), ["RW"])

    def rows_of(self, folder, nm, words):
        """Returns the rows of a compiler. Without the compiler or this nm they are left out."""
        missing = [it for it in (words[0], nm) if not shutil.which(it)]
        if missing:
            with self.row(folder, *words):
                self.leave_out(f"asm/{folder} by {words[0]}", f"{missing[0]} is missing")
        names = [it for it in sorted(read_files()) if it.startswith(f"asm/{folder}/")]
        return [(name, words, nm) for name in names if not missing]

    @needs("readelf")
    def test_assemblers(self):
        self.each(self.assemble, [
            row for folder, (nm, compilers) in SYSTEMS.items() for words in compilers
            for row in self.rows_of(folder, nm, words)])


if __name__ == "__main__":
    main()
