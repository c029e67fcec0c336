#!/usr/bin/env python3
"""Tests asm/ on each processor and system that it is for.

aarch64    C tests and vectors with the library, and vectors through pathtool, with qemu-aarch64
core2duo   the same for x86-64, with qemu-x86_64 as a processor without SSE4 and POPCNT
windows    C tests and vectors with the library, under Wine
macos      the library is linked for macOS, and its bytes are a part of programs for Linux, in which
           C tests and vectors run them, as aarch64 and core2duo do. Nothing runs on macOS

The C tests are those of tests/c that test_bindings also runs. Vectors are those of tables.vectors,
replayed through the pathtool of tests/c. upath makes random runs under QEMU. It needs Debian's
qemu-user, gcc-aarch64-linux-gnu and libc6-dev-arm64-cross; gcc and libc6-dev for x86-64;
gcc-mingw-w64-x86-64 and wine64; clang, llvm and lld. test_js.py tests the module for wasm64.
"""
import collections
import contextlib
import os
import re
import shutil
import subprocess
import tempfile

from c_tests import CALL_TESTS, STRICT, Build, CTest
from support import ROOT, main, needs, run, write

# A system: the directory of asm/, the compiler for it with its flags, and the words that run a
# program there.
System = collections.namedtuple("System", "label folder compiler runner")
ARM = System("aarch64", "aarch64-linux", ["aarch64-linux-gnu-gcc", "-static"], ["qemu-aarch64"])
CORE2DUO = System("core2duo", "x86_64-linux", ["x86_64-linux-gnu-gcc", "-static"],
                  ["qemu-x86_64", "-cpu", "core2duo"])
MINGW = System("windows", "x86_64-windows",
               ["x86_64-w64-mingw32-gcc", "-static", "-D__USE_MINGW_ANSI_STDIO=1"], [])
# The systems of macOS: clang's target, and the processor with the directory of asm/.
MACS = [("x86_64-apple-macos11", CORE2DUO._replace(label="macos x86-64", folder="x86_64-macos")),
        ("arm64-apple-macos11", ARM._replace(label="macos aarch64", folder="aarch64-macos"))]
# Links a library for macOS, in which all addresses are offsets in its file.
LINK_MAC = ["clang", "-fuse-ld=lld", "-dynamiclib", "-nostdlib", "-fno-builtin", "-O1",
            "tests/c/memory.c"]
# A library for Linux that contains such a file, and defines a call of it.
IMAGE = """.section .note.GNU-stack, "", %progbits
.text
.p2align 14
image:
.incbin "{}"
"""
CALL = """.globl {1}
.type {1}, %function
.set {1}, image + 0x{0}
"""
# Ends a program after two minutes, since a wrong library may not return.
LIMIT = ["timeout", "-k", "5", "120"]
# The directory of Debian's Wine.
WINE = "/usr/lib/wine"


def find_wine():
    """Returns the path of Wine and that of its server, or None."""
    path = f"{os.environ['PATH']}:{WINE}"
    for name in "wine64", "wine":
        wine, server = shutil.which(name, path=path), shutil.which("wineserver", path=path)
        if wine and server:
            return wine, server
    return None


@contextlib.contextmanager
def running_wine():
    """Yields the words that run a program under Wine, in a new prefix. A shell stays open there:
    otherwise each program would start Wine's services, and would not end before they do."""
    wine, server = find_wine()
    quiet = {"stdout": subprocess.DEVNULL, "stderr": subprocess.DEVNULL}
    with tempfile.TemporaryDirectory() as folder:
        words = ["env", f"HOME={folder}", f"WINEPREFIX={folder}/prefix", "WINEDEBUG=-all",
                 "WINEDLLOVERRIDES=mscoree,mshtml="]
        os.mkdir(f"{folder}/prefix")
        try:
            subprocess.run([*words, wine, "wineboot", "--init"], **quiet, check=False)
            with subprocess.Popen([*words, wine, "cmd"], stdin=subprocess.PIPE, **quiet):
                yield [*words, wine]
        finally:
            subprocess.run([*words, server, "--kill"], **quiet, check=False)
            subprocess.run([*words, server, "--wait"], **quiet, check=False)


class Processors(CTest):
    """Tests over the C library of a system."""

    def check_links(self, system):
        """Leaves the test out if the compiler links no program."""
        found = run([*system.compiler, "-x", "c", "-", "-o", f"{self.folder}/program"],
                    given=b"int main(void) { return 0; }\n")
        if found.returncode:
            self.leave_out(f"the tests of {system.label}", f"{system.compiler[0]} links no program")

    def build_of(self, system, *linked):
        """Returns how programs for a system are built and run."""
        return Build(system.label, [*system.compiler, "-std=c11", "-O2", *STRICT], list(linked),
                     [*LIMIT, *system.runner])

    def try_library(self, system, assembly=None):
        """Tests the library with the C tests and the vectors. Its assembly is in asm/, unless it is
        in a file of this name."""
        library = f"{self.folder}/unix_path.o"
        with self.row(system.label, "assembles"):
            self.call(system.compiler[0], "-c",
                      assembly or f"asm/{system.folder}/unix_path.s", "-o", library)
        build = self.build_of(system, library)
        self.together({f"{system.label}: {it}": (self.try_test, build, it) for it in CALL_TESTS})
        self.try_pathtool(build)

    def try_programs(self, system):
        """Replays the vectors through pathtool, and makes random runs of upath."""
        build, folder = self.build_of(system), f"asm/{system.folder}"
        pathtool = self.compiled(build, [f"{folder}/pathtool.s", "asm/support.c"],
                                 f"{self.folder}/pathtool")
        self.replay(f"{system.label} program", [*build.runner, pathtool])
        upath = self.compiled(build, [f"{folder}/upath.s", "asm/support.c"],
                              f"{self.folder}/upath")
        runner = f"{self.folder}/run_upath"
        write(runner, "#!/bin/sh", f'exec {" ".join([*build.runner, upath])} "$@"', mode=0o755)
        with self.row(system.label, "random runs of upath"):
            self.call("tests/test_upath.py", "-k", "Random", env={
                **os.environ, "UNIX_PATH_UPATH": runner, "runs": "150", "seed": "1"})

    def try_system(self, system):
        self.check_links(system)
        self.try_library(system)
        self.try_programs(system)

    @needs("qemu-aarch64", "aarch64-linux-gnu-gcc")
    def test_aarch64(self):
        self.try_system(ARM)

    @needs("qemu-x86_64", "x86_64-linux-gnu-gcc")
    def test_core2duo(self):
        self.try_system(CORE2DUO)

    @needs("x86_64-w64-mingw32-gcc")
    def test_windows(self):
        if not find_wine():
            self.leave_out("the tests of windows", "wine64 is missing")
        self.check_links(MINGW)
        with running_wine() as wine:
            self.try_library(MINGW._replace(runner=wine))

    def image_of(self, target, folder):
        """Links the library for macOS. Returns a file of assembly for Linux that contains it."""
        library, file = f"{self.folder}/it.dylib", f"{self.folder}/image.s"
        self.call(*LINK_MAC, f"--target={target}", f"asm/{folder}/unix_path.s", "-o", library)
        shown = self.call("llvm-nm", "-g", library).decode()
        self.assertEqual(re.findall(r"^ +U (.*)$", shown, re.M), [])
        calls = re.findall(r"^(\w+) T _(unix_path_\w+)$", shown, re.M)
        write(file, IMAGE.format(library) + "".join(CALL.format(*it) for it in calls))
        return file

    @needs("clang", "llvm-nm", "qemu-aarch64", "aarch64-linux-gnu-gcc", "qemu-x86_64",
           "x86_64-linux-gnu-gcc")
    def test_macos(self):
        for target, system in MACS:
            if run([*LINK_MAC, f"--target={target}", "-o", f"{self.folder}/it"], ROOT).returncode:
                self.leave_out("the tests of macos", "clang links nothing for it without lld")
            self.check_links(system)
            self.try_library(system, self.image_of(target, system.folder))


if __name__ == "__main__":
    main()
