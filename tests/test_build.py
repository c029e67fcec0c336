#!/usr/bin/env python3
"""Tests how asm/ is built, installed and vendored, and that what is damaged or missing is refused.

Copies of the repository are built with only POSIX commands, make and cc; with a byte of a file
changed; for another machine; and with commands that are missing or fail. The example of README.md
and projects of CMake are built elsewhere. The objects and libraries are read with readelf and nm.
The crate for Rust, which contains the assembly, is packed, compiled for each target, and built
into a program. shellcheck reads each script. Needs make, cc, readelf and nm.
"""
import os
import re
import shutil
import tarfile

from support import (CALLS, ROOT, SONAME, TARGET, VERSION, VERSIONED, Case, copy_repository,
                     link_commands, main, needs, read, run, said, write, write_package)
from asm import HEADERS
from repository import MAP

# The POSIX utilities that a machine has, and what is needed in addition.
POSIX = """awk basename cat chmod chown cksum cmp comm cp cut date dd diff dirname echo ed env expr
    false find fold grep head id join kill ln ls mkdir mkfifo mv nl od paste pr printf ps pwd rm
    rmdir sed sh sleep sort split tail tee test touch tr true tsort tty uname uniq wc
    xargs""".split()
DIGESTS = ["sha256sum"]
TOOLS = ["make", "cc", "as", "ld", "ar"]
# The README's first line for pathtool, and its answer.
LINE, ANSWER = b"canon\t.//a/./b/\n", b"./a/b\n"
SHARED = f"libunix_path.so.{VERSION}"
INSTALLED = set(f"""bin/pathtool bin/upath include/unix_path.h include/unix_path.hpp
    include/unix_path_archive.hpp include/unix_path_owned.hpp lib/libunix_path.a
    lib/libunix_path.so lib/{SONAME} lib/{SHARED} lib/pkgconfig/unix_path.pc
    lib/cmake/unix_path/unix_path-config.cmake lib/cmake/unix_path/unix_path-config-version.cmake
    share/man/man1/pathtool.1 share/man/man1/upath.1 share/bash-completion/completions/upath
    share/zsh/site-functions/_upath share/fish/vendor_completions.d/upath.fish
    share/doc/unix_path/LICENSE-APACHE share/doc/unix_path/LICENSE-MIT
    share/doc/unix_path/NOTICES.txt""".split())


def change_byte(path, at=None):
    """Changes the byte in the middle of a file, or the first of the bytes `at`."""
    with open(path, "r+b") as file:
        held = file.read()
        place = held.index(at) if at else len(held) // 2
        file.seek(place)
        file.write(bytes([held[place] ^ 1]))


def files_below(top):
    return {os.path.relpath(f"{place}/{it}", top) for place, folders, files in os.walk(top)
            for it in files + [it for it in folders if os.path.islink(f"{place}/{it}")]}


class BuildCase(Case):
    """Tests in a directory of their own."""

    def setUp(self):
        self.place = f"{self.folder}/place"

    def posix_only(self, name="posix"):
        return link_commands(f"{self.folder}/{name}", [*POSIX, *DIGESTS, *TOOLS])

    def check_library(self, library):
        """Checks the name of a shared library, and the version of each call in it."""
        named = re.findall(r"SONAME.*\[(.*)\]", said(run(["readelf", "-dW", library])))
        shown = self.symbols(library, "-D", "--defined-only")
        self.assertEqual(named, [SONAME])
        self.assertEqual({it for _, it in shown if "unix_path_" in it}, VERSIONED)

    def each_compiler(self, do):
        """Calls do(compiler) in a row for each compiler."""
        for name in "gcc", "clang":
            with self.row(name):
                if not shutil.which(name):
                    self.leave_out(f"what {name} builds from asm/", "it is not on the path")
                do(name)


class Builds(BuildCase):
    """Targets of make that build from asm/."""

    def try_targets(self, top, path):
        """Runs, builds, installs and removes, in a copy of the repository."""
        found = self.ran(["make", "run"], top, path, LINE)
        lines = found.stderr.decode().splitlines()
        self.assertEqual((found.stdout, len(lines)), (ANSWER, 1), said(found))
        self.assertIn("nothing is proved here", lines[0])
        self.assertEqual(self.ran(["make", "lib"], top, path).stdout, b"build/libunix_path.a\n")
        self.assertEqual(self.ran(["make", "upath"], top, path).stdout, b"build/upath\n")
        self.ran(["make", "install", f"PREFIX={self.place}"], top, path)
        self.assertEqual(files_below(self.place), INSTALLED)
        self.assertEqual(run([f"{self.place}/bin/pathtool"], given=LINE).stdout, ANSWER)
        self.assertEqual(run([f"{self.place}/bin/upath", "canon", ".//a/./b/"]).stdout, ANSWER)
        self.ran(["make", "uninstall", f"PREFIX={self.place}"], top, path)
        self.assertEqual(files_below(self.place), set())
        self.assertFalse(os.path.exists(f"{top}/crates/pathtool/out"))

    def test_posix(self):
        """make run, lib, install and uninstall need only POSIX tools, sha256sum, make and cc."""
        self.try_targets(copy_repository(self.folder), self.posix_only())

    @needs("busybox")
    def test_busybox(self):
        """The same targets work with the commands and the shell of busybox."""
        top, busybox = copy_repository(self.folder), shutil.which("busybox")
        path = link_commands(self.folder, [*POSIX, *DIGESTS], busybox)
        link_commands(self.folder, TOOLS)
        for name in "install", "asm_sources":
            run(["sed", "-i", f"1s|.*|#!{path}/sh|", f"{top}/tools/{name}"])
        with open(f"{top}/Makefile", "a", encoding="utf-8") as file:
            print(f"SHELL = {path}/sh", file=file)
        self.try_targets(top, path)

    def test_other_sources(self):
        """A second line says if the sources are not those that asm/ was generated from."""
        top = copy_repository(self.folder)
        with open(f"{top}/crates/unix_path/src/path.rt", "a", encoding="utf-8") as file:
            print("// Another source.", file=file)
        found = self.ran(["make", "run"], top, self.posix_only(), LINE)
        lines = found.stderr.decode().splitlines()
        self.assertEqual((found.stdout, len(lines)), (ANSWER, 2), said(found))
        self.assertIn("sources in crates/ are not those", lines[1])

    def test_flags(self):
        """Programs and the shared library are built with the flags, also if only they change, and
        bound when they are loaded."""
        top, names = copy_repository(self.folder), ["bin/pathtool", "bin/upath", f"lib/{SHARED}"]
        write(f"{self.folder}/seen.h", "__attribute__((used)) static int seen_by_cpp;")
        flags = {"CFLAGS": "-O1 -g", "CPPFLAGS": f"-include {self.folder}/seen.h",
                 "LDFLAGS": f"-Wl,--build-id=0x{'5eed' * 10}"}
        words = ["make", "install", f"PREFIX={self.place}", "UNIX_PATH_FROM=asm"]
        self.ran(words, top)
        before = {it: said(run(["readelf", "-nSdsW", f"{self.place}/{it}"])) for it in names}
        self.ran(words, top, **flags)
        for name in names:
            with self.row(name):
                facts = said(run(["readelf", "-nSdsW", f"{self.place}/{name}"]))
                for it in "5eed", ".debug_line", *["seen_by_cpp"] * name.startswith("bin/"):
                    self.assertEqual((it in before[name], it in facts), (False, True), it)
                self.assertIn("NOW", facts)
        with self.row("variables of make"):
            self.ran([*words, f"LDFLAGS=-Wl,--build-id=0x{'feed' * 10}"], top, **flags)
            self.assertIn("feedfeed", said(run(["readelf", "-nW", f"{self.place}/bin/upath"])))


class Refuses(BuildCase):
    """Targets of make that stop with a sentence, before anything is built or installed."""

    def try_refused(self, top, path, why, *words, count=1):
        """Runs `make install`, which has to fail with this number of lines, the last of which is a
        sentence that says why."""
        found = run(["make", "install", f"PREFIX={self.place}", *words], top, path)
        lines = [it for it in found.stderr.decode().splitlines() if not it.startswith("make: ***")
                 and "nothing is proved here" not in it]
        self.assertNotEqual(found.returncode, 0, said(found))
        self.assertEqual(len(lines), count, lines)
        self.assertRegex(lines[-1], why)
        built = [it for it in ("pathtool", "libunix_path.a") if os.path.exists(f"{top}/build/{it}")]
        self.assertEqual((built, os.path.exists(self.place)), ([], False), said(found))

    def test_damaged(self):
        """A damaged or missing file of asm/ or include/ is refused, and another digest of them."""
        path, top = self.posix_only(), copy_repository(self.folder)
        names = [f"asm/{TARGET}/unix_path.s", f"asm/{TARGET}/pathtool.s", f"asm/{TARGET}/upath.s",
                 "asm/support.c", "asm/NOTICES.txt", "asm/PROVED.txt", *HEADERS]
        # If one of these is missing, a command that reads it before the check says so too.
        read_first = "asm/PROVED.txt", "include/unix_path.h"
        for name in names:
            with self.row(name):
                change_byte(f"{top}/{name}", b"1.1" if name == "asm/PROVED.txt" else None)
                self.try_refused(top, path, rf"^{re.escape(name)} .*damaged")
            with self.row(f"{name} is missing"):
                os.remove(f"{top}/{name}")
                self.try_refused(top, path, rf"^{re.escape(name)} is missing",
                                 count=2 if name in read_first else 1)
            shutil.copy(f"{ROOT}/{name}", f"{top}/{name}")
        for text in "PROVED = ", f"PROVED = {'0' * 64}":
            with self.row(f"Makefile: {text}"):
                run(["sed", "-i", f"s/^PROVED = .*/{text}/", f"{top}/Makefile"])
                self.try_refused(top, path, r"^asm/PROVED.txt .*damaged")

    def test_other_machine(self):
        """Another machine, a missing cc or ar, and an old assembler."""
        top = copy_repository(self.folder)
        old = ('case " $* " in *" -c "*) echo "unix_path.s: Assembler messages:" >&2',
               'echo "unix_path.s:7: Error: unknown pseudo-op" >&2; exit 1 ;; esac')
        cases = [("uname", ['[ "$1" = -s ] && echo Linux || echo riscv64'],
                  r"code for .*x86_64-linux.* this is riscv64-linux: build with rt"),
                 ("uname", ['[ "$1" = -s ] && echo Darwin || echo arm64'], "this is arm64-darwin:"),
                 ("cc", None, "^cc is not on the path: install gcc or clang"),
                 ("ar", None, "^ar is not on the path: install binutils"),
                 ("cc", old, r"^cc can't assemble asm/: it needs GNU as 2.35")]
        for place, (name, lines, why) in enumerate(cases):
            with self.row(why):
                path = self.posix_only(place)
                os.remove(f"{path}/{name}")
                if lines:
                    write(f"{path}/{name}", "#!/bin/sh", *lines, mode=0o755)
                self.try_refused(top, path, why, count=3 if lines == old else 1)
        with self.row("UNIX_PATH_FROM=elsewhere"):
            why = "UNIX_PATH_FROM is asm or rt"
            self.try_refused(top, self.posix_only(), why, "UNIX_PATH_FROM=elsewhere")


class Installs(BuildCase):
    """tools/install with a program and libraries that are only text files."""

    def setUp(self):
        super().setUp()
        for name in "pathtool", "upath", "libunix_path.a", SHARED:
            write(f"{self.folder}/built/{name}", f"new {name}")

    def install(self, *words, path=None, **places):
        """Runs tools/install, with these directories below the place."""
        names = {"PREFIX": "", "LIBDIR": "lib", "INCLUDEDIR": "include", "MANDIR": "share/man",
                 **places}
        names = {name: os.path.normpath(f"{self.place}/{it}") for name, it in names.items()}
        return run([f"{ROOT}/tools/install", *words], path=path, DESTDIR="",
                   BUILD=f"{self.folder}/built", **names)

    def test_repeated(self):
        """An installation that fails says so, whichever command fails, and may be repeated."""
        for name in "cp", "chmod", "mkdir", "ln", "sed", "rm":
            with self.row(name):
                path = link_commands(f"{self.folder}/{name}", [*POSIX, *DIGESTS])
                write(f"{path}/{name}", "#!/bin/sh", f"echo {name} failed >&2; exit 1", mode=0o755)
                found = self.install("program", "library", path=path)
                self.fails(found, f"{name} failed")
                self.assertEqual(self.install("program", "library").returncode, 0)
                self.assertEqual(files_below(self.place), INSTALLED)

    def test_directory_there(self):
        """An installation fails if a directory has the name of one of its files."""
        os.makedirs(f"{self.place}/lib/libunix_path.so")
        self.fails(self.install("library"), "lib/libunix_path.so")
        self.assertEqual(os.listdir(f"{self.place}/lib/libunix_path.so"), [])

    def test_places(self):
        """The file for pkg-config leads to the headers from each directory, also through links."""
        os.makedirs(f"{self.place}/real/deep")
        os.symlink("real/deep", f"{self.place}/link")
        for libdir, includedir in [
                ("lib", "include"), ("lib/x86_64-linux-gnu", "include"), ("lib", "lib"),
                ("lib", "."), ("link/lib", "include"), ("lib", "link/include"),
                ("new/lib", "other/new/include")]:
            with self.row(libdir, includedir):
                found = self.install("library", LIBDIR=libdir, INCLUDEDIR=includedir)
                self.assertEqual(found.returncode, 0, said(found))
                lib = f"{self.place}/{libdir}"
                text = read(f"{lib}/pkgconfig/unix_path.pc").decode()
                way = re.search(r"^includedir=\$\{libdir\}/(.*)$", text, re.M)[1]
                self.assertFalse(os.path.isabs(way))
                self.assertTrue(os.path.isfile(f"{lib}/pkgconfig/../{way}/unix_path.h"), way)
                self.assertIn(f"\nVersion: {VERSION}\n", text)
        with self.row("without GNU's realpath"):
            path = link_commands(self.folder, POSIX)
            self.assertEqual(self.install("library", path=path).returncode, 0)
            text = read(f"{self.place}/lib/pkgconfig/unix_path.pc").decode()
            self.assertIn(f"\nincludedir={self.place}/include\n", text)

    def test_apostrophe(self):
        """No directory is run by the shell, whatever characters it has."""
        top, odd = copy_repository(self.folder), f"{self.place}/a 'b'`touch ran`'; touch ran; '"
        for name in "PREFIX", "DESTDIR", "LIBDIR", "INCLUDEDIR", "MANDIR", "environment":
            with self.row(name):
                places = {"PREFIX": self.place, ("PREFIX" if name == "environment" else name): odd}
                words = [f"{it}={value}" for it, value in places.items()]
                how = ["env", *words, "make"] if name == "environment" else ["make", *words]
                self.ran([*how, "install", "UNIX_PATH_FROM=asm"], top)
                self.assertTrue(files_below(odd))
                self.ran([*how, "uninstall"], top)
                self.assertFalse(files_below(self.place))
                self.assertFalse([it for it in files_below(self.folder) if it.endswith("/ran")])


class Objects(BuildCase):
    """What is assembled and linked, read with readelf and nm."""

    def check_object(self, file, compiler):
        """Checks that an object needs no executable stack, and has no code that has to be relocated
        when it is loaded."""
        library = f"{self.folder}/whole.so"
        self.ran([compiler, "-shared", "-Wl,-z,notext", file, "-o", library])
        note = r"\.note\.GNU-stack +PROGBITS(?: +[0-9a-f]+){4} [^X\n]*$"
        self.assertRegex(said(run(["readelf", "-SW", file])), f"(?m){note}")
        shown = said(run(["readelf", "-dlW", library]))
        self.assertNotIn("TEXTREL", shown)
        self.assertRegex(shown, r"(?m)GNU_STACK.* [^\sE]+ +\S+$")

    def try_vendored(self, compiler):
        path = link_commands(f"{self.folder}/{compiler}.path", ["cc"], shutil.which(compiler))
        empty = f"{self.folder}/{compiler}"
        os.makedirs(empty)
        lines = read("examples/c/vendored.sh").replace(b"x86_64-linux", TARGET.encode())
        found = self.ran(["sh", "-e"], empty, f"{path}:{os.environ['PATH']}", lines)
        self.assertEqual(said(found), "")
        self.example([f"{empty}/sorted_paths"], "c/sorted_paths")
        self.check_object(f"{empty}/unix_path.o", compiler)

    def test_vendored(self):
        """The example of README.md is built in an empty directory."""
        os.symlink(ROOT, f"{self.folder}/unix_path")
        self.each_compiler(self.try_vendored)

    def try_shared(self, compiler):
        top = copy_repository(f"{self.folder}/{compiler}")
        self.ran(["make", "lib", "UNIX_PATH_FROM=asm", f"CC={compiler}"], top)
        self.check_library(f"{top}/build/{SHARED}")

    def test_shared(self):
        """The shared library has its name, and its calls have their versions."""
        self.each_compiler(self.try_shared)


PROJECT = """cmake_minimum_required(VERSION 3.14)
project(outside {language})
{how}
foreach(library unix_path static)
    add_executable(program_${{library}} {source}.{ending})
    target_link_libraries(program_${{library}} unix_path::${{library}})
endforeach()
"""
# The ending of the source and the example that a project in each language builds.
SOURCES = {"C": ("c", "sorted_paths"), "CXX": ("cpp", "sizes")}
SUBDIRECTORY = f"add_subdirectory({ROOT} unix_path)"
FETCH = """include(FetchContent)
FetchContent_Declare(unix_path URL file://{})
FetchContent_MakeAvailable(unix_path)"""


def for_macos(processor):
    """Returns what cmake needs on Linux to build an archive for macOS."""
    words = [f"{it.upper()}={shutil.which(f'llvm-{it}')}" for it in ("ar", "ranlib")]
    words += [f"{it}_COMPILER_TARGET={processor}-apple-macos11" for it in ("C", "ASM")]
    words += ["INSTALL_NAME_TOOL=true", "TRY_COMPILE_TARGET_TYPE=STATIC_LIBRARY"]
    return [f"-DCMAKE_{it}" for it in words]


# What cmake builds the archive for: the system and the processor by its names, the nm that reads
# the archive, the compiler, and more words.
ELSEWHERE = [
    ("Linux", "aarch64", "nm", "aarch64-linux-gnu-gcc"),
    ("Linux", "arm64", "nm", "aarch64-linux-gnu-gcc"),
    ("Windows", "AMD64", "nm", "x86_64-w64-mingw32-gcc"),
    ("Darwin", "x86_64", "llvm-nm", "clang", *for_macos("x86_64")),
    ("Darwin", "arm64", "llvm-nm", "clang", *for_macos("arm64")),
    ("Darwin", "arm64", "llvm-nm", "clang", "-DCMAKE_OSX_ARCHITECTURES=x86_64",
     *for_macos("x86_64"))]


@needs("cmake")
class CMake(BuildCase):
    """Projects that include the library."""

    def configure(self, name, how, language="C", *words):
        """Configures a project that includes the library in this way. Returns how that ended."""
        folder, (ending, source) = f"{self.folder}/{name}", SOURCES[language]
        write(f"{folder}/CMakeLists.txt",
              PROJECT.format(language=language, ending=ending, source=source, how=how))
        shutil.copy(f"{ROOT}/examples/{ending}/{source}.{ending}", folder)
        return run(["cmake", "-S", folder, "-B", f"{folder}/built", *words])

    def archive(self):
        """Returns an archive of the files of the repository that CMake needs."""
        with tarfile.open(f"{self.folder}/unix_path.tar.gz", "w:gz") as file:
            for name in "CMakeLists.txt", "include", "asm", MAP:
                file.add(f"{ROOT}/{name}", f"unix_path/{name}")
        return file.name

    def try_programs(self, built, language):
        """Runs the programs that a project built, and checks the shared library."""
        for library in "unix_path", "static":
            self.example([f"{built}/program_{library}"], "/".join(SOURCES[language]))
        library, = [it for it in files_below(built) if os.path.basename(it) == SHARED]
        self.check_library(f"{built}/{library}")

    def test_projects(self):
        """Projects include the library by add_subdirectory and by FetchContent."""
        hows = {"subdirectory": (SUBDIRECTORY, "C"), "c++": (SUBDIRECTORY, "CXX"),
                "fetched": (FETCH.format(self.archive()), "C")}
        for name, (how, language) in hows.items():
            with self.row(name):
                found, built = self.configure(name, how, language), f"{self.folder}/{name}/built"
                self.assertEqual(found.returncode, 0, said(found))
                self.ran(["cmake", "--build", built])
                self.try_programs(built, language)

    def test_elsewhere(self):
        """The archive is built for other systems, however CMake names their processors."""
        for number, (system, processor, nm, compiler, *words) in enumerate(ELSEWHERE):
            with self.row(number, system, processor):
                for it in nm, compiler:
                    if not shutil.which(it):
                        self.leave_out(f"what cmake builds for {system}", f"{it} is missing")
                top = f"{self.folder}/{number}"
                self.ran(["cmake", "-S", ROOT, "-B", top, f"-DCMAKE_SYSTEM_NAME={system}",
                          f"-DCMAKE_SYSTEM_PROCESSOR={processor}",
                          f"-DCMAKE_C_COMPILER={shutil.which(compiler)}", *words])
                self.ran(["cmake", "--build", top, "--target", "unix_path_static"])
                self.assertRegex(said(run([nm, f"{top}/libunix_path.a"])), " T _?unix_path_equal\n")

    def test_refused(self):
        """Another machine and a damaged file are each refused with one sentence."""
        with self.row("another machine"):
            found = self.configure("machine", SUBDIRECTORY, "C", "-DCMAKE_SYSTEM_NAME=Linux",
                                   "-DCMAKE_SYSTEM_PROCESSOR=riscv64")
            self.fails(found, "no assembly for riscv64-linux")
        top = copy_repository(self.folder)
        for name in f"asm/{TARGET}/unix_path.s", *HEADERS:
            with self.row(name):
                change_byte(f"{top}/{name}")
                found = self.configure(name, f"add_subdirectory({top} unix_path)")
                self.assertNotEqual(found.returncode, 0)
                self.assertIn(f"{name} is damaged", " ".join(said(found).split()))
            shutil.copy(f"{ROOT}/{name}", f"{top}/{name}")


CRATE = f"{ROOT}/bindings/rust"
CODE = "src/ffi/code.rs"
# How a program is compiled: its optimisation level, its LTO, and its codegen units.
PROFILES = [("0", "off", "16"), ("3", "off", "16"), ("3", "fat", "1")]
# Targets for which the crate has code, with the directories of asm/, and other targets.
TARGETS = {"x86_64-unknown-linux-gnu": "x86_64-linux", "x86_64-unknown-linux-musl": "x86_64-linux",
           "aarch64-unknown-linux-gnu": "aarch64-linux",
           "aarch64-unknown-linux-musl": "aarch64-linux",
           "x86_64-pc-windows-gnu": "x86_64-windows", "x86_64-pc-windows-msvc": "x86_64-windows",
           "x86_64-apple-darwin": "x86_64-macos", "aarch64-apple-darwin": "aarch64-macos"}
OTHER_TARGETS = """i686-unknown-linux-gnu x86_64-unknown-linux-gnux32 armv7-unknown-linux-gnueabihf
    aarch64_be-unknown-linux-gnu aarch64-unknown-linux-gnu_ilp32 riscv64gc-unknown-linux-gnu
    aarch64-linux-android aarch64-apple-ios aarch64-apple-ios-sim x86_64-unknown-freebsd
    i686-pc-windows-msvc aarch64-pc-windows-msvc x86_64-unknown-uefi x86_64-unknown-none
    wasm32-unknown-unknown""".split()
# A program with no_core.rs that contains only the file with the assembly.
ONLY_CODE = """#![feature(no_core)]
#![allow(internal_features)]
#![no_core]
#[macro_use]
extern crate no_core as core;
#[path = "{}"]
mod code;
"""


def write_constants(folder, **crates):
    """Writes the program tests/rust_asm/constants.rs, which depends on the crate in each of these
    directories, by the name for it."""
    write_package(folder, read("tests/rust_asm/constants.rs").decode(), [
        f"{name} = {{ package = 'unix_path_proved', path = '{crate}' }}"
        for name, crate in crates.items()])


def build_constants(folder, crate, profile):
    """Builds and runs the program with a crate. Returns how the last command ended."""
    write_constants(folder, unix_path_proved=crate)
    names = ("OPT_LEVEL", "LTO", "CODEGEN_UNITS")
    found = run(["cargo", "build", "--offline"], folder, CARGO_TARGET_DIR=f"{folder}/target",
                **{f"CARGO_PROFILE_DEV_{name}": it for name, it in zip(names, profile)})
    return found if found.returncode else run([f"{folder}/target/debug/outside"])


@needs("cargo")
class Rust(BuildCase):
    """The crate for Rust contains the assembly."""

    def test_constants(self):
        """A program's constants and tables stay its own, at each level and with fat LTO."""
        for profile in PROFILES:
            with self.row(*profile):
                found = build_constants(f"{self.folder}/program", CRATE, profile)
                self.assertEqual(found.returncode, 0, said(found))

    def test_versions(self):
        """cargo rejects two versions of the crate in one program, because of their `links`."""
        top = copy_repository(self.folder)
        run(["sed", "-i", 's/^version = .*/version = "99.0.0"/',
             f"{top}/bindings/rust/Cargo.toml"])
        write_constants(f"{self.folder}/program", older=CRATE, newer=f"{top}/bindings/rust")
        found = run(["cargo", "build", "--offline"], f"{self.folder}/program")
        self.fails(found, "links to the native library `unix_path`, but it conflicts with a "
                          "previous package")

    def rustc(self, target):
        """Compiles the crate's file with the assembly for a target. Returns how that ended."""
        folder = f"{self.folder}/{target}"
        write(f"{folder}/code.rs", ONLY_CODE.format(f"{CRATE}/{CODE}"))
        words = ["rustc", "--edition", "2021", "--target", target]
        how = {"cwd": folder, "RUSTC_BOOTSTRAP": "1"}
        found = run([*words, "--crate-type", "rlib", f"{ROOT}/tests/rust_asm/no_core.rs"], **how)
        return found if found.returncode else run(
            [*words, "--crate-type", "lib", "--emit", "obj", "--extern",
             "no_core=libno_core.rlib", "code.rs"], **how)

    def check_calls(self, target, file):
        """Checks that an object for a target has each call, and exports nothing else. For macOS
        each name begins with `_`."""
        nm, mark = ("llvm-nm", "_") if "apple" in target else ("nm", "")
        if not shutil.which(nm):
            self.leave_out(f"the names of what is assembled for {target}", f"{nm} is missing")
        shown = self.symbols(file, "-g", nm=nm)
        self.assertEqual({name for kind, name in shown if kind == "T"},
                         {f"{mark}{it}" for it in CALLS})

    def try_target(self, target):
        found = self.rustc(target)
        self.assertEqual(found.returncode, 0, said(found))
        self.check_calls(target, f"{self.folder}/{target}/code.o")

    def try_other_target(self, target):
        """For another target, a program can be compiled, but has no code of the calls."""
        found = self.rustc(target)
        self.assertEqual(found.returncode, 0, said(found))
        self.assertNotIn(b"unix_path_", read(f"{self.folder}/{target}/code.o"))

    def try_clang(self, target):
        # Without a version, clang warns of instructions that processors before the M1 run slowly.
        versioned = target.replace("apple-darwin", "apple-macos11")
        file = f"{self.folder}/{target}.o"
        found = self.ran(["clang", f"--target={versioned}", "-c",
                          f"{ROOT}/asm/{TARGETS[target]}/unix_path.s", "-o", file])
        self.assertEqual(said(found), "")
        self.check_calls(target, file)

    def test_targets(self):
        """rustc assembles each file of asm/ for its targets, and none for other targets."""
        named = set(re.findall(r"asm/(\S+)/unix_path\.s",
                               read(f"bindings/rust/{CODE}").decode()))
        there = {it for it in os.listdir(f"{ROOT}/asm")
                 if os.path.exists(f"{ROOT}/asm/{it}/unix_path.s")}
        self.assertEqual((named, there), (set(TARGETS.values()),) * 2)
        self.each(self.try_target, TARGETS)
        self.each(self.try_other_target, OTHER_TARGETS)

    @needs("clang")
    def test_clang(self):
        """clang assembles each file of asm/ for its targets."""
        self.each(self.try_clang, TARGETS)

    def test_package(self):
        """cargo packs the crate with the assembly, notices and licences, and verifies it."""
        self.ran(["cargo", "package", "--offline", "--allow-dirty", "--target-dir", self.folder],
                 CRATE)
        own = r"src/[\w/]+\.rs|Cargo\.(toml|toml\.orig|lock)|README\.md|build\.rs|" \
              r"\.cargo_vcs_info\.json"
        wanted = {"LICENSE-APACHE", "LICENSE-MIT", "asm/PROVED.txt", "asm/NOTICES.txt",
                  *(f"asm/{it}/unix_path.s" for it in TARGETS.values())}
        with tarfile.open(f"{self.folder}/package/unix_path_proved-{VERSION}.crate") as archive:
            files = {it.name.partition("/")[2]: archive.extractfile(it).read() for it in archive}
        others = {it for it in files if not re.fullmatch(own, it)}
        self.assertEqual(others, wanted)
        for it in others:
            self.assertEqual(files[it], read(it), it)


def is_script(path):
    """Returns true if shellcheck can read the file."""
    if path.endswith((".sh", ".bash")):
        return True
    with open(path, "rb") as file:
        return re.match(rb"#!.*\b(sh|bash)\n", file.readline()) is not None


class Shell(Case):

    @needs("shellcheck")
    def test_scripts(self):
        """shellcheck has no finding in any script."""
        made = {".git", "out", "target", "build", "dist", "asm", "must-fail"}
        scripts = []
        for place, folders, files in os.walk(ROOT):
            folders[:] = [it for it in folders if it not in made]
            paths = [f"{place}/{it}" for it in files if not os.path.islink(f"{place}/{it}")]
            scripts += [os.path.relpath(it, ROOT) for it in paths if is_script(it)]
        self.assertIn("tools/install", scripts)
        self.each(lambda it: self.call("shellcheck", "-x", "-s", "sh" if it.endswith(".sh") else
                                       "bash", it), sorted(scripts))


if __name__ == "__main__":
    main()
