#!/usr/bin/env python3
"""Tests the calls from C, C++ and Rust, and the examples.

tests/test_bindings.py [CLASS ..] [-k WORD]

Each language is tested with gcc and with clang, in the versions of C and C++ that they have, with
and without their sanitizers, with the archive and with the shared library next to it. The headers
are also tested with libc++. Each language has to answer every row of rows.txt, or count it as left
out, and a small pathtool in C every vector.

The tests use the library that UNIX_PATH_LIB names, or else the one that make builds, and pathtool
likewise. CC and CXX name the only compilers to use. They need cc, c++, pkg-config, cmake with make,
nm, cargo, readelf, and ar. libc++ needs clang and Debian's libc++-dev and libc++abi-dev; SQLite
needs libsqlite3-dev; etcd needs etcd-server and pathtool. What lacks something is left out.
"""
import functools
import glob
import html
import itertools
import json
import os
import re
import shlex
import shutil
import subprocess
import sys
import tempfile
import unittest

from c_tests import CALL_TESTS, STRICT, Build, CTest
from repository import MAP, read_version, read_versions, with_serde
from support import (CALLS, LIBRARY, NEEDED, PROGRAM, ROOT, SONAME, VERSION, VERSIONED, main, needs,
                     read, run, said, write, write_package)

BUILT = os.path.dirname(LIBRARY)
SHARED = f"{BUILT}/libunix_path.so"
# The shared library, with a run path so that programs find it where it is now.
LINKED = [SHARED, f"-Wl,-rpath,{BUILT}"]
SANITIZED = ["-g", "-O0", "-fsanitize=address,undefined", "-fno-sanitize-recover=all"]
LIBCXX = "-stdlib=libc++"
# More warnings that a program may turn on when it includes the headers.
QUIET = [*STRICT, "-Wsign-conversion", "-Wshadow", "-Wundef", "-Wcast-qual", "-Wredundant-decls"]
QUIET_CPP = [*QUIET, "-Wold-style-cast", "-Wzero-as-null-pointer-constant", "-Weffc++"]
# The versions of both languages, each with its names.
VERSIONS = {"c": [["c11"], ["c17"], ["c23", "c2x"]],
            "c++": [["c++17"], ["c++20"], ["c++23", "c++2b"]]}
# The misuses of tests/c/misuse.c and tests/cpp/misuse.cpp that gcc notices, and those that clang
# notices.
MISUSES = {"c": {"gcc": range(1, 8), "clang": (1, 2, 7)},
           "cpp": {"gcc": (1,), "clang": (1, 2, 6, 7, 8, 9)}}
# The misuses of tests/cpp/misuse.cpp that every compiler refuses, and what it then shows.
LACKING = r"unix_path\.hpp.*error.*UNIX_PATH_EXPORTS_ONLY leaves out"
REFUSALS = {3: LACKING, 4: LACKING, **{
    it: rf"(?s)error.* deleted .*{re.escape(why)}" for it, why in {
        5: "pass native() of", 10: "call resolved()", 11: "call file_name()",
        12: "call set_extension(", 13: "loop over components()", 14: "call strip_prefix(",
        15: "a view has no NUL after it", 16: "call bytes()", 17: "call std::string(view)",
        18: "a view doesn't change"}.items()}}
HEADERS = {"c": ["unix_path.h"], "c++": ["unix_path.h", "unix_path.hpp", "unix_path_archive.hpp",
                                         "unix_path_owned.hpp"]}
# An expression of the table of docs/CPP.md, how it is tested with a type, and what it needs.
EXPRESSION = re.compile(r"`((?:[pqP][ (:.]|typename|std::|swap|hash|out|in ).*?)`")
VALID = """static_assert(([]<typename P>(P *) {{
    return requires(P p, const P q, std::string s, std::ostream &out, std::istream &in) {{ {0}; }};
}})(static_cast<{1} *>(nullptr)) == {2}, R"({0}: {1})");"""
INCLUDED = ("filesystem", "functional", "iostream", "string", "unix_path_owned.hpp")
# What the examples at the heads of the headers need.
HEADS = {"unix_path.h": ("c", "stdio.h", "string.h"),
         "unix_path.hpp": ("cpp", "algorithm", "cstdio", "iostream", "map", "string"),
         "unix_path_archive.hpp": ("cpp", "iostream"),
         "unix_path_owned.hpp": ("cpp", "iostream", "map")}
# The directories of an installation below a directory, and where the libraries are then.
PLACES = {"installed": ({"PREFIX": "{}", "LIBDIR": "{}/lib", "INCLUDEDIR": "{}/include"}, "lib"),
          "installed apart": ({"DESTDIR": "{}", "PREFIX": "/usr", "LIBDIR": "/opt/own/lib",
                               "INCLUDEDIR": "/usr/include/own"}, "opt/own/lib")}
MANIFEST = ["--offline", "--manifest-path", "bindings/rust/Cargo.toml"]
# The feature that links an installed library.
SYSTEM = ["--features", "system"]
# Where Debian's packages put crates, and how cargo finds them there.
REGISTRY = "/usr/share/cargo/registry"
OF_DEBIAN = f"""[source.crates-io]
replace-with = 'debian'
[source.debian]
directory = '{REGISTRY}'
"""


def compiles(words, source, *options):
    """Returns true if a command compiles this source, which it reads from standard input."""
    return subprocess.run([*words, *options, "-"], input=source.encode(), check=False,
                          stderr=subprocess.DEVNULL).returncode == 0


def leave_out(what, why):
    print(f"left out: {what}, since {why}", flush=True)


def compilers(variable, names, other):
    """Returns the commands of the compilers that exist, as words, and prints which don't."""
    named = os.environ.get(variable)
    wanted = [tuple(shlex.split(named))] if named else [(name,) for name in names]
    found = [words for words in wanted if shutil.which(words[0])]
    for words in wanted:
        if words not in found:
            leave_out(f"what {words[0]} builds", "it isn't on the path")
    return found or ([(other,)] if not named and shutil.which(other) else [])


def over_libcxx():
    """Returns the compilers that build a program with libc++, with the option for it."""
    source = "#include <string>\nint main() { return 0; }\n"
    found = [(*words, LIBCXX) for words in CPPS
             if compiles([*words, LIBCXX], source, "-x", "c++", "-o", os.devnull)]
    if not found:
        leave_out("C++ over libc++", "no compiler here has it")
    return found


@functools.lru_cache(maxsize=None)
def standards(compiler, language):
    """Returns the versions of the language that a compiler has, each by the first name that it
    knows, and prints those that it lacks."""
    names = {versions[0]: [it for it in versions if compiles(
        compiler, "", f"-std={it}", "-x", language, "-fsyntax-only")]
             for versions in VERSIONS[language]}
    for name in (it for it in names if not names[it]):
        leave_out(f"{name} by {compiler[0]}", "it lacks this version")
    return [it[0] for it in names.values() if it]


CCS = compilers("CC", ("gcc", "clang"), "cc")
CPPS = compilers("CXX", ("g++", "clang++"), "c++")
has_cc = unittest.skipUnless(CCS, "no compiler for C is on the path")
has_cpp = unittest.skipUnless(CPPS, "no compiler for C++ is on the path")
has_shared = unittest.skipUnless(os.path.exists(SHARED), f"{SHARED} can't be found")


def builds(compilers, language, flags, linked=(), is_oldest=False):
    """Returns the builds by these compilers, in all versions of the language or in the oldest."""
    return [Build(" ".join([*words, it]), [*words, f"-std={it}", *flags], linked)
            for words in compilers for it in standards(words, language)
            if not is_oldest or it in VERSIONS[language][0]]


class Compiled(CTest):
    """Tests of programs that compilers build."""

    def try_all(self, do, builds, names):
        """Calls do(build, name) for each of these builds and names."""
        self.together({f"{build.label}: {name}": (do, build, name)
                       for build in builds for name in names})

    def try_example(self, build, name):
        """Builds an example and compares its answers. Returns the program."""
        name, _, language = name.partition(".")
        program = self.compiled(build, [f"examples/{language}/{name}.{language}"],
                                f"{tempfile.mkdtemp(dir=self.folder)}/program")
        self.example([program], f"{language}/{name}")
        return program

    def try_head(self, build, header):
        """Builds and runs the examples of a header. Each has to print what the text after it says,
        or the text before it."""
        ending, *includes = HEADS[header]
        text = re.sub(r"(?m)^( \*|//) ?", "", read(f"include/{header}").decode())
        code = r"((?:^ {4}.*\n)(?:^ {4}.*\n|^ *\n)*)"
        found = re.findall(rf"{code}It prints `(.*?)`", text, re.M)
        found += [it[::-1] for it in re.findall(rf"This prints `(.*?)`:\n\n{code}", text, re.M)]
        self.assertEqual(len(found), len(re.findall("(?:It|This) prints `", text)))
        source = f"{tempfile.mkdtemp(dir=self.folder)}/head.{ending}"
        write(source, *(f"#include <{it}>" for it in (*includes, header)), "int main(void) {",
              *(f"{{\n{code}}}" for code, _ in found), "    return 0;\n}")
        printed = self.passes([self.compiled(build, [source], f"{source}.program")])
        self.assertEqual(printed.decode(), "".join(f"{wanted}\n" for _, wanted in found))


class Calls:
    """The tests of a language, whose try_calls builds programs with these flags and libraries."""

    def test_archive(self):
        self.try_calls(["-O2"], [LIBRARY])

    def test_sanitized(self):
        self.try_calls(SANITIZED, [LIBRARY])

    @has_shared
    def test_shared(self):
        self.try_calls(["-O2"], LINKED, True)


@has_cc
class C(Calls, Compiled):
    """The calls from C. The vectors are replayed in the oldest version of C."""

    def try_calls(self, flags, linked, is_oldest=False):
        found = builds(CCS, "c", [*STRICT, *flags], linked, is_oldest)
        self.try_all(self.try_test, found, CALL_TESTS)
        self.try_all(self.try_example, found, ["join_beneath.c", "sorted_paths.c"])
        self.try_all(self.try_head, found, ["unix_path.h"])
        for build in builds(CCS, "c", [*STRICT, *flags], linked, True):
            self.try_pathtool(build)


@has_cpp
class Cpp(Calls, Compiled):
    """The calls from C++. With the archive, also over libc++."""

    def try_calls(self, flags, linked, is_oldest=False):
        compilers = CPPS if is_oldest else [*CPPS, *over_libcxx()]
        found = builds(compilers, "c++", [*STRICT, *flags], linked, is_oldest)
        self.try_all(self.try_test, found, ["view_rows", "view", "owned", "archive", "header"])
        self.try_all(self.try_example, found, ["sizes.cpp", "requests.cpp"])
        self.try_all(self.try_head, found, HEADERS["c++"][1:])

    def test_untrusted(self):
        """With a library that returns random results, each slice is in its path or buffer."""
        for cc, build in zip(CCS, builds(CPPS, "c++", [*STRICT, *SANITIZED], is_oldest=True)):
            with self.row(build.label):
                answers = f"{self.folder}/answers.o"
                self.call(*cc, "-std=c11", *STRICT, *SANITIZED, "-c",
                          "bindings/rust/tests/untrusted/answers.c", "-o", answers)
                self.try_test(build._replace(linked=[answers]), "untrusted")

    def test_table(self):
        """Each expression in the table of docs/CPP.md is valid for the types that the page says."""
        rows = re.findall(r"^\| (`.*?) \| (.*) \|$", read("docs/CPP.md").decode(), re.M)[1:]
        lines, count = [f"#include <{it}>" for it in INCLUDED], 0
        for left, right in rows:
            theirs, ours = (EXPRESSION.findall(it) for it in (left, right))
            count += len(theirs)
            is_same = right.startswith("the same")
            lines += [VALID.format(it, "std::filesystem::path", "true") for it in theirs]
            lines += [VALID.format(it, "unix_path::path", str(is_same or it in ours).lower())
                      for it in dict.fromkeys([*theirs, *ours])]
        self.assertGreaterEqual(count, 65)
        write(f"{self.folder}/table.cpp", *lines)
        for build in builds(CPPS, "c++", STRICT):
            if "20" in build.label:
                with self.row(build.label):
                    self.passes([*build.words, "-fsyntax-only", f"{self.folder}/table.cpp"])


@has_cc
@has_shared
@needs("nm")
class Symbols(Compiled):
    """The calls that the libraries export, and their versions."""

    def test_names(self):
        """Both libraries export the calls that the header declares, the shared library each with
        its version, and nothing else."""
        calls = set(re.findall(rb"^\w+ (unix_path_\w+)\((?:const|void)",
                               read("include/unix_path.h"), re.M))
        nodes = {f"UNIX_PATH_{version}" for version in read_versions()}
        with self.row("archive"):
            shown = self.symbols(LIBRARY, "-g", "--defined-only")
            self.assertEqual({name.encode() for _, name in shown}, calls)
        with self.row("shared library"):
            shown = self.symbols(SHARED, "-D", "--defined-only")
            self.assertEqual({name for _, name in shown}, VERSIONED | nodes)

    def test_versions(self):
        """A program also runs with a newer version. It isn't loaded with an older version that
        lacks its calls, nor with another major version."""
        major, minor = map(int, read_version().split("."))
        newer, env = f"{major}.{minor + 1}", {
            place: {**os.environ, "LD_LIBRARY_PATH": f"{self.folder}/{place}"}
            for place in ("newer", "major")}
        self.share_newer(newer, major)
        newer_program, program = self.programs()
        with self.row("a program over a newer version"):
            self.example([program], "c/join_beneath", env=env["newer"])
        with self.row("a newer program"):
            self.passes([newer_program], env=env["newer"])
        with self.row("a newer program over this version"):
            self.refused([newer_program],
                         rf"\A(?!(?s:.*)it runs).*version .UNIX_PATH_{re.escape(newer)}. not found",
                         env={**os.environ, "LD_LIBRARY_PATH": BUILT})
        # The loader only prints what it would load, since the system may also have a library of
        # this version.
        with self.row("a program over another major version"):
            printed = self.call(
                program, env={**env["major"], "LD_TRACE_LOADED_OBJECTS": "1"}).decode()
            self.assertIn(SONAME, printed)
            self.assertNotIn(self.folder, printed)

    def share_newer(self, newer, major):
        """Builds a shared library of this newer version, which has one more call, and one of the
        next major version."""
        write(f"{self.folder}/calls.map", read(MAP).decode() + f"UNIX_PATH_{newer} {{",
              f"global:\n    unix_path_newer;\n}} UNIX_PATH_{read_version()};")
        for place, number in ("newer", major), ("major", major + 1):
            os.mkdir(f"{self.folder}/{place}")
            soname = f"libunix_path.so.{number}"
            self.call(*CCS[0], "-shared", "-fPIC", "tests/c/newer.c", "-Wl,--whole-archive",
                      LIBRARY, "-Wl,--no-whole-archive", f"-Wl,-soname,{soname}",
                      f"-Wl,--version-script={self.folder}/calls.map",
                      "-o", f"{self.folder}/{place}/{soname}")
            os.symlink(soname, f"{self.folder}/{place}/libunix_path.so")

    def programs(self):
        """Yields a program of the newer version and one of this version."""
        for source, place in (("tests/c/newer.c", f"{self.folder}/newer"),
                              ("examples/c/join_beneath.c", BUILT)):
            program = f"{self.folder}/{os.path.basename(source)}.program"
            self.call(*CCS[0], "-DPROGRAM", "-Iinclude", source, f"-L{place}", "-lunix_path", "-o",
                      program)
            yield program


@has_cc
@needs("nm")
class Freestanding(Compiled):
    """The archive without the C library."""

    def test_needs(self):
        """The archive needs nothing that allocates or locks, and has no writable memory: its
        symbols are code and constants."""
        symbols = self.symbols(LIBRARY)
        self.assertTrue(symbols)
        with self.row("what it needs"):
            self.assertLessEqual({name for kind, name in symbols if kind == "U"}, NEEDED)
        with self.row("what it keeps"):
            self.assertEqual({name for kind, name in symbols if kind not in "UTtRr"}, set())

    def test_calls(self):
        flags = [*STRICT, "-O2", "-ffreestanding", "-nostdlib", "-static"]
        self.try_all(self.try_test, builds(CCS, "c", flags, [LIBRARY], True), ["freestanding"])


@has_cc
class Headers(Compiled):
    """The headers by themselves, in each version of both languages."""

    def test_alone(self):
        """A header by itself, included twice, in each of its forms, causes no warning."""
        jobs, forms = {}, ["ONCE_MORE", "UNIX_PATH_NO_ATTRIBUTES", "UNIX_PATH_EXPORTS_ONLY"]
        found = [(build, language) for language, compilers, warnings in (
            ("c", CCS, QUIET), ("c++", CPPS, QUIET_CPP))
                 for build in builds(compilers, language, warnings)]
        for header in HEADERS["c++"]:
            source = f"{self.folder}/{header}.twice"
            write(source, *[f'#include "{header}"'] * 2)
            for (build, language), form in itertools.product(found, forms):
                if header in HEADERS[language] and (header in HEADERS["c"] or form != forms[2]):
                    jobs[f"{build.label} {header} {form}"] = (self.passes, [
                        *build.words, "-fsyntax-only", "-x", language, f"-D{form}", source])
        self.together(jobs)

    def test_exports_only(self):
        """With UNIX_PATH_EXPORTS_ONLY the header has only plain declarations, one for each call,
        and gives no call another name."""
        for words in CCS:
            with self.row(words[0]):
                printed = self.call(*words, "-E", "-dD", "-DUNIX_PATH_EXPORTS_ONLY",
                                    "include/unix_path.h").decode()
                files = re.split(r'^# \d+ "(.*)".*\n', printed, flags=re.M)
                text = "".join(it for name, it in zip(files[1::2], files[2::2])
                               if name.endswith("unix_path.h"))
                names = re.findall(r"^#define (\w+)", text, re.M)
                self.assertTrue(all(it.isupper() for it in names), names)
                self.check_plain(re.sub(r"^#.*\n", "", text, flags=re.M))

    def check_plain(self, text):
        """Checks that this text has only plain declarations, one for each call."""
        plain = (r"(?:(?:typedef struct|enum) \{[^{}]*\}[^{}();]*"
                 r"|\w+\s+unix_path_\w+\([^(){}]*\));")
        self.assertRegex(text, rf"\A\s*(?:{plain}\s*)+\Z")
        self.assertEqual(sorted(re.findall(r"\bunix_path_\w+(?=\()", text)), sorted(CALLS))

    @has_cpp
    def test_older_standard(self):
        """Each header for C++ has one message for an older version of the language."""
        for words, header in itertools.product(CPPS, HEADERS["c++"][1:]):
            with self.row(words[0], header):
                source = f"{self.folder}/older.cpp"
                write(source, f'#include "{header}"')
                printed = said(run([*words, "-std=c++14", "-Iinclude", "-fsyntax-only", source]))
                errors = re.findall(r"^.*error: .*", printed, re.M)
                self.assertEqual(len(errors), 1, printed)
                self.assertIn("needs C++17", errors[0])


@has_cc
class Misuses(Compiled):
    """Calls that a compiler has to reject with warnings as errors."""

    def misuses(self, build, language):
        """Returns the command that compiles the misuses, without their number, and the numbers
        of those that the compiler notices."""
        source = f"tests/{language}/misuse.{language}"
        return ([*build.words, "-c", source, "-o", os.devnull],
                MISUSES[language]["clang" if "clang" in build.words[0] else "gcc"])

    def test_c(self):
        """Without the header's attributes a compiler has to accept the misuses in C."""
        jobs = {}
        for build in builds(CCS, "c", [*STRICT, "-O2"], is_oldest=True):
            words, noticed = self.misuses(build, "c")
            jobs[f"{build.label}: none"] = (self.passes, [*words, "-DMISUSE=0"])
            for it in noticed:
                one = [*words, f"-DMISUSE={it}"]
                jobs[f"{build.label}: {it}"] = (self.refused, one, r"-Werror[=,]")
                jobs[f"{build.label}: {it} without attributes"] = (
                    self.passes, [*one, "-DUNIX_PATH_NO_ATTRIBUTES"])
            jobs[f"{build.label}: 32 bits"] = (self.refused, [
                *build.words, "-m32", "-ffreestanding", "-fsyntax-only", "-x", "c",
                "include/unix_path.h"], "lengths of 64 bits")
        self.together(jobs)

    @has_cpp
    def test_cpp(self):
        jobs = {}
        for build in builds(CPPS, "c++", [*STRICT, "-O2"], is_oldest=True):
            words, noticed = self.misuses(build, "cpp")
            jobs[f"{build.label}: none"] = (self.passes, [*words, "-DMISUSE=0"])
            whys = {**{it: r"-Werror[=,]" for it in noticed}, **REFUSALS}
            for it, why in whys.items():
                jobs[f"{build.label}: {it}"] = (self.refused, [*words, f"-DMISUSE={it}"], why)
        self.together(jobs)


@has_cc
@has_cpp
@has_shared
class Installed(Compiled):
    """What is installed, and nothing else, is enough to build programs."""

    def install(self, label, folder):
        """Installs the library below a directory. Returns the directory with the libraries."""
        places, libraries = PLACES[label]
        self.call("tools/install", "library", env={
            **os.environ, "DESTDIR": "", "BUILD": BUILT, "MANDIR": "/man",
            **{name: it.format(folder) for name, it in places.items()}})
        return f"{folder}/{libraries}"

    def check_needed(self, program, is_shared):
        """The program needs the shared library at run time, or contains the archive."""
        needed = set(re.findall(rb"\0(libunix_path\.so[^\0]*)", read(program)))
        self.assertEqual(needed, {SONAME.encode()} if is_shared else set())

    @needs("pkg-config")
    def test_pkg_config(self):
        """Builds the examples with the words that pkg-config prints: with the shared library, and
        with the archive in both ways that the header names."""
        for place, label in enumerate(PLACES):
            libraries = self.install(label, f"{self.folder}/{place}")
            words = shlex.split(self.call(
                "pkg-config", "--cflags", "--libs", f"unix_path = {VERSION}",
                env={**os.environ, "PKG_CONFIG_PATH": f"{libraries}/pkgconfig"}).decode())
            ways = {"shared": [*words, f"-Wl,-rpath,{libraries}"], "-static": [*words, "-static"],
                    "archive": ["-l:libunix_path.a" if it == "-lunix_path" else it for it in words]}
            for way, linked in ways.items():
                for name in "join_beneath.c", "sorted_paths.c", "sizes.cpp":
                    with self.row(label, way, name):
                        compiler = [*CPPS[0], "-std=c++17"] if name.endswith("cpp") else CCS[0]
                        build = Build(label, [*compiler, "-O2"], linked)
                        self.check_needed(self.try_example(build, name), way == "shared")

    def install_by_cmake(self, place):
        """Installs the library by CMakeLists.txt. Returns the directory with the libraries."""
        self.call("cmake", "-S", ROOT, "-B", f"{place}.built", f"-DCMAKE_INSTALL_PREFIX={place}",
                  "-DCMAKE_INSTALL_LIBDIR=lib", env={**os.environ, "CC": shlex.join(CCS[0])})
        self.call("cmake", "--build", f"{place}.built")
        self.call("cmake", "--install", f"{place}.built")
        return f"{place}/lib"

    def try_project(self, label, project, place, libraries=("unix_path", "static")):
        """Builds the project of tests/cmake over what is installed below a directory."""
        shutil.copytree(f"{ROOT}/tests/cmake", project)
        for example in "c/join_beneath.c", "cpp/sizes.cpp":
            shutil.copy2(f"{ROOT}/examples/{example}", project)
        self.call("cmake", "-S", project, "-B", f"{project}/built", f"-DVERSION={read_version()}",
                  f"-DCMAKE_PREFIX_PATH={place}",
                  env={**os.environ, "CC": shlex.join(CCS[0]), "CXX": shlex.join(CPPS[0])})
        self.call("cmake", "--build", f"{project}/built")
        for example, library in itertools.product(("c/join_beneath", "cpp/sizes"), libraries):
            with self.row(label, example, library):
                program = f"{project}/built/{example.partition('/')[0]}_{library}"
                self.example([program], example)
                self.check_needed(program, library == "unix_path")

    @needs("cmake", "make")
    def test_cmake(self):
        """Builds the project over what tools/install installs, and over what cmake does, which are
        the same files."""
        places = {}
        for number, label in enumerate((*PLACES, "by cmake")):
            place = f"{self.folder}/{number}/place"
            libraries = (self.install(label, place) if label in PLACES
                         else self.install_by_cmake(place))
            places[label] = {os.path.relpath(it, place) for it in
                             glob.glob(f"{place}/**", recursive=True) if not os.path.isdir(it)}
            self.try_project(label, f"{self.folder}/{number}/project", os.path.dirname(libraries))
        self.assertEqual(places["installed"], places["by cmake"])

    @needs("cmake", "make")
    def test_vcpkg(self):
        """Builds the project over what the port for vcpkg installs."""
        place = f"{self.folder}/packages"
        self.call("cmake", f"-DTOP={ROOT}", f"-DCURRENT_PACKAGES_DIR={place}", "-P",
                  "tests/cmake/vcpkg.cmake")
        self.try_project("vcpkg", f"{self.folder}/project", place, ["static"])
        self.assertEqual(set(os.listdir(f"{place}/share")), {"unix_path", "unix-path"})
        self.assertEqual(json.loads(read("packaging/vcpkg/vcpkg.json"))["name"], "unix-path")

    def test_conan(self):
        """Checks the syntax of the recipe for Conan. With conan, also builds a package by it."""
        compile(read("packaging/conan/conanfile.py"), "conanfile.py", "exec")
        if shutil.which("conan"):
            home = {**os.environ, "CONAN_HOME": f"{self.folder}/conan"}
            self.call("conan", "profile", "detect", env=home)
            self.call("conan", "create", "packaging/conan", env=home)


def source_of_std(name):
    """Returns the documentation in a file of the std of this rustc, from its sources or from the
    page that shows them, as Markdown. Returns None if neither is installed."""
    top = run(["rustc", "--print", "sysroot"]).stdout.decode().strip()
    source, page = (f"{top}/{it}/std/src/{name}" for it in (
        "lib/rustlib/src/rust/library", "share/doc/rust/html/src"))
    page = f"{page.replace('/std/src/', '/std/')}.html"
    if os.path.exists(source):
        text = read(source).decode()
    elif os.path.exists(page):
        code = re.search(r'<pre class="rust"><code>(.*)</code>', read(page).decode(), re.S)[1]
        shown = re.sub("<a href=#\\d+ id=\\d+ data-nosnippet>\\d+</a>|<[^>]*>", "", code)
        text = html.unescape(shown)
    else:
        return None
    return "".join(f"{it}\n" for it in re.findall(r"^ *//[/!] ?(.*)$", text, re.M))


def renamed(code):
    """Returns code over std::path with our names."""
    for old, new in (("std::path", "unix_path_proved"), ("path::", "unix_path_proved::"),
                     ("std::ffi", "unix_path_proved"), ("OsStr", "UnixStr"),
                     ("OsString", "UnixString"), ("os_str", "unix_str")):
        code = re.sub(rf"(?<![A-Za-z]){old}", new, code)
    return code


class Cargo(CTest):
    """Tests of the crate for Rust. Those of a class share what cargo builds."""
    flags = []

    @classmethod
    def setUpClass(cls):
        cls.folder = tempfile.mkdtemp()
        cls.addClassCleanup(shutil.rmtree, cls.folder)
        cls.environment = {**os.environ, "CARGO_TARGET_DIR": cls.folder,
                           "RUSTFLAGS": " ".join(["-D warnings", *cls.flags])}

    def cargo(self, *words, **variables):
        """Runs cargo over the crate for Rust."""
        return self.passes(["cargo", words[0], *MANIFEST, *words[1:]],
                           env={**self.environment, **variables})

    def try_rows(self, label, *words, **variables):
        """Asks the rows through the types and through the calls, built with these words."""
        for test in "of_types", "of_slices":
            with self.row(test, label):
                self.all_rows(["cargo", "test", *MANIFEST, *words, "--test", "suite",
                               f"rows::{test}", "--", "--nocapture"],
                              env={**self.environment, **variables})


@has_cc
@needs("cargo")
class Rust(Cargo):
    """The crate for Rust with the assembly."""

    def test_features(self):
        for words in ([], ["--no-default-features"],
                      ["--no-default-features", "--features", "alloc"]):
            with self.row("features", *words):
                self.cargo("build", *words)

    def test_tests(self):
        self.cargo("test", "--tests")

    def test_rows(self):
        self.try_rows("as in tests")

    def test_documentation(self):
        self.cargo("test", "--doc")

    def test_pages(self):
        self.cargo("doc", "--no-deps", RUSTDOCFLAGS="-D warnings")

    def test_unsafe(self):
        """The crate's page lists each function that has `unsafe` code, which is in one module."""
        found, listed = set(), set()
        for path in glob.glob(f"{ROOT}/bindings/rust/src/**/*.rs", recursive=True):
            pieces = re.split(r"\bfn (\w+)", re.sub("//.*", "", read(path).decode()))
            found |= {(path.partition("/src/")[2][:3], name) for name, body in
                      zip(pieces[1::2], pieces[2::2]) if re.search(r"\bunsafe \{", body)}
        page = read("bindings/rust/README.md").decode().partition("\n| Where | `unsafe` |")[2]
        for row in re.findall(r"^\| (`.*?) \|", page, re.M):
            listed |= {("ffi", it) for it in re.findall(r"(\w+)`", row)}
        self.assertEqual(found, listed)

    def test_levels(self):
        """Asks the rows without optimization, with it, and with fat LTO in one codegen unit."""
        for level, lto, units in ("0", "off", "16"), ("3", "off", "16"), ("3", "fat", "1"):
            self.try_rows(f"level {level}, LTO {lto}", "--release",
                          CARGO_PROFILE_RELEASE_OPT_LEVEL=level, CARGO_PROFILE_RELEASE_LTO=lto,
                          CARGO_PROFILE_RELEASE_CODEGEN_UNITS=units)

    def test_without_assembly(self):
        """Where there is no assembly, such as in Miri, a program can be checked, and the linker
        says why it can't be linked."""
        variables = {**self.environment, "RUSTFLAGS": "-D warnings --cfg miri"}
        for command in "check", "doc":
            self.cargo(command, **variables)
        self.refused(["cargo", "test", *MANIFEST, "--test", "suite", "--no-run"],
                     "undefined (?s:.*)unix_path_proved has no assembly for this target",
                     env=variables)

    def test_examples_of_std(self):
        """The examples of std::path's own documentation run with our types in place of those of
        std, except those that need Windows, files, the current directory or a nightly compiler."""
        text = source_of_std("path.rs")
        if not text:
            self.leave_out("the examples of std::path", "neither rust-src nor rust-docs is there")
        blocks = re.findall(r"^```(\S*)\n(.*?)^```", text, re.M | re.S)
        examples = [renamed(code) for words, code in blocks if words in ("", "rust")
                    and not re.search(r"#!\[feature|Prefix|path::absolute", code)]
        self.assertGreater(len(examples), 50)
        write_package(f"{self.folder}/std", "fn main() {}", [
            f"unix_path_proved = {{ path = '{ROOT}/bindings/rust' }}"])
        # With this edition the examples are compiled together.
        self.call("sed", "-i", "s/2021/2024/", f"{self.folder}/std/Cargo.toml")
        write(f"{self.folder}/std/src/lib.rs", '#![doc = include_str!("examples.md")]')
        write(f"{self.folder}/std/src/examples.md", *(f"```\n{it}```" for it in examples))
        printed = self.passes(["cargo", "test", "--offline", "--doc", "--manifest-path",
                               f"{self.folder}/std/Cargo.toml"], env=self.environment)
        self.assertIn(f"{len(examples)} passed; 0 failed; 0 ignored".encode(), printed)

    def test_serde(self):
        """With the feature `serde`, which the crate of `make dist` has, over the crates of
        Debian."""
        if not glob.glob(f"{REGISTRY}/serde_json-*"):
            self.leave_out("the feature serde", "librust-serde-json-dev is missing")
        top = f"{self.folder}/serde"
        os.mkdir(top)
        for name in "src", "asm", "tests", "build.rs":
            os.symlink(f"{ROOT}/bindings/rust/{name}", f"{top}/{name}")
        manifest = with_serde(read("bindings/rust/Cargo.toml").decode())
        write(f"{top}/Cargo.toml", manifest, "[dev-dependencies]", "serde_json = '1'")
        write(f"{top}/debian.toml", OF_DEBIAN)
        self.passes(["cargo", "--config", f"{top}/debian.toml", "test", "--offline", "--features",
                     "serde", "--manifest-path", f"{top}/Cargo.toml", "--test", "serde"],
                    env=self.environment)


@has_cc
@has_shared
@needs("cargo", "readelf")
class SystemRust(Cargo):
    """The crate for Rust with the shared library, as if it were installed."""
    flags = [f"-L native={BUILT}", f"-C link-arg={LINKED[1]}"]

    def test_rows(self):
        self.try_rows("as in tests", *SYSTEM)
        self.try_rows("release", "--release", *SYSTEM)

    def test_needed(self):
        """A program over the crate needs the shared library."""
        self.cargo("test", *SYSTEM, "--test", "suite", "--no-run")
        program, = (it for it in glob.glob(f"{self.folder}/debug/deps/suite-*") if "." not in
                    os.path.basename(it))
        self.assertIn(SONAME, self.call("readelf", "-d", program).decode())


@has_cc
@needs("cargo", "ar")
class UntrustedRust(Cargo):
    """The crate for Rust with a library that returns random results."""

    def test_untrusted(self):
        self.call(*CCS[0], "-std=c11", *STRICT, "-c", "bindings/rust/tests/untrusted/answers.c",
                  "-o", f"{self.folder}/answers.o")
        self.call("ar", "rcs", f"{self.folder}/libunix_path.a", f"{self.folder}/answers.o")
        self.cargo("test", *SYSTEM, "--test", "untrusted",
                   RUSTFLAGS=f"-D warnings -L native={self.folder}")


@has_cc
@needs("pkg-config")
class Sqlite(Compiled):
    """The example that keeps files in a table of SQLite."""

    def test_files(self):
        package = run(["pkg-config", "--cflags", "--libs", "sqlite3"])
        if package.returncode:
            self.leave_out("the example with SQLite", "libsqlite3-dev can't be found")
        linked, example = [LIBRARY, *shlex.split(package.stdout.decode())], "sqlite/files"
        for label, flags in ("sqlite", ["-O2"]), ("sanitized", SANITIZED):
            with self.row(label):
                build = Build(label, [*CCS[0], "-std=c11", *STRICT, *flags], linked)
                program = self.compiled(build, [f"examples/{example}.c"],
                                        f"{self.folder}/{label}")
                self.example([program, f"{program}.database"], example)


@has_shared
@needs("etcd")
@unittest.skipUnless(os.path.exists(PROGRAM), f"{PROGRAM} can't be found")
class Etcd(CTest):
    """The example that keeps files in a cluster of etcd."""

    def test_files(self):
        self.passes([sys.executable, "examples/etcd/run"],
                    env={**os.environ, "UNIX_PATH_SO": SHARED, "UNIX_PATH_PROGRAM": PROGRAM})


if __name__ == "__main__":
    if not os.path.exists(LIBRARY):
        sys.exit(f"{LIBRARY} is not there; `make lib` builds it")
    main()
