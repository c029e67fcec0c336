#!/usr/bin/env python3
"""Tests the package for Python: bindings/python.

UNIX_PATH_PYTHON names the Python, by default Debian's. It needs its headers, pip, setuptools and
wheel. The package is built as a wheel and as an sdist, and each is installed in a fresh virtual
environment. The tests in bindings/python/tests run over what is installed, and some of them again
under AddressSanitizer, with the library and with one that returns random results.
"""
import functools
import glob
import os
import re
import shutil
import sys
import tempfile

from support import NEEDED, ROOT, TARGET, VERSION, Case, main, needs, read, run, said

DEBIAN = "/usr/bin/python3"
PYTHON = os.environ.get("UNIX_PATH_PYTHON") or (
    DEBIAN if os.path.exists(DEBIAN) else sys.executable)
PACKAGE = f"{ROOT}/bindings/python"
OFFLINE = ["--no-build-isolation", "--no-deps", "--no-index", "--quiet"]
NEEDS = "import setuptools, wheel, pip, ensurepip, venv, sysconfig, os; " \
    "assert os.path.exists(sysconfig.get_path('include') + '/Python.h')"
SANITIZED = ["-std=c11", "-O1", "-g", "-fPIC", "-shared", "-DPy_LIMITED_API=0x03080000",
             "-fsanitize=address,undefined", "-fno-sanitize-recover=undefined", "-Iinclude",
             "-Wl,--version-script=bindings/python/src/exports.map", "-Wall", "-Wextra",
             "-Wconversion", "-Werror"]


@functools.lru_cache(maxsize=None)
def lacks(code):
    """Returns true if this Python fails to run this code."""
    return run([PYTHON, "-c", code]).returncode != 0


class Python(Case):
    """Tests that share what is built, in copies of the package without links."""

    @classmethod
    def setUpClass(cls):
        cls.top = tempfile.mkdtemp()
        cls.addClassCleanup(shutil.rmtree, cls.top)
        shutil.copytree(PACKAGE, f"{cls.top}/package", ignore=shutil.ignore_patterns(
            "build", "*.egg-info", "__pycache__"))

    def setUp(self):
        if lacks(NEEDS):
            self.leave_out("the package for Python", f"{PYTHON} lacks its headers, ensurepip, pip, "
                           "setuptools or wheel")

    def setup(self, *words):
        return self.ran([PYTHON, "setup.py", "-q", *words], f"{self.top}/package")

    @functools.cached_property
    def wheel(self):
        if not glob.glob(f"{self.top}/*.whl"):
            self.ran([PYTHON, "-m", "pip", "wheel", *OFFLINE, "-w", self.top,
                      f"{self.top}/package"])
        return glob.glob(f"{self.top}/*.whl")[0]

    @functools.cached_property
    def sdist(self):
        self.setup("sdist", "-d", self.top)
        return f"{self.top}/unix_path-{VERSION}.tar.gz"

    @functools.cached_property
    def installed(self):
        """The directory in which the wheel is unpacked."""
        self.ran([PYTHON, "-m", "pip", "install", *OFFLINE, "--target", f"{self.folder}/installed",
                  self.wheel])
        return f"{self.folder}/installed"

    def python(self, *words, path="", **variables):
        """Runs a program of bindings/python/tests, over what is installed in a directory."""
        path = f"{path or self.installed}:{ROOT}/tests:{PACKAGE}/tests"
        return said(self.ran([PYTHON, *words], f"{PACKAGE}/tests", PYTHONPATH=path,
                             PYTHONDONTWRITEBYTECODE="1", **variables))


class Package(Python):
    """The package, as it is installed from the wheel."""

    def test_pathlib(self):
        """Compares 200,000 random paths with pathlib, and rows with Python 3.13's."""
        self.python("-m", "unittest", "test_pathlib")

    def test_documentation(self):
        self.python("test_documentation.py")

    def test_archive(self):
        """Checks the rows of tests/entries.txt, and unpacks what is accepted."""
        self.python("-W", "ignore", "-m", "unittest", "test_archive")

    def test_cpython(self):
        if lacks("import sys, test.test_pathlib; assert sys.version_info[:2] == (3, 11)"):
            self.leave_out("CPython's tests of pure paths",
                           "libpython3.11-testsuite isn't there, or Python isn't 3.11")
        self.python("-m", "unittest", "test_cpython")

    def test_hostile(self):
        """Calls each member a million times, and with wrong arguments."""
        print(*re.findall("left out: .*", self.python("test_hostile.py")), sep="\n", end="")

    def test_rows(self):
        """Each row of tests/rows.txt has its answer, or is counted as left out."""
        counts = re.search(r"(\d+) rows, (\d+) left out; 0 wrong", self.python("test_rows.py"))
        rows = [it for it in read("tests/rows.txt").splitlines() if it and not it.startswith(b"#")]
        self.assertEqual(sum(map(int, counts.groups())), len(rows))

    def test_types(self):
        """mypy accepts the package and its tests."""
        if lacks("import mypy"):
            self.leave_out("types of the package for Python", f"{PYTHON} lacks mypy")
        self.python("-m", "mypy", "--strict", "--python-version", "3.8", "--no-error-summary",
                    "--cache-dir", f"{self.folder}/cache", f"{self.installed}/unix_path",
                    *glob.glob(f"{PACKAGE}/tests/*.py"), path=self.installed)

    @needs("readelf", "nm")
    def test_links(self):
        """The extension module needs only the C library, exports only its start, and has no name
        that the limited API lacks."""
        module = glob.glob(f"{self.installed}/unix_path/*.so")[0]
        self.assertEqual(os.path.basename(module), "_unix_path.abi3.so")
        self.assertEqual(re.findall(r"NEEDED.*\[(.*)\]", self.call("readelf", "-d", module)
                                    .decode()), ["libc.so.6"])
        symbols = self.symbols(module, "-D")
        self.assertEqual({it for kind, it in symbols if kind not in "Uw"}, {"PyInit__unix_path"})
        needed = {it.partition("@")[0] for kind, it in symbols if kind == "U"}
        others = {it for it in needed if not it.startswith(("Py", "_Py_"))}
        self.assertLessEqual(others, NEEDED | {"memchr", "strlen", "__stack_chk_fail"})


class Distributions(Python):
    """The wheel and the sdist, as a new user installs them."""

    def try_script(self, *words):
        """Installs in a fresh virtual environment, and runs the example there."""
        place = f"{self.folder}/environment"
        self.ran([PYTHON, "-m", "venv", "--clear", *words[1:], place])
        python = f"{place}/bin/python"
        self.ran([python, "-m", "pip", "install", *OFFLINE, words[0]])
        found = self.ran([python, "-I", f"{ROOT}/examples/python/check_and_sort.py"])
        self.assertEqual(said(found), read("examples/python/check_and_sort.stdout").decode())

    def test_wheel(self):
        self.assertIn(f"unix_path-{VERSION}-cp38-abi3-linux_", self.wheel)
        self.try_script(self.wheel)

    def test_sdist(self):
        self.try_script(self.sdist, "--system-site-packages")

    def test_other_platform(self):
        """On another platform the build stops with a sentence."""
        found = run([PYTHON, "setup.py", "-q", "build_ext", "--plat-name", "macosx-11.0-arm64"],
                    f"{self.top}/package")
        self.fails(found, "unix_path is for Linux on x86-64 or aarch64, and this is macosx")
        self.assertNotIn("Traceback", said(found))


@needs("gcc")
class Sanitized(Python):
    """The extension module under AddressSanitizer and UndefinedBehaviorSanitizer."""

    def build(self, library):
        """Builds the module with this library. Returns the directory and what Python needs."""
        place = f"{self.folder}/sanitized"
        shutil.copytree(f"{PACKAGE}/unix_path", f"{place}/unix_path")
        headers = said(self.ran([PYTHON, "-c", "import sysconfig as it;"
                                 "print(it.get_path('include'), end='')"]))
        self.call("gcc", *SANITIZED, f"-I{headers}", *glob.glob(f"{PACKAGE}/src/*.c"), library,
                  "-o", f"{place}/unix_path/_unix_path.abi3.so")
        loaded = [self.call("gcc", f"-print-file-name=lib{it}.so").decode().strip()
                  for it in ("asan", "ubsan")]
        return {"path": place, "LD_PRELOAD": " ".join(loaded), "PYTHONMALLOC": "malloc",
                "ASAN_OPTIONS": "detect_leaks=0"}

    def test_library(self):
        sanitized = self.build(f"asm/{TARGET}/unix_path.s")
        self.python("test_hostile.py", "8000", **sanitized)
        self.python("test_rows.py", **sanitized)
        self.python("-W", "ignore", "-m", "unittest", "test_archive", **sanitized)
        self.python("-m", "unittest", "test_pathlib.Recorded", **sanitized)

    def test_untrusted(self):
        """Whatever the library returns, nothing is read out of bounds."""
        self.python("test_untrusted.py", **self.build("bindings/rust/tests/untrusted/answers.c"))


if __name__ == "__main__":
    main()
