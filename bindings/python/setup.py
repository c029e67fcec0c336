"""Builds the extension module from the assembly of asm/. All else is in pyproject.toml."""
import pathlib
import re
import sys

from setuptools import Extension, setup
from setuptools.command.build_ext import build_ext

HEADER = "include/unix_path.h"
VERSION = re.search('UNIX_PATH_VERSION "(.*)"', pathlib.Path(HEADER).read_text("utf-8"))[1] + ".0"
# The directory of asm/ for a platform, by the end of the platform's name.
TARGETS = {"x86_64": "x86_64-linux", "aarch64": "aarch64-linux"}


class Build(build_ext):
    """Also compiles the assembly for the platform, which setuptools refuses as a source."""

    def build_extension(self, ext):
        system, _, machine = self.plat_name.replace("-", "_").partition("_")
        if not system.startswith(("linux", "manylinux", "musllinux")):
            machine = None
        found = [TARGETS[it] for it in TARGETS if machine and machine.endswith(it)]
        if not found:
            sys.exit(f"unix_path is for Linux on x86-64 or aarch64, and this is {self.plat_name}")
        self.compiler.src_extensions.append(".s")
        ext.sources.append(f"asm/{found[0]}/unix_path.s")
        super().build_extension(ext)


setup(
    version=VERSION,
    ext_modules=[Extension(
        "unix_path._unix_path", ["src/calls.c", "src/entries.c", "src/path.c"], ["include"],
        depends=["src/calls.h", HEADER], py_limited_api=True,
        define_macros=[("Py_LIMITED_API", "0x03080000")],
        extra_compile_args=["-std=c11", "-g0", "-fvisibility=hidden"],
        extra_link_args=["-Wl,--version-script=src/exports.map", "-Wl,-s"])],
    cmdclass={"build_ext": Build},
    options={"bdist_wheel": {"py_limited_api": "cp38"}},
)
