#!/usr/bin/env python3
"""Tests the packages of `make dist`.

Packages are written twice, in copies of the repository. Their contents are checked by their
digests, by readelf, by the notices of licences, and by lintian. Each package is unpacked or
installed in a small system, which has this machine's commands and libraries, but neither the
repository nor rt. Programs in C, C++ and Rust are built and run there, including for aarch64, for
Windows and with musl. Then the package is removed. The small system needs unshare with permission
to mount directories.
"""
import fnmatch
import glob
import io
import os
import pathlib
import re
import shutil
import tarfile
import tempfile
import unittest
import zipfile

from support import (NEEDED, ROOT, TARGET, VERSION, Case, copy_repository, link_commands, main,
                     needs, read, run, said, write, write_package)
from asm import NOTICES, PROVED, proved_lines
from repository import read_programs, read_version, toolchain_folder
from test_processors import find_wine, running_wine

PACKAGES = "libunix-path1 libunix-path-dev unix-path-tools".split()
WHEELS = [f"unix_path-{VERSION}-cp38-abi3-manylinux2014_{it}.whl" for it in ("x86_64", "aarch64")]
CRATE = f"unix_path_proved-{VERSION}"
REGISTRY = "/usr/share/cargo/registry"
SYSTEMS = {"x86_64-linux": "amd64", "aarch64-linux": "arm64"}
DATED = {"SOURCE_DATE_EPOCH": "1700000000", "MAINTAINER": "Ada <ada@debian.org>"}
ARM = ("qemu-aarch64", "aarch64-linux-gnu-gcc")
WINDOWS_GCC = "x86_64-w64-mingw32-gcc"
# The names that the compiler's start files use if they are defined.
WEAK = {"__cxa_finalize", "__gmon_start__", "_ITM_deregisterTMCloneTable",
        "_ITM_registerTMCloneTable"}
# The directories of the small system into which packages are installed. All others are the
# machine's.
OWN = ["", "usr", "usr/bin", "usr/include", "usr/lib", "usr/share", "usr/share/doc",
       "usr/share/man", "usr/share/man/man1", "usr/share/lintian", "usr/share/lintian/overrides",
       "usr/share/bash-completion", "usr/share/bash-completion/completions", "usr/share/zsh",
       "usr/share/zsh/site-functions", "usr/share/fish", "usr/share/fish/vendor_completions.d",
       *(f"usr/lib/{it}{below}" for it in ("x86_64-linux-gnu", "aarch64-linux-gnu")
         for below in ("", "/cmake", "/pkgconfig"))]
EMPTY = ["try", "opt", "tmp", "proc", "dev", "rust", "etc/alternatives", "host/usr", "var/log",
         "var/lib/dpkg/info", "var/lib/dpkg/updates", "var/lib/dpkg/triggers"]
ENTER = """cd "$1"
for place in proc dev etc/alternatives; do mount --rbind /$place $place; done
mount --rbind /usr host/usr
mount -o remount,bind,ro host/usr
[ -z "$2" ] || mount --rbind "$2" rust
shift 2
PATH=$PATH:/usr/sbin exec chroot . /usr/bin/env -i PATH=/usr/bin:/usr/sbin HOME=/tmp LC_ALL=C "$@"
"""
# Links a program with the shared library and with the archive, and runs both.
USE_C = """
for kind in shared static; do
    $CC $([ $kind = shared ] || echo -static) join_beneath.c \\
        $(pkg-config --cflags --libs unix_path) $MORE -o $kind
    $RUN ./$kind < join_beneath.stdin > answers
    cmp answers join_beneath.stdout
done
"""
USE_CMAKE = """
cmake -S . -B built -DVERSION=$VERSION > log 2>&1 || { cat log; exit 1; }
cmake --build built > log 2>&1 || { cat log; exit 1; }
for kind in unix_path static; do
    built/c_$kind < join_beneath.stdin > answers
    cmp answers join_beneath.stdout
    built/cpp_$kind < sizes.stdin > answers
    cmp answers sizes.stdout
done
"""
USE_RUST = """
for kind in dylib static; do
    rustc -L "$(pkg-config --variable=libdir unix_path)" -l $kind=unix_path use.rs -o use
    ./use
done
"""
USE_PROGRAM = r"""
printf 'canon\t.//a/./b/\n' | $RUN $BIN/pathtool > answers
[ "$(cat answers)" = ./a/b ]
[ "$($RUN $BIN/upath join --beneath /srv a/../b)" = /srv/b ]
"""
# Builds a C program, both programs and a CMake project from the archive of assembly.
USE_ASSEMBLY = r"""
cc -c $CODE/unix_path.s
cc -I/opt/place/include join_beneath.c unix_path.o -o alone
./alone < join_beneath.stdin > answers
cmp answers join_beneath.stdout
for program in pathtool upath; do
    cc $CODE/$program.s /opt/place/asm/support.c -o $program
done
sed -i 's/^find_package.*/add_subdirectory(\/opt\/place asm)/
    /^foreach(version/,/^endforeach/d' CMakeLists.txt
"""
RUST = """extern "C" {
    fn unix_path_equal(a: *const u8, a_length: usize, b: *const u8, b_length: usize) -> bool;
}

fn main() {
    let (a, b) = (b"a/./b//", b"a/b");
    assert!(unsafe { unix_path_equal(a.as_ptr(), a.len(), b.as_ptr(), b.len()) });
    assert!(!unsafe { unix_path_equal(a.as_ptr(), a.len(), b.as_ptr(), 1) });
}
"""
CRATE_MAIN = """use unix_path_proved::Path;

fn main() {
    assert_eq!(Path::new("/srv").join_beneath("a/../b").unwrap(), Path::new("/srv/b"));
}
"""
# Takes crates from those of Debian's packages.
OF_DEBIAN = f"""[source.crates-io]
replace-with = "debian"
[source.debian]
directory = "{REGISTRY}"
"""
WINDOWS_MAIN = """#include <unix_path.h>

int main(void) {
    return !unix_path_equal("a/./b//", 7, "a/b", 3) || unix_path_equal("a/./b//", 7, "a", 1);
}
"""


def names_in(top):
    """Returns the names of the files and directories below a directory."""
    return {str(it.relative_to(top)) for it in pathlib.Path(top).rglob("*")}


def has_mounts():
    """Returns true if unshare may mount directories, and /lib is in /usr."""
    words = ["unshare", "-rm", "mount", "--rbind", "/usr", "/usr"]
    return os.path.islink("/lib") and shutil.which("unshare") and run(words).returncode == 0


class Packages(Case):
    """Tests of packages that are written once, in a copy of the repository."""

    out = found = None

    @classmethod
    def setUpClass(cls):
        if Packages.found is None:
            folder = tempfile.TemporaryDirectory()
            unittest.addModuleCleanup(folder.cleanup)
            Packages.out = f"{copy_repository(folder.name)}/dist"
            Packages.found = run(["tools/dist"], os.path.dirname(cls.out), **DATED)
        assert cls.found.returncode == 0, said(cls.found)

    def written(self, ending, start=""):
        """Returns the names of the packages with this start and this ending."""
        return sorted(it for it in os.listdir(self.out)
                      if it.startswith(start) and it.endswith(ending))

    def unpack(self, name, folder):
        """Unpacks a package to a directory. Leaves the test out if it wasn't written."""
        path = f"{self.out}/{name}"
        if not os.path.exists(path):
            self.leave_out(f"the tests of {name}", "it was not written")
        if name.endswith(".deb"):
            self.call("dpkg-deb", "-R", path, folder)
            return
        is_zip = name.endswith((".zip", ".whl"))
        with (zipfile.ZipFile if is_zip else tarfile.open)(path) as archive:
            archive.extractall(folder)

    def unpacked(self, name):
        """Unpacks a package. Returns the directory that has its files."""
        top = f"{self.folder}/{name}.d"
        self.unpack(name, top)
        return top if name.endswith((".deb", ".whl")) else f"{top}/{os.listdir(top)[0]}"


class Contents(Packages):
    """What is in the packages."""

    def test_written(self):
        """Every package is there, or a line names what it lacks."""
        left_out = re.findall("^left out: (.*), since (.*)$", said(self.found), re.M)
        for what, why in left_out:
            with self.row(what):
                self.leave_out(what, why)
        if not left_out:
            self.assertEqual(set(os.listdir(self.out)), {
                "SHA256SUMS", *(f"unix_path-{VERSION}-{it}.tar.xz" for it in ("asm", *SYSTEMS)),
                f"unix_path-{VERSION}-x86_64-windows.zip", f"{CRATE}.crate", *WHEELS,
                f"unix_path-{VERSION}.tar.gz",
                *(f"{package}_{VERSION}_{it}.deb" for package in PACKAGES
                  for it in SYSTEMS.values())})

    def test_twice(self):
        """The same bytes are written in another directory and time zone, with another umask."""
        other = copy_repository(f"{self.folder}/a longer name")
        for name in names_in(other):
            os.utime(f"{other}/{name}", (86400, 86400), follow_symlinks=False)
        self.ran(["sh", "-c", "umask 077; tools/dist"], other, TZ="Asia/Tokyo",
                 TMPDIR=self.folder, **DATED)
        self.call("diff", "-r", self.out, f"{other}/dist")

    def test_times(self):
        """SOURCE_DATE_EPOCH is the time of all files."""
        for name in self.written(".tar.xz") + self.written(".deb"):
            with self.row(name):
                words = ["dpkg-deb", "--fsys-tarfile"] if name.endswith(".deb") else ["xz", "-dc"]
                data = self.call(*words, f"{self.out}/{name}")
                with tarfile.open(fileobj=io.BytesIO(data)) as file:
                    self.assertEqual({it.mtime for it in file}, {int(DATED["SOURCE_DATE_EPOCH"])})

    def papers(self, path):
        """Returns the control file and the changelog of a Debian package."""
        self.call("dpkg-deb", "-x", path, f"{path}.d")
        return self.call("dpkg-deb", "-f", path).decode() + self.call(
            "sh", "-c", f"zcat {path}.d/usr/share/doc/*/changelog.gz").decode()

    def test_maintainer(self):
        """MAINTAINER is the only address in Debian's packages. Without it they are unreleased."""
        top = copy_repository(self.folder)
        self.ran(["tools/dist"], top)
        for name in self.written(".deb"):
            with self.row(name):
                text = self.papers(shutil.copy(f"{self.out}/{name}", self.folder))
                self.assertIn(f"\nMaintainer: {DATED['MAINTAINER']}\n", text)
                self.assertEqual(text.count("@"), 2)
                text = self.papers(f"{top}/dist/{name}")
                self.assertIn("\nMaintainer: none: this package is not released\n", text)
                self.assertIn(" UNRELEASED;", text)
                self.assertNotIn("@", text)

    def test_damaged(self):
        """With a damaged file of asm/ nothing is written, and dist/ stays as it was."""
        top = copy_repository(self.folder)
        write(f"{top}/dist/kept")
        write(f"{top}/asm/support.c")
        self.fails(run(["tools/dist"], top), "asm/support.c")
        self.assertEqual(os.listdir(f"{top}/dist"), ["kept"])

    def test_lacking(self):
        """A line names each part that is left out for want of a command. The crate needs none."""
        top, names = copy_repository(self.folder), {
            it for place in os.get_exec_path() if os.path.isdir(place) for it in os.listdir(place)}
        others = [f"the packages for {it}" for it in SYSTEMS if it != TARGET]
        for missing, wanted in (
                ("gcc|cargo", [f"the packages for {it}" for it in SYSTEMS]),
                ("-gcc|cargo|dpkg-deb", [f"Debian's packages for {TARGET}", *others])):
            with self.row(missing):
                path = link_commands(f"{self.folder}/{missing}", [
                    it for it in names if not re.search(missing, it)])
                wheels = [f"the wheel for {it}" for it in SYSTEMS
                          if missing[0] != "-" or it != TARGET]
                printed = said(self.ran(["tools/dist"], top, path))
                self.assertEqual(re.findall("^left out: (.*), since", printed, re.M),
                                 [*wanted, "the zip for Windows", *wheels])
                self.assertIn(f"{CRATE}.crate", os.listdir(f"{top}/dist"))

    def test_sums(self):
        """The digests in each archive are those of all its files, and of asm/."""
        for name in self.written(".tar.xz") + self.written(".zip"):
            with self.row(name):
                top = self.unpacked(name)
                self.call("sha256sum", "-c", "SHA256SUMS", cwd=top)
                listed = read(f"{top}/SHA256SUMS").decode().splitlines()
                self.assertEqual({it.split("  ")[1] for it in listed} | {"SHA256SUMS"}, {
                    it for it in names_in(top) if os.path.isfile(f"{top}/{it}")
                    and not os.path.islink(f"{top}/{it}")})
        with self.row(PROVED):
            top = self.unpacked(f"unix_path-{VERSION}-asm.tar.xz")
            checked = self.call("sh", "-c", f"grep -E '^[0-9a-f]{{64}}  ' {PROVED} | sha256sum -c",
                                cwd=top).decode()
            self.assertEqual({*re.findall("(.*): OK", checked), PROVED}, {
                it for it in names_in(top) if re.match("(asm|include)/", it)
                and os.path.isfile(f"{top}/{it}")})

    @needs("readelf")
    def test_needs(self):
        """The programs need no library, and the library four functions of glibc 2.17 or older."""
        for target in SYSTEMS:
            with self.row(target):
                top = self.unpacked(f"unix_path-{VERSION}-{target}.tar.xz")
                for name in read_programs():
                    program = self.call("readelf", "-ldW", f"{top}/bin/{name}").decode()
                    self.assertNotRegex(program, "NEEDED|INTERP")
                    self.assertIn("DYN (", program)
                text = self.call("readelf", "-sdlW", "--dyn-syms",
                                 f"{top}/lib/libunix_path.so.{VERSION}").decode()
                called = set(re.findall(r" UND (\w+)(?:@(?:GLIBC_)?\S+)?", text))
                self.assertTrue({"memcpy"} <= called <= NEEDED | WEAK, called)
                versions = re.findall(r" UND \w+@GLIBC_([\d.]+)", text)
                self.assertLessEqual(max([int(it) for it in version.split(".")]
                                         for version in versions), [2, 17])
                self.assertEqual(re.findall(r"NEEDED.*\[(.*)\]", text), ["libc.so.6"])
                self.assertNotIn("TEXTREL", text)
                self.assertIn("BIND_NOW", text)

    @needs("readelf")
    def test_wheels(self):
        """Each wheel has an extension module for its machine, which needs glibc 2.17 or older. On
        aarch64 the loader has the stack protector's value."""
        for name, machine in zip(WHEELS, ("X86-64", "AArch64")):
            with self.row(name):
                text = self.call("readelf", "-hdW", "--dyn-syms",
                                 f"{self.unpacked(name)}/unix_path/_unix_path.abi3.so").decode()
                self.assertRegex(text, f"Machine:.*{machine}")
                versions = re.findall(r" UND \w+@GLIBC_([\d.]+)", text)
                self.assertLessEqual(max([int(it) for it in version.split(".")]
                                         for version in versions), [2, 17])
                self.assertLessEqual(set(re.findall(r"NEEDED.*\[(.*)\]", text)),
                                     {"libc.so.6", "ld-linux-aarch64.so.1"})

    @needs("lintian")
    def test_lintian(self):
        """lintian finds no error in Debian's packages."""
        words = ["--fail-on", "error,warning", *([] if os.getuid() else ["--allow-root"])]
        found = self.call("lintian", *words, *self.written(".deb"), cwd=self.out).decode()
        self.assertNotIn("E:", found)

    def test_symbols(self):
        """Debian's package names the symbols of the shared library, with their versions."""
        for name in self.written(".deb", "libunix-path1"):
            with self.row(name):
                top = self.unpacked(name)
                library, = pathlib.Path(top).rglob(f"*.so.{VERSION}")
                shown = self.symbols(library, "-D", "--defined-only")
                head, *lines = read(f"{top}/DEBIAN/symbols").decode().splitlines()
                self.assertEqual(head, "libunix_path.so.1 libunix-path1 #MINVER#")
                self.assertEqual({it.split()[0] for it in lines if "UNIX_PATH_" != it[1:11]},
                                 {it.replace("@@", "@") for kind, it in shown if kind == "T"})
                for line in lines:
                    self.assertRegex(line, r"^ \S+@UNIX_PATH_([\d.]+) \1$")


class Notices(Packages):
    """The licences of the code that is compiled in."""

    def read(self):
        """Returns the words of the notices, the lists of crates that are compiled in, by the name
        of the library or program, and the crates with a licence that is stated."""
        text = read(NOTICES).decode()
        lists = dict(it[len("compiled in "):].split(": ") for it in proved_lines()
                     if it.startswith("compiled in "))
        self.assertEqual(set(lists), {"unix_path", *read_programs()})
        stated = set(re.findall(r"(?m)^  (\w+) +(?:MIT|Apache-2\.0)\b", text))
        return " ".join(text.split()), lists, stated

    def test_compiled_in(self):
        """The notices name the crates that are compiled into each file, and say of each either its
        licence or that none is stated."""
        words, lists, stated = self.read()
        for name, crates in lists.items():
            with self.row(name):
                self.assertIn(f" {name} {crates} ", words)
        found = set(" ".join(lists.values()).split())
        with self.row("licences"):
            self.assertLessEqual(stated, found)
            unstated = " ".join(sorted(found - stated))
            self.assertIn(f"states no licence for these crates: {unstated} Nor", words)

    @needs("rt")
    def test_texts(self):
        """The notices have each text of a licence that the toolchain has for these crates."""
        words, lists, stated = self.read()
        for crate in sorted(set(" ".join(lists.values()).split())):
            texts = list(pathlib.Path(toolchain_folder(), "rattle", crate).glob("LICENSE*"))
            with self.row(crate):
                self.assertEqual(bool(texts), crate in stated)
                for text in texts:
                    self.assertIn(" ".join(text.read_text("utf-8").split()), words)

    def test_packed(self):
        """The notices are packed with every binary and with asm/."""
        for name in set(os.listdir(self.out)) - {"SHA256SUMS"}:
            with self.row(name):
                found = list(pathlib.Path(self.unpacked(name)).rglob("NOTICES.txt"))
                self.assertEqual([it.read_bytes() for it in found], [read(NOTICES)])

    def test_copyright(self):
        """The copyright of each Debian package names each binary, and what is compiled into it."""
        _, lists, _ = self.read()
        for name in self.written(".deb"):
            with self.row(name):
                top = self.unpacked(name)
                text, = pathlib.Path(top).glob("usr/share/doc/*/copyright")
                stanzas = re.findall(r"(?ms)^Files: (\S+)\n(.*?)\n\n", text.read_text("utf-8"))
                for path in pathlib.Path(top).rglob("*"):
                    if path.is_file() and path.read_bytes()[:4] in (b"\x7fELF", b"!<ar"):
                        words, = [it for pattern, it in stanzas if pattern != "*"
                                  and fnmatch.fnmatch(str(path.relative_to(top)), pattern)]
                        crates = lists.get(path.name, lists["unix_path"])
                        self.assertIn(f"toolchain: {crates}.", " ".join(words.split()))


class Uses(Packages):
    """Each package is unpacked or installed in a small system, used, and removed."""

    def setUp(self):
        super().setUp()
        if not has_mounts():
            self.leave_out("installing packages", "unshare may mount nothing, or /lib is no link")
        self.top = f"{self.folder}/system"
        # Empty directories are left out: dpkg makes them, and removes them with its last package.
        full = [it for it in OWN if os.path.isdir(f"/{it}") and os.listdir(f"/{it}")]
        for name in EMPTY + full:
            os.makedirs(f"{self.top}/{name}", exist_ok=True)
        for name in "bin", "sbin", "lib", "lib64":
            os.symlink(f"usr/{name}", f"{self.top}/{name}")
        for name in filter(os.path.isdir, (f"/{it}" for it in OWN[1:])):
            self.link_all(name)
        self.add_files()
        self.before = self.files()

    def link_all(self, name):
        """Adds what this machine has in a directory."""
        for it in os.listdir(name):
            is_own = f"{name}/{it}".strip("/") in OWN
            if not is_own and not os.path.lexists(f"{self.top}{name}/{it}"):
                os.symlink(f"/host{name}/{it}", f"{self.top}{name}/{it}")

    def add_files(self):
        """Adds Rust, what dpkg reads, which says that the C library is installed, and the sources
        of the programs that are built."""
        has_rust = shutil.which("rustc") and shutil.which("cargo")
        self.rust = has_rust and said(run(["rustc", "--print", "sysroot"])).strip()
        for name in ("rustc", "cargo") if self.rust else ():
            run(["ln", "-sf", f"/rust/bin/{name}", f"{self.top}/usr/bin/{name}"])
        state = said(run(["dpkg-query", "-s", "libc6"])) if shutil.which("dpkg-query") else ""
        write(f"{self.top}/var/lib/dpkg/status", state)
        write(f"{self.top}/etc/passwd", "root:x:0:0::/tmp:/bin/sh")
        write(f"{self.top}/try/use.rs", RUST)
        for name in "tests/cmake/*", "examples/c/join_beneath.*", "examples/cpp/sizes.*":
            for path in pathlib.Path(ROOT).glob(name):
                shutil.copy(path, f"{self.top}/try")

    def files(self):
        """Returns the names of its files, except the programs that are tried and dpkg's records."""
        notes = "try/", "tmp/", "var/lib/dpkg/", "var/log/"
        return {it for it in names_in(self.top) if not it.startswith(notes)}

    def enter(self, script, **variables):
        """Runs a script as root of the system. It has to succeed."""
        self.ran(["unshare", "-rm", "sh", "-ec", ENTER, "sh", self.top, self.rust or "",
                  *(f"{name}={value}" for name, value in variables.items()),
                  "sh", "-ec", f"cd /try\n{script}"])

    def use_here(self, place, lib, **cmake):
        """Uses the package below a directory in all ways."""
        self.enter(USE_PROGRAM + USE_C + USE_CMAKE + (USE_RUST if self.rust else ""), CC="cc",
                   RUN="", BIN=f"{place}/bin", VERSION=read_version(), LD_LIBRARY_PATH=lib,
                   PKG_CONFIG_PATH=f"{lib}/pkgconfig", **cmake)

    def use_arm(self, place, lib):
        """Does the same for aarch64, under QEMU and only in C."""
        self.enter(USE_PROGRAM + USE_C, CC="aarch64-linux-gnu-gcc", BIN=f"{place}/bin",
                   RUN=f"qemu-aarch64 -L /usr/aarch64-linux-gnu -E LD_LIBRARY_PATH={lib}",
                   PKG_CONFIG_LIBDIR=f"{lib}/pkgconfig")

    def try_archive(self, part, use):
        """Unpacks an archive, moves it to /opt/place, uses it there, and removes it."""
        os.rename(self.unpacked(f"unix_path-{VERSION}-{part}.tar.xz"), f"{self.top}/opt/place")
        use()
        shutil.rmtree(f"{self.top}/opt/place")
        self.assertEqual(self.before ^ self.files(), set())

    def test_archive(self):
        self.try_archive("x86_64-linux", lambda: self.use_here(
            "/opt/place", "/opt/place/lib", CMAKE_PREFIX_PATH="/opt/place"))

    @needs("musl-gcc")
    def test_archive_musl(self):
        """Programs that use musl are linked with the archive's libraries."""
        self.try_archive("x86_64-linux", lambda: self.enter(
            USE_C, CC="musl-gcc", RUN="", MORE="-Wl,--allow-shlib-undefined",
            PKG_CONFIG_PATH="/opt/place/lib/pkgconfig", LD_LIBRARY_PATH="/opt/place/lib"))

    @needs(*ARM)
    def test_archive_aarch64(self):
        self.try_archive("aarch64-linux", lambda: self.use_arm("/opt/place", "/opt/place/lib"))

    def test_assembly(self):
        """A C program, both programs and a CMake project are built from the assembly."""
        self.try_archive("asm", lambda: self.enter(
            USE_ASSEMBLY + USE_PROGRAM + USE_CMAKE, BIN=".", RUN="", VERSION=read_version(),
            CODE=f"/opt/place/asm/{TARGET}"))

    def try_debs(self, architecture, forced, use):
        """Installs Debian's packages, uses them, and removes them."""
        for package in PACKAGES:
            name = f"{package}_{VERSION}_{architecture}.deb"
            if not os.path.exists(f"{self.out}/{name}"):
                self.leave_out(f"installing {name}", "it was not written")
            shutil.copy(f"{self.out}/{name}", f"{self.top}/tmp")
        self.enter(f"dpkg {forced} -i /tmp/*.deb > log 2>&1 || {{ cat log; exit 1; }}")
        use()
        names = " ".join(f"{it}:{architecture}" for it in PACKAGES)
        self.enter(f"dpkg --purge {names} > log 2>&1 || {{ cat log; exit 1; }}\n"
                   "! grep -l unix.path /var/lib/dpkg/status\n"
                   "! ls /var/lib/dpkg/info | grep unix.path")
        self.assertEqual(self.before ^ self.files(), set())

    @needs("dpkg")
    def test_debian(self):
        self.try_debs("amd64", "", lambda: self.use_here("/usr", "/usr/lib/x86_64-linux-gnu"))

    @needs("dpkg", *ARM)
    def test_debian_arm64(self):
        self.try_debs("arm64", "--force-architecture --force-depends", lambda: self.use_arm(
            "/usr", "/usr/lib/aarch64-linux-gnu"))

    @needs("rustc", "cargo")
    def test_crate(self):
        """A Rust program is built from the crate and no other package: serde is only named."""
        self.unpack(f"{CRATE}.crate", f"{self.top}/try")
        write(f"{self.top}/try/serde/Cargo.toml", "[package]", "name = 'serde'",
              "version = '1.0.0'", "[features]", "alloc = []")
        write(f"{self.top}/try/serde/src/lib.rs")
        write_package(f"{self.top}/try", CRATE_MAIN, [f"unix_path_proved = {{ path = '{CRATE}' }}"],
                      "[patch.crates-io]", "serde = { path = 'serde' }")
        self.enter("cargo run --offline --quiet")


class Service(Packages):
    @needs("cargo")
    def test_service(self):
        """The example with serde in its configuration is built in an empty directory from the crate
        and from those of Debian, and answers requests."""
        if not glob.glob(f"{REGISTRY}/serde_json-*"):
            self.leave_out("the service with serde", "librust-serde-json-dev is missing")
        top = shutil.copytree(f"{ROOT}/examples/lookup", f"{self.folder}/lookup", ignore=(
            shutil.ignore_patterns("target", "Cargo.lock", "unix_path_proved-*")))
        self.unpack(f"{CRATE}.crate", top)
        write(f"{top}/.cargo/config.toml", OF_DEBIAN)
        self.ran(["cargo", "build", "--offline"], top, CARGO_TARGET_DIR=f"{top}/target")
        found = self.ran(["target/debug/lookup", "site.json"], top,
                         given=read("examples/lookup/requests.in"))
        self.same_lines(found.stdout, read("examples/lookup/requests.out"))


class Windows(Packages):
    @needs(WINDOWS_GCC)
    def test_windows(self):
        """C programs are built from the zip for Windows, and run under Wine if it is installed."""
        top = self.unpacked(f"unix_path-{VERSION}-x86_64-windows.zip")
        write(f"{self.folder}/use.c", WINDOWS_MAIN)
        files = "lib/libunix_path.a", "asm/x86_64-windows/unix_path.s"
        for number, library in enumerate(files):
            self.call(WINDOWS_GCC, f"-I{top}/include", "use.c", f"{top}/{library}", "-o",
                      f"use{number}.exe", cwd=self.folder)
        if not find_wine():
            self.leave_out("running what uses the zip for Windows", "wine64 is missing")
        with running_wine() as wine:
            for number, library in enumerate(files):
                with self.row(library):
                    self.call(*wine, f"use{number}.exe", cwd=self.folder)


if __name__ == "__main__":
    main()
