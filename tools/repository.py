"""For the other tools: the crates, the files that make builds, and the toolchain's version."""
import collections
import os
import re
import shutil
import subprocess
import sys

ROOT = os.path.dirname(os.path.dirname(os.path.abspath(__file__)))
# The processor that programs and the library for C are compiled for: any x86-64.
BASELINE = "x86-64"

# The linker script that assigns a version to each call of the library for C.
MAP = "crates/unix_path_c/calls.map"


def made(variable, name):
    """Returns the path that the variable has, or else that of what make builds."""
    return os.path.abspath(os.environ.get(variable) or f"{ROOT}/build/{name}")


PROGRAM = made("UNIX_PATH_PROGRAM", "pathtool")
UPATH = made("UNIX_PATH_UPATH", "upath")
LIBRARY = made("UNIX_PATH_LIB", "libunix_path.a")
# A line of crates.txt: the crate's kind, and the libraries that it uses.
Line = collections.namedtuple("Line", "kind libraries")


def read_lines():
    """Returns the lines of crates.txt, by crate."""
    lines = {}
    with open(f"{ROOT}/crates.txt", encoding="utf-8") as file:
        for line in file:
            name, colon, libraries = line.partition("#")[0].partition(":")
            if colon:
                crate, *kind = name.split()
                lines[crate] = Line(kind, libraries.split())
    return lines


def read_crates():
    """Returns the crates of crates.txt, each with the crates among them that it depends on."""
    lines = read_lines()
    return {name: [it for it in line.libraries if it in lines] for name, line in lines.items()}


def read_programs():
    """Returns the names of the programs that are installed. Each has a manual page."""
    return sorted(name[:-len(".1")] for name in os.listdir(f"{ROOT}/man"))


def read_version():
    """Returns the version that the header for C defines."""
    with open(f"{ROOT}/include/unix_path.h", encoding="utf-8") as file:
        return re.search(r'^#define UNIX_PATH_VERSION "(.*)"', file.read(), re.M)[1]


def read_versions():
    """Returns the calls of the library for C by the version that added them, oldest version
    first."""
    with open(f"{ROOT}/{MAP}", encoding="utf-8") as file:
        nodes = re.findall(r"^UNIX_PATH_(\S+) \{(.*?)^\}", file.read(), re.M | re.S)
    return {version: re.findall(r"\bunix_path_(\w+);", calls) for version, calls in nodes}


def with_serde(manifest):
    """Returns the manifest of the crate for Rust with the feature `serde`."""
    return manifest.replace("[features]\n", """[dependencies.serde]
version = "1"
optional = true
default-features = false
features = ["alloc"]

[features]
# Serialize and Deserialize for Path, PathBuf and Box<Path>.
serde = ["alloc", "dep:serde"]
""", 1)


def is_program(crate):
    return os.path.exists(f"{ROOT}/crates/{crate}/src/main.rt")


def built_of(crate):
    """Returns the path of the program or of the library for C that rt builds."""
    return f"crates/{crate}/out/{crate if is_program(crate) else f'lib{crate}.a'}"


def in_order(below, names):
    """Returns these crates and all crates that they depend on. Each comes after its
    dependencies."""
    order = []
    for name in names:
        found = [*in_order(below, below[name]), name]
        order += [it for it in found if it not in order]
    return order


def version():
    """Returns what `rt version` prints, or None if there is no toolchain."""
    rt = shutil.which("rt")
    return subprocess.check_output([rt, "version"], text=True).strip() if rt else None


def check_toolchain():
    """Stops if there is no toolchain, and warns if the proofs were not tried with its version."""
    with open(f"{ROOT}/rattle-toolchain", encoding="utf-8") as file:
        tried = file.read().splitlines()
    found = version()
    if found is None:
        sys.exit("rt, the command of the Rattle toolchain, is not on the path.\n"
                 f"The crates were proved with these versions of it: {'; '.join(tried)}")
    if found not in tried:
        print(f"the toolchain is {found}; the crates were proved with {'; '.join(tried)}",
              file=sys.stderr)


def toolchain_folder():
    return os.path.dirname(os.path.dirname(os.path.realpath(shutil.which("rt"))))
