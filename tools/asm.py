"""For tools/generate and tests: how clang's assembly becomes the files of asm/, and their rules.

clang quotes a name with other characters than letters, digits and _, and GNU as for Windows rejects
quoted names. In the rewritten text a dot replaces each run of these characters. Each local label
has a prefix: with fat LTO rustc puts the text into a module that has the same labels, and without
the prefix the caller's program would compute wrong numbers. The only comments that are kept are the
names of functions.

For macOS a local label begins with `L`, or with `l` if the linker sees it, and all other names with
`_`. There are no other names that begin like that, so one rule matches the labels of all systems.
"""
import collections
import hashlib
import os
import pathlib
import re
import subprocess

from repository import MAP, ROOT, read_programs

PROVED, NOTICES = "asm/PROVED.txt", "asm/NOTICES.txt"
# The files that are written by hand and have their digests in PROVED.txt.
HEADERS = tuple(f"include/{it}" for it in (
    "unix_path.h", "unix_path.hpp", "unix_path_archive.hpp", "unix_path_owned.hpp"))
BY_HAND = (NOTICES, "asm/support.c", *HEADERS)
DIGEST = re.compile("[0-9a-f]{64}  (.*)")
# The name that the main function of a program has in its assembly: main is in support.c.
MAIN = "program_main"
PREFIX = "unix_path_"
# The most bytes of all files together.
MOST_BYTES = 5_700_000
# DROPPED has the directives that only clang reads, that name the compiled file, or that name the
# version of macOS, which the user's compiler writes. FEATURES matches the label that clang adds for
# Windows, which rustc's module also has. BYTES has the directives whose quoted bytes are not names.
DROPPED = (".file", ".ident", ".addrsig", ".addrsig_sym", ".build_version")
FEATURES = re.compile(r"^(\t\.def\t@feat\.00;\n(\t.*\n)+)?@feat\.00 = \d+\n", re.M)
BYTES = (".ascii", ".asciz", ".string")
SECTION = re.compile(r'^(\t\.section\t)"([^"]*)"')
STACK = ".note.GNU-stack"
# LOCAL matches the start of a local label or of a use of one, which may also occur inside another
# name. UNPREFIXED matches a label without the prefix, and PREFIXED the start of one with it. LABEL
# matches a label at the start of a line, or a name that a directive defines. GLOBAL matches an
# exported name. A line that begins with one of MARKS is a comment.
LOCAL = re.compile(r"(?<![\w.])(\.?L(?=\w)|l(?=[A-Z_]))")
UNPREFIXED = re.compile(fr"{LOCAL.pattern}(?!{PREFIX})\w+")
PREFIXED = re.compile(fr"(?:\.?L|l){PREFIX}")
LABEL = re.compile(r"^([^\s:#]+):|^\t\.set\t([^\s,]+),", re.M)
GLOBAL = re.compile(r"^\t\.globl\t(.+)$", re.M)
MARKS = ("#", "//", ";")


def plain(name):
    """Returns a name with a dot for each run of characters that need quotes."""
    return re.sub(r"\W+", ".", name, flags=re.ASCII)


def without_comment(line, mark):
    """Returns a line without its comment, which begins with this mark outside quotes."""
    if mark not in line:
        return line.rstrip()
    code = r'(?:"(?:[^"\\]|\\.)*"|(?!%s)[^"])*' % re.escape(mark)
    return re.match(code, line)[0].rstrip()


def plain_line(line):
    """Returns a line without comments in which each name is plain and each local label has the
    prefix."""
    directive = line.split()[0]
    if directive in BYTES:
        return line
    if directive == ".section":
        line = SECTION.sub(lambda it: it[1] + (it[2] if it[2] == STACK else plain(it[2])), line)
    else:
        line = re.sub(r'"([^"]*)"', lambda it: plain(it[1]), line)
    return LOCAL.sub(fr"\1{PREFIX}", line)


def rewritten(text, mark):
    """Rewrites clang's assembly, whose comments begin with this mark. A comment before each
    function has its original name, if that name isn't plain."""
    lines = []
    for line in FEATURES.sub("", text).splitlines():
        line = without_comment(line, mark)
        if line.startswith('"') and not LOCAL.match(line, 1):
            lines.append(f"{mark} {line[1:-2].lstrip('_')}")
        if line and line.split()[0] not in DROPPED:
            lines.append(plain_line(line))
    return "\n".join(lines) + "\n"


def exports_of(name):
    """Returns the names that a file of assembly has to export: the library's calls, or MAIN. For
    macOS each name begins with `_`."""
    if os.path.basename(name)[:-len(".s")] in read_programs():
        return {MAIN}
    calls = re.findall(r"\bunix_path_\w+(?=;)", pathlib.Path(ROOT, MAP).read_text("utf-8"))
    return {f"_{it}" if "-macos/" in name else it for it in calls}


def faults_of(text, exports):
    """Returns what is wrong with a rewritten text. It has to export exactly the names `exports`."""
    names = [label or alias for label, alias in LABEL.findall(text)]
    found = set(GLOBAL.findall(text))
    own = [it for it in names if it not in found and not PREFIXED.match(it)]
    code = [it for it in text.splitlines() if not it.strip().startswith((*MARKS, *BYTES))]
    quoted = [it for it in code if '"' in it and it.split()[0] != ".section"]
    twice = [name for name, count in collections.Counter(names).items() if count > 1]
    labels = [it[0] for line in code for it in UNPREFIXED.finditer(line)]
    return [*(f"{it}: a local label without prefix" for it in dict.fromkeys(labels)),
            *(f"{it}: a local name that C or Rust may have" for it in own if "." not in it),
            *(f"{it}: defined twice" for it in twice),
            *(f"{it}: exported, or not, by mistake" for it in sorted(found ^ set(exports))),
            *(f"{it.strip()}: a name between quotes" for it in quoted)]


def all_faults(files, places):
    """Returns what is wrong with generated files. They must not contain any of the paths
    `places`."""
    faults = [f"{name}: names {place}" for name, data in sorted(files.items())
              for place in places if place.encode() in data]
    faults += [f"{name}: {it}" for name, data in sorted(files.items()) if name.endswith(".s")
               for it in faults_of(data.decode(), exports_of(name))]
    size = sum(map(len, files.values()))
    return [*faults, f"asm/: {size} bytes"] if size > MOST_BYTES else faults


def digest_of(data):
    return hashlib.sha256(data).hexdigest()


def sources():
    """Returns the digest of the sources."""
    return subprocess.check_output([f"{ROOT}/tools/asm_sources"], text=True).strip()


def read_files():
    """Returns the bytes of each file of asm/ and of each header, by its name in the repository."""
    top = pathlib.Path(ROOT)
    return {str(it.relative_to(top)): it.read_bytes()
            for it in [*top.glob("asm/**/*"), *top.glob("include/*")] if it.is_file()}


def by_hand():
    """Returns the files that are written by hand, by name."""
    return {name: data for name, data in read_files().items() if name in BY_HAND}


def proved_lines():
    return pathlib.Path(ROOT, PROVED).read_text("utf-8").splitlines()


def name_in(line):
    """Returns the name of the file whose digest a line of PROVED.txt has; empty for a fact."""
    found = DIGEST.fullmatch(line)
    return found[1] if found else ""


def proved_text(lines, files):
    """Returns PROVED.txt with these lines, and with the digests of these files."""
    lines = [*lines, *(f"{digest_of(data)}  {name}" for name, data in files.items())]
    return "".join(f"{it}\n" for it in sorted(lines, key=name_in)).encode()


def read_fact(name):
    """Returns the value of a fact in asm/PROVED.txt."""
    return next(it[len(name) + 1:] for it in proved_lines() if it.startswith(f"{name} "))


def write_files(files):
    """Writes these files, and the digest of PROVED.txt in the Makefile."""
    for name, data in files.items():
        path = pathlib.Path(ROOT, name)
        path.parent.mkdir(exist_ok=True)
        path.write_bytes(data)
    makefile = pathlib.Path(ROOT, "Makefile")
    makefile.write_text(re.sub(r"(?m)^PROVED = .*$", f"PROVED = {digest_of(files[PROVED])}",
                               makefile.read_text("utf-8")), "utf-8")
