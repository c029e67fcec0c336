#!/usr/bin/env python3
"""Extracts archives by real programs in a sandbox, and says what that changed outside.

tests/extract.py < LISTS > RESULTS

Each line of LISTS is the entries of an archive, as JSON: kind, path and target of each. A target or
path that begins with `/OUTSIDE` is a place outside of the destination. Each line of RESULTS says,
for the same list, what each program did: `changed` if a node outside was created, changed or
removed, `leads_out` if a path below the destination leads out of it afterwards, or neither.

Run it where nothing but /tmp can be written (see test_archives.py).
"""
import io
import json
import multiprocessing
import os
import pathlib
import shutil
import subprocess
import sys
import tarfile
import time
import zipfile

# Programs that read tar archives, with their options.
TAR = ["tar -xf", "tar -xPf", "tar --keep-directory-symlink -xPf", "tar --overwrite -xPf",
       "tar -xPUf", "tar --recursive-unlink -xPf", "tar -xPhf", "tar --skip-old-files -xPf",
       "tar --delay-directory-restore -xPkf", "tar -xPpf", "bsdtar -xf", "bsdtar -xPf",
       "bsdtar -xPUf", "bsdtar -xPkf", "bsdtar -xPpf", "busybox tar -xf", "cpio -idu --quiet -F",
       "cpio -id --no-absolute-filenames --quiet -F", "bsdcpio -idu --quiet -F"]
ZIP = ["unzip -qo", "unzip -qo:", "bsdtar -xf"]
KINDS = {"d": tarfile.DIRTYPE, "f": tarfile.REGTYPE, "l": tarfile.SYMTYPE, "h": tarfile.LNKTYPE,
         "o": tarfile.CONTTYPE}
MODES = {"d": 0o40700, "f": 0o100644, "l": 0o120777}
SECONDS = 10


def write_tar(path, entries):
    with tarfile.open(path, "w", format=tarfile.GNU_FORMAT) as archive:
        for kind, name, target in entries:
            info = tarfile.TarInfo(name)
            info.type, info.linkname = KINDS[kind], target
            info.mode = MODES.get(kind, 0o600) & 0o777
            info.size = len(name) if kind == "f" else 0
            archive.addfile(info, io.BytesIO(name.encode()))


def write_zip(path, entries):
    with zipfile.ZipFile(path, "w") as archive:
        for kind, name, target in entries:
            info = zipfile.ZipInfo(name + "/" * (kind == "d" and name[-1:] != "/"))
            info.create_system, info.external_attr = 3, MODES[kind] << 16
            archive.writestr(info, target if kind == "l" else "" if kind == "d" else name)


def make_top(top):
    """Makes the destination `new` and what is outside of it, with a link that leads back."""
    shutil.rmtree(top, ignore_errors=True)
    os.makedirs(f"{top}/new")
    os.makedirs(f"{top}/outside/dir")
    for name in ("file", "dir/file"):
        pathlib.Path(top, "outside", name).write_text(name, encoding="ascii")
    os.symlink("../new", f"{top}/outside/back")


def node(path):
    """Returns what can be seen of a node, without following a link."""
    found = os.lstat(path)
    inside = None
    if os.path.islink(path):
        inside = os.readlink(path)
    elif os.path.isfile(path):
        inside = pathlib.Path(path).read_bytes()
    return (found.st_ino, found.st_mode, found.st_uid, found.st_gid, found.st_nlink,
            found.st_mtime_ns, found.st_ctime_ns, inside)


def outside(top):
    """Returns what can be seen of every node outside of the destination."""
    seen = {top: node(top)}
    for place, folders, files in os.walk(top):
        if place == top and "new" in folders:
            folders.remove("new")
        seen.update({f"{place}/{name}": node(f"{place}/{name}") for name in folders + files})
    return seen


def leads_out(top):
    """Returns true if a path below the destination leads out of it."""
    inside = os.path.realpath(f"{top}/new")
    for place, folders, files in os.walk(f"{top}/new"):
        for name in folders + files:
            path = os.path.realpath(f"{place}/{name}")
            if path != inside and not path.startswith(f"{inside}/"):
                return True
    return False


def by_program(words, archive):
    """Returns a function that extracts an archive into the current directory."""
    def extract():
        subprocess.run([*words.split(), archive], timeout=SECONDS, check=False,
                       stdin=subprocess.DEVNULL, stdout=subprocess.DEVNULL,
                       stderr=subprocess.DEVNULL)
    return extract


def by_tarfile(archive, filtered):
    def extract():
        with tarfile.open(archive) as members:
            members.extractall(**({"filter": filtered} if hasattr(tarfile, "data_filter") else {}))
    return extract


def by_zipfile(archive):
    def extract():
        with zipfile.ZipFile(archive) as members:
            members.extractall()
    return extract


def extractors(folder, entries):
    """Writes the archives of these entries, and yields what extracts them, by name."""
    tar, archive = f"{folder}/x.tar", f"{folder}/x.zip"
    write_tar(tar, entries)
    for words in TAR:
        if shutil.which(words.split()[0]):
            yield words, by_program(words, tar)
    for filtered in ("fully_trusted", "tar", "data")[:3 if hasattr(tarfile, "data_filter") else 1]:
        yield f"tarfile {filtered}", by_tarfile(tar, filtered)
    if all(kind in MODES and name for kind, name, _ in entries):
        write_zip(archive, entries)
        for words in ZIP:
            if shutil.which(words.split()[0]):
                yield f"{words} x.zip", by_program(words, archive)
        yield "zipfile", by_zipfile(archive)


def run(extract, folder):
    """Extracts into the folder, in a process of its own."""
    child = os.fork()
    if child == 0:
        try:
            os.chdir(folder)
            extract()
        finally:
            os._exit(0)  # pylint: disable=protected-access
    os.waitpid(child, 0)


def try_list(line):
    """Returns what each program did with one list of entries."""
    folder = f"/tmp/{os.getpid()}"
    top = f"{folder}/top"
    os.makedirs(folder, exist_ok=True)
    entries = [[it.replace("/OUTSIDE", f"{top}/outside") for it in entry]
               for entry in json.loads(line)]
    results = {}
    for name, extract in extractors(folder, entries):
        make_top(top)
        # A change within a tick of the clock would not show in the time of the last change.
        time.sleep(0.005)
        before = outside(top)
        run(extract, f"{top}/new")
        results[name] = ("changed" if outside(top) != before else
                         "leads_out" if leads_out(top) else "")
    return json.dumps(results)


def main():
    sys.stderr = open(os.devnull, "w", encoding="ascii")  # pylint: disable=consider-using-with
    with multiprocessing.Pool() as pool:
        for result in pool.imap(try_list, sys.stdin, 4):
            print(result)


if __name__ == "__main__":
    main()
