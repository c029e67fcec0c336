#!/usr/bin/env python3
"""Prints the entries of an archive, as Python's tarfile or zipfile reads it, for `upath archive`.

records.py x.zip > list && upath archive --closed < list && mkdir new &&
    python3 -m zipfile -e x.zip new
"""
import os
import stat
import sys
import tarfile
import zipfile


def of_tar(archive):
    """Yields kind, path and target of each member."""
    for it in archive:
        kind = ("d" if it.isdir() else "l" if it.issym() else "h" if it.islnk() else
                "f" if it.isreg() else "other")
        yield kind, it.name, it.linkname if kind in ("l", "h") else ""


def of_zip(archive):
    """Yields the same of each member. The target of a link is what the archive has in its place."""
    for it in archive.infolist():
        kind = stat.S_IFMT(it.external_attr >> 16)
        is_link = kind == stat.S_IFLNK
        yield ("l" if is_link else "d" if it.is_dir() else
               "f" if kind in (0, stat.S_IFREG) else "other",
               it.filename, archive.read(it) if is_link else "")


def main():
    path = sys.argv[1]
    if zipfile.is_zipfile(path):
        members = list(of_zip(zipfile.ZipFile(path)))
    else:
        members = list(of_tar(tarfile.open(path, errors="surrogateescape")))
    for entry in members:
        sys.stdout.buffer.write(b"".join(os.fsencode(it) + b"\0" for it in entry))


if __name__ == "__main__":
    main()
