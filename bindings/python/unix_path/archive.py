"""Checks the entries of an archive before it is unpacked.

Names that each stay inside can still lead out: after a link `x` to `/etc`, the file `x/passwd` is
written to `/etc/passwd`. The decision is the library's, over all entries at once.

>>> import io, tarfile, unix_path.archive
>>> tar = tarfile.open(fileobj=io.BytesIO(), mode="w")
>>> tar.addfile(tarfile.TarInfo("../passwd"))
>>> unix_path.archive.check(tar)
Traceback (most recent call last):
unix_path.archive.EntryError: '../passwd': a path has a root, a '..' or a NUL, or ends in a slash
"""
from __future__ import annotations

import stat
import tarfile
import zipfile
from typing import Any, Iterable, List, Union, overload

from unix_path._unix_path import EscapesError, check_entries

__all__ = ["EntryError", "check"]

Member = Union[tarfile.TarInfo, zipfile.ZipInfo]
# Why an entry is refused, by the numbers of the library.
_REASONS = (
    "a path has a root, a '..' or a NUL, or ends in a slash",
    "it is neither a file, a directory nor a link",
    "a path is below {cause!r}, which is a file or a link",
    "{cause!r} has the same path, and one of both is a symbolic link",
    "its target is the link {cause!r}",
    "its target leads out of the directory",
)
# The length of a link's target from which no system accepts it.
_LONG = 4096


class EntryError(EscapesError):
    """An entry is refused. `member` is the entry, and `path` its name."""
    member: Member


@overload
def check(members: Iterable[tarfile.TarInfo], *, closed: bool = True) -> List[tarfile.TarInfo]: ...
@overload
def check(members: zipfile.ZipFile | Iterable[zipfile.ZipInfo], *,
          closed: bool = True) -> List[zipfile.ZipInfo]: ...
def check(members: Any, *, closed: bool = True) -> List[Any]:
    """Returns the entries, in a list for `extractall(members=...)`, if no extractor can write
    outside of its new, empty directory. Raises EntryError for the first entry that is refused.

    `members` is an archive that is open for reading, or some of its entries. If `closed` is false,
    symbolic links may lead out, as long as no entry is written through them: then what follows
    them later may leave the directory. In a list of ZipInfo each symbolic link is refused, since
    its target is in the archive.
    """
    archive = members if isinstance(members, zipfile.ZipFile) else None
    listed = list(archive.infolist() if archive else members)
    records = b"".join(_record(it, archive) for it in listed)
    refusal = check_entries(records, closed)
    if refusal:
        entry, cause, reason = refusal
        name, why = _name(listed[entry]), _REASONS[reason].format(cause=_name(listed[cause]))
        error = EntryError(f"{name!r}: {why}")
        error.member, error.path = listed[entry], name
        raise error
    return listed


def _name(member: Member) -> str:
    return member.name if isinstance(member, tarfile.TarInfo) else member.filename


def _record(member: Member, archive: zipfile.ZipFile | None) -> bytes:
    """Returns an entry as the library reads it: its kind, its path and a link's target. Instead of
    a path with a NUL it has `/`, which is refused for the same reason."""
    if isinstance(member, tarfile.TarInfo):
        fields = [_tar_kind(member), member.name, member.linkname]
    elif isinstance(member, zipfile.ZipInfo):
        fields = [*_zip_kind(member, archive)]
    else:
        raise TypeError(f"an entry is a TarInfo or a ZipInfo, and not {type(member).__name__}")
    encoded = (it.encode("utf-8", "surrogateescape") for it in fields)
    return b"".join((b"/" if b"\0" in it else it) + b"\0" for it in encoded)


def _tar_kind(member: tarfile.TarInfo) -> str:
    kinds = (member.isdir, "d"), (member.issym, "l"), (member.islnk, "h"), (member.isreg, "f")
    return next((kind for is_kind, kind in kinds if is_kind()), "o")


def _zip_kind(member: zipfile.ZipInfo, archive: zipfile.ZipFile | None) -> Iterable[str]:
    """Returns the kind, the path and the target. The target of a symbolic link is its content."""
    mode = member.external_attr >> 16
    if stat.S_ISLNK(mode):
        target = b""
        if archive:
            with archive.open(member) as file:
                target = file.read(_LONG)
        kind = "l" if 0 < len(target) < _LONG else "o"
        return kind, member.filename, target.decode("utf-8", "surrogateescape")
    is_file = stat.S_IFMT(mode) in (0, stat.S_IFREG, stat.S_IFDIR)
    return "d" if member.is_dir() else "f" if is_file else "o", member.filename, ""
