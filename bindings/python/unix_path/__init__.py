"""Unix paths as values: UnixPath, like pathlib.PurePosixPath, with safe joins.

The calls are in a library whose functions are proved to meet their contracts. It is part of the
extension module, and no file is touched.

>>> from unix_path import UnixPath
>>> UnixPath("/srv").join_beneath("a/../b")
UnixPath('/srv/b')
"""
import posixpath

from unix_path import _members
from unix_path._unix_path import EscapesError, UnixPath

__all__ = ["EscapesError", "UnixPath"]

for _name, _member in {
        "as_uri": _members.as_uri, "full_match": _members.full_match, "match": _members.match,
        "parents": property(_members.Parents), "parser": posixpath,
        "suffixes": property(_members.suffixes)}.items():
    setattr(UnixPath, _name, _member)
