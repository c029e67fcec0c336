"""Runs the examples in the documentation of the package and of its members."""
import doctest
import sys
from typing import Any, Dict

import unix_path.archive
from unix_path import EscapesError, UnixPath

PUBLIC: Dict[str, Any] = {
    "unix_path": unix_path, "UnixPath": UnixPath, "EscapesError": EscapesError,
    "archive": unix_path.archive, "check": unix_path.archive.check,
    "EntryError": unix_path.archive.EntryError,
    **{name: it for name, it in vars(UnixPath).items() if name[:1] != "_" and name != "parser"}}


def main() -> int:
    parser, runner = doctest.DocTestParser(), doctest.DocTestRunner()
    for name, member in PUBLIC.items():
        text = member.__doc__
        if not text:
            sys.exit(f"{name} has no documentation")
        runner.run(parser.get_doctest(text, {"UnixPath": UnixPath}, name, None, None))
    print(runner.summarize())
    return int(runner.failures > 0 or runner.tries < 20)


if __name__ == "__main__":
    sys.exit(main())
