"""Calls UnixPath over a library that returns random results, under AddressSanitizer.

Whatever the library returns, no call crashes or reads outside of its memory. It may return anything
or raise any exception. tests/test_python.py builds the extension module for this.
"""
import sys

from test_hostile import CALLS, Derived
from unix_path import UnixPath
from unix_path._unix_path import check_entries

ROUNDS = 3000


def main() -> None:
    raised = set()
    for number in range(ROUNDS):
        for name, call in CALLS.items():
            try:
                check_entries(b"f\0a\0\0" * (number % 99), number % 2 == 0)
                path = (Derived if number % 2 else UnixPath).from_bytes(b"/a//b.c/" * (number % 99))
                call(path)
            except (ValueError, TypeError, SystemError, MemoryError) as error:
                raised.add(type(error).__name__)
    if "SystemError" not in raised:
        sys.exit(f"the library returned no wrong length: {raised}")
    print(f"{len(CALLS)} calls, {ROUNDS} times: {' '.join(sorted(raised))}")


if __name__ == "__main__":
    main()
