"""Checks what an archive and a request would write, and sorts 200,000 paths."""
import io
import tarfile

from unix_path import EscapesError, UnixPath
from unix_path.archive import check


def made(*entries: str) -> tarfile.TarFile:
    """Returns an archive of empty files, and of links for entries such as `a -> /etc`."""
    file = io.BytesIO()
    with tarfile.open(fileobj=file, mode="w") as archive:
        for entry in entries:
            name, arrow, target = entry.partition(" -> ")
            member = tarfile.TarInfo(name)
            member.type, member.linkname = tarfile.SYMTYPE if arrow else tarfile.REGTYPE, target
            archive.addfile(member)
    return tarfile.open(fileobj=io.BytesIO(file.getvalue()))


def main() -> None:
    for archive in made("docs/a.html", "a -> docs/a.html"), made("docs -> /etc", "docs/passwd"):
        try:
            members = check(archive)  # Extract these, to a new directory.
            print("accepted:", *(member.name for member in members))
        except EscapesError as error:
            print(f"refused: {error}")

    for name in "docs/../index.html", "../../etc/passwd":
        try:
            print(UnixPath("/srv").join_beneath(name))
        except EscapesError as error:
            print(f"refused: {error}")

    names = [f"a{number % 7}/./b//{number}" for number in range(200_000)]
    paths = sorted(map(UnixPath, names), key=UnixPath.key)
    print(paths[0], paths[-1], len(set(paths)))


if __name__ == "__main__":
    main()
