"""A model of upath, written from upath(1).

`expected` says for any arguments and any input what is written to both outputs, and the exit
status. Its options are those of tools/upath.txt.
"""
import os
import re
import runpy

from support import ROOT

TEXTS = runpy.run_path(f"{ROOT}/tools/upath_texts")
COMMON, COMMANDS, TASKS = TEXTS["read_table"]()
# The options by their names, or by their letters if they have no names.
OPTIONS = {it.name or it.letter: it for it in [*COMMON, *(o for c in COMMANDS for o in c.options)]
           if it.name not in ("help", "version")}
BY_LETTER = {it.letter: name for name, it in OPTIONS.items() if it.letter}
OWN = {c.name: {it.name or it.letter for it in [*COMMON, *c.options]
                if not {f"-{it.letter}", f"--{it.name}"} & {*c.lacks}} for c in COMMANDS}
NEEDED = {"join": "ROOT", "strip": "BASE", "under": "BASE"}
REQUESTS = [[b"-h"], [b"--help"], [b"--version"]]


# Paths.


def components(path):
    """Returns whether the path has a root, and its components after the root."""
    pieces = [it for it in path.split(b"/") if it not in (b"", b".")]
    rooted = path.startswith(b"/")
    if not rooted and path.split(b"/")[0] == b"." and path:
        pieces.insert(0, b".")
    return rooted, pieces


def spelled(rooted, pieces):
    return (b"/" if rooted else b"") + b"/".join(pieces)


def all_parts(path):
    rooted, pieces = components(path)
    return [b"/"] * rooted + pieces


def resolved_parts(path):
    """Returns whether the path has a root, and its components, each `..` resolved lexically."""
    rooted, pieces = components(path)
    kept = []
    for piece in pieces:
        if piece == b"..":
            if kept and kept[-1] != b"..":
                kept.pop()
            elif not rooted:
                kept.append(piece)
        elif piece != b".":
            kept.append(piece)
    return rooted, kept


def trimmed(path):
    """Returns the path without the slashes and `.` after its last component."""
    while True:
        if len(path) > 1 and path.endswith(b"/"):
            path = path[:-1]
        elif path.endswith(b"/."):
            path = path[:-1]
        else:
            return path


def parent(path):
    if all_parts(path) in ([], [b"."], [b"/"]):
        return None
    path = trimmed(path)
    return trimmed(path[:path.rfind(b"/") + 1]) or b"."


def ancestors(path):
    found = [path]
    while parent(found[-1]) is not None:
        found.append(parent(found[-1]))
    return found


def file_name(path):
    parts = all_parts(path)
    return parts[-1] if parts and parts[-1] not in (b"/", b".", b"..") else None


def stem_and_extension(path):
    name = file_name(path)
    if name is None:
        return None, None
    dot = name.rfind(b".")
    return (name, None) if dot <= 0 else (name[:dot], name[dot + 1:])


def escape(path):
    """Returns why `join --beneath` refuses the path, or None if it doesn't."""
    rooted, pieces = components(path)
    depth = lowest = 0
    for piece in pieces:
        depth += -1 if piece == b".." else piece != b"."
        lowest = min(lowest, depth)
    return ("root" if rooted else "escapes" if lowest < 0 else "nul" if b"\0" in path else None)


def join(base, path):
    if path.startswith(b"/"):
        return path
    return base + (b"/" if base and not base.endswith(b"/") else b"") + path


def below(root, path):
    """Returns the root, verbatim, with the path's names, resolved, below it."""
    names = spelled(False, resolved_parts(b"/" + path)[1])
    return root + (b"/" if root and names and not root.endswith(b"/") else b"") + names


def stripped(path, base):
    """Returns what follows the components of the base, or None if the path doesn't start with
    them."""
    parts, prefix = all_parts(path), all_parts(base)
    if parts[:len(prefix)] != prefix:
        return None
    rest = path
    for part in prefix:
        while not rest.startswith(part) or part == b"." != rest[:1]:
            rest = rest[1:]
        rest = rest[len(part):]
        while rest.startswith(b"/") or rest == b"." or rest.startswith(b"./"):
            rest = rest[1:]
    return trimmed(rest) if rest else rest


def relative(start, path):
    (rooted, names), (other_rooted, others) = resolved_parts(start), resolved_parts(path)
    common = len(os.path.commonprefix([names, others]))
    if rooted != other_rooted or b".." in names[common:]:
        return None
    return spelled(False, [b".."] * len(names[common:]) + others[common:])


def rest_under(path, base):
    """Returns what follows the base, both resolved, or None if the path isn't at or below it."""
    (rooted, names), (other_rooted, others) = resolved_parts(base), resolved_parts(path)
    rest = others[len(names):]
    if rooted != other_rooted or others[:len(names)] != names or b".." in rest:
        return None
    return spelled(False, rest)


def key(path):
    marks = {b"/": b"\0\1", b".": b"\0\2", b"..": b"\0\3"}
    return b"".join(marks.get(part) or bytes(it + (it < ord("/")) for it in part) + b"\0"
                    for part in all_parts(path))


def unkeyed(text):
    """Returns the canonical path with this key in hexadecimal, or None if it isn't a key."""
    if not re.fullmatch(rb"([0-9a-fA-F]{2})*", text):
        return None
    data = bytes.fromhex(text.decode())
    marks = {b"\0\1": b"/", b"\0\2": b".", b"\0\3": b".."}
    parts = [marks.get(code) or bytes(it - (it <= ord("/")) for it in code[:-1] if it)
             for code in re.findall(rb"\0.|[^\0]+\0|.", data, re.S)]
    rooted = parts[:1] == [b"/"]
    path = spelled(rooted, parts[rooted:])
    return path if key(path) == data else None


def order_of(path):
    """Returns what sorts paths: the root before a leading `.`, then `..`, then names by bytes."""
    kinds = {b"/": 0, b".": 1, b"..": 2}
    return [(kinds.get(it, 3), it) for it in all_parts(path)]


def first_of_equal(paths):
    """Returns the paths that equal none before them."""
    found = {}
    for path in paths:
        found.setdefault(tuple(all_parts(path)), path)
    return [*found.values()]


# Arguments.


class Usage(Exception):
    """Wrong usage. Its text is what the message says."""


def shown(data):
    """Returns the bytes as a message shows them."""
    text = data.replace(b"\\", b"\\x5c").decode("utf-8", "backslashreplace")
    return re.sub("[\0-\x1f\x7f-\x9f]", lambda found: "".join(
        f"\\x{it:02x}" for it in found[0].encode()), text)


def first_character(data):
    """Returns the first character of UTF-8, or the first byte if it isn't one."""
    for length in range(1, 5):
        try:
            data[:length].decode()
            return data[:length]
        except UnicodeDecodeError:
            pass
    return data[:1]


class Arguments:
    """A list of arguments, read by the rules for all commands: options with their values and the
    words that give them, operands, how many of them come before a `--`, and what is wrong first."""

    def __init__(self, words):
        self.given, self.operands, self.before, self.faults = [], [], None, []
        rest = enumerate(words)
        for at, word in rest:
            if self.before is not None or word[:1] != b"-" or word == b"-":
                self.operands.append((at, word))
            elif word == b"--":
                self.before = len(self.operands)
            elif [word] in REQUESTS:
                self.wrong(word, "must be the first argument or follow the command")
            elif word[:2] == b"--":
                self.read_long(word, rest)
            else:
                self.read_letters(word[1:])

    def asked(self, words):
        """Returns the first operand, and in a list the word after it, unless `--` came first."""
        if not self.operands or self.before == 0:
            return None, []
        at, name = self.operands[0]
        return name, words[at + 1:at + 2]

    def wrong(self, word, what):
        self.faults.append(f"{shown(word)}: {what}")

    def read_long(self, word, rest):
        name, equals, value = word[2:].partition(b"=")
        option = OPTIONS.get(name.decode("latin-1"))
        if not option or not option.name:
            self.wrong(word, "unknown option")
        elif equals and not option.value:
            self.wrong(word, "takes no value")
        else:
            value = next(rest, (0, None))[1] if option.value and not equals else value
            self.given.append((option.name, value, word))
            if value is None:
                self.wrong(word, "its value is missing")

    def read_letters(self, letters):
        while letters:
            letter = first_character(letters)
            letters = letters[len(letter):]
            name = BY_LETTER.get(letter.decode("latin-1"))
            if name:
                self.given.append((name, None, b"-" + letter))
            else:
                self.wrong(b"-" + letter, "unknown option")


def requested(words):
    """Returns the text that `help`, `-h`, `--help` or `--version` asks for, or None. Raises wrong
    usage if a word follows `help`, `-h` or `--help` that is neither a command nor an option."""
    first, (name, after) = words[:1], Arguments(words).asked(words)
    names = {it.name.encode(): it for it in COMMANDS}
    if first == [b"--version"]:
        return TEXTS["version"]()
    if first in ([b"help"], [b"-h"], [b"--help"]):
        name = words[1] if len(words) > 1 else b""
        if name not in names and words[1:] and name[:1] != b"-":
            raise Usage(f"{shown(name)}: unknown command")
    elif name not in names or after not in REQUESTS:
        return None
    elif after == [b"--version"]:
        return TEXTS["version"]()
    return (TEXTS["command_help"](names[name]) if name in names
            else TEXTS["general_help"](COMMON, COMMANDS, TASKS))


class Call:
    """A command with its options and paths. `paths` is None if they are read."""

    def __init__(self, words):
        found = Arguments(words)
        self.name, self.options = "", {name: value for name, value, _ in found.given}
        operands = [it for _, it in found.operands]
        if found.asked(words)[1] in REQUESTS:
            self.check_name(operands)
        self.check(found, operands)
        self.end = b"\0" if "null" in self.options else b"\n"
        needed = 1 + (self.name in NEEDED)
        if len(operands) < needed:
            raise Usage(f"{self.name}: {NEEDED[self.name]} is missing")
        if self.name == "relative" and "from" not in self.options:
            raise Usage("relative: --from=DIR is missing")
        self.base = operands[1] if self.name in NEEDED else self.options.get("from")
        self.paths = operands[needed:] or None
        if self.name == "archive":
            self.check_alone()
        elif self.name == "equal":
            self.check_pair()
        elif found.before is not None and found.before >= needed:
            if found.before > needed:
                raise Usage(f"{shown(operands[needed])}: comes before --")
            self.paths = operands[needed:]

    def check(self, found, operands):
        """Raises what is wrong with arguments whatever operands the command needs."""
        if found.faults:
            raise Usage(found.faults[0])
        if not operands:
            raise Usage("COMMAND is missing")
        self.check_name(operands)
        for name, _, word in found.given:
            if name not in OWN[self.name]:
                raise Usage(f"{shown(word)}: unknown option")
        for it in [*operands[1:], self.options.get("or", b"")] * ("null" not in self.options):
            if b"\n" in it:
                raise Usage(f"{shown(it)}: has a newline, which needs -z")
        if len({"beneath", "in-root", "verbatim"} & {*self.options}) > 1:
            raise Usage("join: --beneath, --in-root and --verbatim exclude one another")

    def check_name(self, operands):
        self.name = operands[0].decode("latin-1")
        if self.name not in OWN:
            raise Usage(f"{shown(operands[0])}: unknown command")

    def check_alone(self):
        if self.paths:
            raise Usage(f"{shown(self.paths[0])}: one operand too many")

    def check_pair(self):
        if len(self.paths or []) < 2:
            raise Usage("equal: A or B is missing")
        if len(self.paths) > 2:
            raise Usage(f"{shown(self.paths[2])}: one operand too many")


# What is printed.


class Refused(Exception):
    """A path without a result. Its text is the reason."""


def found_or(result, reason):
    if result is None:
        raise Refused(reason)
    return [result]


def joined(call, path):
    why = escape(path) if "beneath" in call.options else None
    if "verbatim" in call.options:
        why = "root" if path[:1] == b"/" else "any" if b".." in components(path)[1] else None
    reasons = {"root": "has a root", "escapes": "leaves its root", "any": "has a .."}
    if why in reasons:
        raise Refused(reasons[why])
    is_safe = {"beneath", "in-root", "verbatim"} & {*call.options}
    if is_safe and b"\0" in path:
        raise Refused("has a NUL byte")
    return [join(call.base, path) if is_safe <= {"verbatim"} else below(call.base, path)]


def path_of_key(call, text):
    path = unkeyed(text)
    if path is not None and call.end in path:
        raise Refused("has a NUL byte" if call.end == b"\0" else "has a newline, which needs -z")
    return found_or(path, "not a key")


def or_dot(path):
    return b"." if path == b"" else path


def no_relative(start, path):
    return f"no relative path from {shown(start)}" + (
        ", which has a .. that the path lacks" if start.startswith(b"/") == path.startswith(b"/")
        else ", as only one of them has a leading slash")


RESULTS = {
    "canon": lambda call, path: [spelled(*components(path))],
    "resolve": lambda call, path: [or_dot(spelled(*resolved_parts(path)))],
    "parent": lambda call, path: found_or(parent(path), "no parent"),
    "ancestors": lambda call, path: ancestors(path),
    "name": lambda call, path: found_or(file_name(path), "no file name"),
    "stem": lambda call, path: found_or(stem_and_extension(path)[0], "no file name"),
    "ext": lambda call, path: found_or(stem_and_extension(path)[1], "no extension"),
    "parts": lambda call, path: all_parts(path)[::-1 if "b" in call.options else 1],
    "join": joined,
    "strip": lambda call, path: found_or(or_dot(stripped(path, call.base)),
                                         "doesn't start with the base"),
    "relative": lambda call, path: found_or(or_dot(relative(call.base, path)),
                                            no_relative(call.base, path)),
    "key": lambda call, path: [key(path).hex().encode()],
    "unkey": path_of_key,
    "sort": lambda call, path: [path],
    "uniq": lambda call, path: [path],
}


def answered(call, path):
    """Returns the results for a path, and the message if it has none."""
    try:
        return RESULTS[call.name](call, path), None
    except Refused as reason:
        return [call.options["or"]] if "or" in call.options else [], str(reason)


def selected(call, path):
    """Returns what `escapes` or `under` prints for a path, and whether the path is one of those
    that it prints without `-v`."""
    if call.name == "escapes":
        found = escape(path)
        text = f"{found}\t".encode() if found and "reason" in call.options else b""
        result = text + path
    else:
        find = stripped if "by-components" in call.options else rest_under
        found = find(path, call.base)
        result = path if found is None or "strip" not in call.options else or_dot(found)
    return [result] * ((found is not None) != ("v" in call.options)), found is not None


def out_of_order(call, paths):
    """Returns the first path that is out of order, in a list."""
    keys = [order_of(it) for it in paths]
    for before, after, path in zip(keys, keys[1:], paths[1:]):
        if "r" in call.options:
            before, after = after, before
        if after < before or after == before and "u" in call.options:
            return [path]
    return []


def arranged(call, paths):
    """Returns the paths in the order in which they are answered."""
    if call.name == "uniq" or "u" in call.options:
        paths = first_of_equal(paths)
    if call.name == "sort":
        paths = sorted(paths, key=order_of)[::-1 if "r" in call.options else 1]
    return paths


def results_of(call, paths):
    """Returns paths with their results, messages, and the status."""
    if call.name in ("escapes", "under"):
        found = [(path, *selected(call, path)) for path in paths]
        is_yes = (not any(it for _, _, it in found) if call.name == "escapes"
                  else any(results for _, results, _ in found))
        return [it[:2] for it in found], [], not is_yes
    if "c" in call.options:
        wrong = [(it, "is out of order") for it in out_of_order(call, paths)]
        return [], wrong, bool(wrong)
    found = [(path, *answered(call, path)) for path in arranged(call, paths)]
    wrong = [(path, reason) for path, _, reason in found if reason]
    return [it[:2] for it in found], wrong, bool(wrong)


# What the path of an entry is used as, in the order of uses of one path.
USES = [b"l", b"h", b"target", b"f", b"other", b"d"]


def uses_of(entries):
    """Returns the paths that an extractor uses, in path order: each as what it is used, with its
    components and the number of its entry."""
    found = [(kind if kind in (b"d", b"f", b"l", b"h") else b"other", path, number)
             for number, (kind, path, _) in enumerate(entries)]
    found += [(b"target", target, number) for number, (kind, _, target) in enumerate(entries)
              if kind == b"h"]
    found = [(kind, path, without_dot(path), number) for kind, path, number in found]
    return sorted(found, key=lambda use: ([order_of(it) for it in use[2]], USES.index(use[0]),
                                          use[3]))


def without_dot(path):
    parts = all_parts(path)
    return parts[1:] if parts[:1] == [b"."] else parts


def leads_out(path, target):
    """Returns whether the symbolic link leads out: the target has a root, more `..` at its start
    than there are directories above the link, or a later one."""
    parts = without_dot(target)
    ups = next((at for at, it in enumerate(parts) if it != b".."), len(parts))
    return b"/" in parts or b".." in parts[ups:] or ups > max(len(path) - 1, 0)


def forbidden(use, target, is_closed):
    """Returns why an entry is refused whatever the others are, or None."""
    kind, path, parts, _ = use
    if kind == b"other":
        return "kind"
    if b"/" in parts or b".." in parts \
            or kind != b"d" and path.split(b"/")[-1] in (b"", b"."):
        return "name"
    return "out" if is_closed and kind == b"l" and leads_out(parts, target) else None


def clash(first, use):
    """Returns why a use is refused beside an earlier one in path order, or None."""
    if first[2] == use[2]:
        if use[0] == b"target" and first[0] in (b"l", b"h"):
            return "target"
        return "twice" if first[0] == b"l" else None
    return "below" if first[0] != b"d" and use[2][:len(first[2])] == first[2] else None


def refusals_of(entries, is_closed):
    """Yields the reason, the number of the entry, and that of the entry that it clashes with: the
    first one in path order, of those that clash with none themselves."""
    kept = []
    for use in uses_of(entries):
        first, why = next(((it, clash(it, use)) for it in kept if clash(it, use)), (use, None))
        if not why:
            kept.append(use)
        reason = forbidden(use, entries[use[3]][2], is_closed)
        if reason or why:
            yield reason or why, use[3], use[3] if reason else first[3]


def refusal_text(reason, entry, cause):
    """Returns why an entry is refused, with the entry that it clashes with."""
    kind, _, target = entry
    either = f"this path or the target {shown(target)} " * (kind == b"h")
    named = {b"d": "directory", b"f": "file", b"l": "symbolic link", b"h": "hard link"}
    leaf = f"the {named.get(cause[0], 'entry')} {shown(cause[1])}" + (
        f" or its target {shown(cause[2])}" * (cause[0] == b"h"))
    return {"name": f"{either}has a root, has a .., or does not end in a name",
            "kind": "neither a directory, a file nor a link",
            "below": f"{either}lies below {leaf}",
            "twice": "is a symbolic link, and used twice",
            "target": f"hard link to the link {shown(cause[1])}",
            "out": f"leads out, to {shown(target)}"}[reason]


# A line of what `LC_ALL=C tar -tvP --numeric-owner --quoting-style=c` prints, without its end.
NUMBER, QUOTED = rb"[0-9]+", rb'"((?:[^"\\]|\\[^0-7]|\\[0-7]{3})*)"'
DATE = rb"-?[0-9]+-[0-9]{2}-[0-9]{2} +[0-9]{2}:[0-9]{2}|-?[0-9]+"
LINE = re.compile(rb"([-dClhbcp])[-rwxsStT]{9} %b/%b +%b(?:,%b)? +(?:%b) +%b(?:( -> | link to )%b)?"
                  % (NUMBER, NUMBER, NUMBER, NUMBER, DATE, QUOTED, QUOTED))
LETTERS = dict(zip(b'abtnvfr"\\', b'\a\b\t\n\v\f\r"\\'))


def unquoted(text):
    """Returns the name that is quoted like this, or None if no name is."""
    found = []
    for it in re.findall(rb"\\[0-7]{3}|\\?.", text, re.S):
        byte = it[0] if len(it) == 1 else int(it[1:], 8) if len(it) == 4 else LETTERS.get(it[1])
        is_printed = len(it) == 1 and 32 <= byte <= 126
        is_octal = len(it) == 4 and byte <= 255 and not 32 <= byte <= 126 and byte \
            and byte not in LETTERS.values()
        if not (is_printed or is_octal or len(it) == 2 and byte is not None):
            return None
        found.append(byte)
    return bytes(found)


def listed_entry(line):
    """Returns the entry that is listed by a line, or None if none is."""
    found = LINE.fullmatch(line)
    if not found:
        return None
    kind, name, words, target = found.groups()
    kind = {b"-": b"f", b"C": b"f"}.get(kind, kind)
    name, target = unquoted(name), unquoted(target or b"")
    if not name or target is None or words != {b"l": b" -> ", b"h": b" link to "}.get(kind):
        return None
    return kind, name, target


def entries_of(call, data):
    """Returns the entries of an input, and why it is refused as a whole, or None."""
    if "tar-list" in call.options:
        *lines, rest = data.split(b"\n")
        entries = [listed_entry(it) for it in lines] + [None] * (rest != b"")
        if None in entries:
            return [], f"line {entries.index(None) + 1}: not a line of tar's listing"
        return entries, None if entries else "no entries"
    *fields, rest = data.split(b"\0")
    if rest or len(fields) % 3:
        return [], f"record {len(fields) // 3 + 1} is cut off"
    return [*zip(fields[::3], fields[1::3], fields[2::3])], None if fields else "no entries"


def archive(call, data):
    """Returns the status and both outputs of `archive` for this input."""
    entries, wrong = entries_of(call, data)
    if wrong:
        return 1, b"", f"upath: {wrong}\n".encode()
    output, messages = b"", ""
    for reason, number, cause in refusals_of(entries, "closed" in call.options):
        path = entries[number][1]
        text = shown(path).encode() if b"\n" in path and call.end == b"\n" else path
        output += f"{reason}\t".encode() * ("reason" in call.options) + text + call.end
        why = refusal_text(reason, entries[number], entries[cause])
        messages += f"upath: {shown(path)}: {why}\n"
    return int(output != b""), output, messages.encode()


def records(data, end):
    """Returns the records of an input, of which the last may lack its end."""
    found = data.split(end)
    return found if found[-1] else found[:-1]


def expected(words, data):
    """Returns the status and both outputs of a run with these arguments and this input."""
    try:
        text = requested(words)
        if text is not None:
            return 0, "".join(f"{it}\n" for it in text).encode(), b""
        call = Call(words)
    except Usage as error:
        return 2, b"", f"upath: {error}\nTry 'upath --help'.\n".encode()
    if call.name == "equal":
        return int(all_parts(call.paths[0]) != all_parts(call.paths[1])), b"", b""
    if call.name == "archive":
        status, *printed = archive(call, data)
        return (status, b"", b"") if "quiet" in call.options else (status, *printed)
    paths = call.paths if call.paths is not None else records(data, call.end)
    found, wrong, status = results_of(call, paths)
    if "quiet" in call.options:
        return int(status), b"", b""
    middle = b"\0" if call.end == b"\0" else b"\t"
    output = b"".join((path + middle if "pair" in call.options else b"") + it + call.end
                      for path, results in found for it in results)
    messages = "".join(f"upath: {shown(path)}: {reason}\n" for path, reason in wrong)
    return int(status), output, messages.encode()
