"""The answers of the shared library as rows of rows.txt have them, through ctypes.

It is the library beside the archive that UNIX_PATH_LIB names.
"""
import ctypes
import os
from ctypes import POINTER, c_bool, c_char_p, c_int32, c_size_t, c_uint32, c_uint64

import support
import tables
from tables import spelled, unescaped

LIBRARY = ctypes.CDLL(f"{os.path.dirname(os.path.abspath(support.LIBRARY))}/{support.SONAME}")
_PATH, _OUT = [c_char_p, c_size_t], [c_char_p, c_size_t]
ERRORS = {2**64 - 7: "!separator", 2**64 - 2: "!escapes", 2**64 - 4: "!nul_in_request",
          2**64 - 5: "!not_a_key", 2**64 - 6: "!no_end", 2**64 - 8: "!no_relative_path"}


class _Walk(ctypes.Structure):
    _fields_ = [("front", c_size_t), ("back", c_size_t)]


class _Part(ctypes.Structure):
    _fields_ = [("start", c_size_t), ("length", c_size_t), ("kind", c_uint32)]


class _Span(ctypes.Structure):
    _fields_ = [("start", c_size_t), ("length", c_size_t)]


class _Chunk(ctypes.Structure):
    _fields_ = [("start", c_size_t), ("valid_length", c_size_t), ("broken_length", c_size_t)]


def _call(name, answer, *kinds):
    """Returns a call of the library; `answer` is the type that it returns."""
    call = getattr(LIBRARY, f"unix_path_{name}")
    call.restype, call.argtypes = answer, sum(kinds, [])
    return call


def words(paths):
    """Returns the arguments of a call on these paths: each path and its length."""
    return [it for path in paths for it in (path, len(path))]


def found(name, *paths):
    span = _Span()
    call = _call(name, c_bool, _PATH * len(paths), [POINTER(_Span)])
    if not call(*words(paths), ctypes.byref(span)):
        return ["!none"]
    return [spelled(paths[0][span.start:span.start + span.length]), str(span.start)]


def asked(name, *paths):
    """Returns the field for the number or truth value that a call returns. A hash is unsigned and
    written in hexadecimal."""
    answer = _call(name, TYPES[ANSWERS[name]], _PATH * len(paths))(*words(paths))
    return [f"0x{answer:016x}" if ANSWERS[name] == "uint64_t" else str(answer).lower()]


def order(name, a, b):
    """Returns the field for the order of two paths. Adds fields if the order of the swapped paths
    or unix_path_equal disagrees."""
    (there,), (back,), (equal,) = asked(name, a, b), asked(name, b, a), asked("equal", a, b)
    is_known = int(there) == -int(back) and (equal == "true") == (there == "0")
    return [there] if is_known else [there, back, equal]


def written(name, *paths):
    room = 3 * sum(map(len, paths)) + 2
    out = ctypes.create_string_buffer(room)
    call = _call(name, c_size_t, _PATH * len(paths), _OUT)
    length = call(*words(paths), out, room)
    return [ERRORS[length] if length in ERRORS else spelled(out.raw[:length])]


def walked(call, path):
    """Yields the components in the order in which a call takes them, each with its index."""
    walk, part = _Walk(0, len(path)), _Part()
    step = _call(call, c_bool, _PATH, [POINTER(_Walk), POINTER(_Part)])
    while step(*words([path]), ctypes.byref(walk), ctypes.byref(part)):
        yield [spelled(path[part.start:part.start + part.length]), str(part.start)]


def whole(path):
    """Returns the start and the end of the rest of a new walk."""
    walk, span = _Walk(), _Span()
    begin = _call("components", None, _PATH, [POINTER(_Walk)])
    look = _call("as_path", None, _PATH, [POINTER(_Walk), POINTER(_Span)])
    begin(*words([path]), ctypes.byref(walk))
    look(*words([path]), ctypes.byref(walk), ctypes.byref(span))
    return span.start, span.start + span.length


def parts(_name, path):
    """Returns the fields for the components. Checks that both calls take them, and that the rest of
    a new walk reaches from the first component to the last."""
    front, back = list(walked("next", path)), list(walked("next_back", path))
    spans = [(int(start), int(start) + len(unescaped(part))) for part, start in front] or [(0, 0)]
    if front != back[::-1] or whole(path) != (spans[0][0], spans[-1][1]):
        return [f"{front} from the front, {back} from behind, {whole(path)} in all"]
    return sum(front, [])


def ancestors(name, path):
    taken, span, at = [], _Span(), c_size_t(len(path))
    call = _call(name, c_bool, _PATH, [POINTER(c_size_t), POINTER(_Span)])
    while call(*words([path]), ctypes.byref(at), ctypes.byref(span)):
        taken.append(spelled(path[span.start:span.start + span.length]))
    return taken


def chunks(name, path):
    taken, chunk, at = [], _Chunk(), c_size_t(0)
    call = _call(name, c_bool, _PATH, [POINTER(c_size_t), POINTER(_Chunk)])
    while call(*words([path]), ctypes.byref(at), ctypes.byref(chunk)):
        middle, end = chunk.start + chunk.valid_length, at.value
        taken += [spelled(path[chunk.start:middle]), spelled(path[middle:end])]
    return taken


# For each shape of a call (its kind of signature): the number of paths, and the function that makes
# the call.
SHAPES = {
    "BEGIN": (1, parts), "NEXT_SPAN": (1, ancestors), "NEXT_CHUNK": (1, chunks),
    "FIND": (1, found), "FIND_OF_TWO": (2, found), "ASK": (1, asked), "ASK_TWO": (2, asked),
    "MAKE": (1, written), "MAKE_OF_TWO": (2, written),
}
CALLS = {name: SHAPES[shape] for name, (shape, _) in tables.calls().items() if shape in SHAPES}
CALLS["compare"] = (2, order)
TYPES = {"bool": c_bool, "int32_t": c_int32, "uint64_t": c_uint64, "size_t": c_size_t}
ANSWERS = {name: answer for name, (_, answer) in tables.calls().items()}
