"""Keys of paths, by calls of the C library."""
import ctypes

SIZE_MAX = ctypes.c_size_t(-1).value
NOT_A_KEY = SIZE_MAX - 4
NO_END = SIZE_MAX - 5


def exact(some_bytes):
    """Returns these bytes as a plain `bytes`, since a subclass may report another length."""
    return bytes(memoryview(some_bytes))


class Paths:
    """Converts paths to keys and keys to paths, all as bytes."""

    def __init__(self, library):
        self.calls = ctypes.CDLL(library)
        for name in "key", "from_key", "key_range_end":
            call = getattr(self.calls, f"unix_path_{name}")
            call.argtypes = [ctypes.c_char_p, ctypes.c_size_t, ctypes.c_char_p, ctypes.c_size_t]
            call.restype = ctypes.c_size_t

    def answer(self, name, given, room):
        """Returns the bytes that a call writes, or its error code as a number."""
        call, out = getattr(self.calls, f"unix_path_{name}"), ctypes.create_string_buffer(room + 1)
        length = call(given, len(given), out, room)
        if length > room and length < NO_END:
            return self.answer(name, given, length)
        return length if length > room else out.raw[:length]

    def key(self, path):
        """Returns the key of a path."""
        path = exact(path)
        return self.answer("key", path, len(path) + 2)

    def path(self, key):
        """Returns the canonical form of the paths with this key."""
        key = exact(key)
        found = self.answer("from_key", key, 2 * len(key))
        if found == NOT_A_KEY:
            raise ValueError(f"{key!r} is the key of no path")
        return found

    def end(self, key):
        """Returns the exclusive end of a key's range, or None for the empty key, whose range has
        all keys."""
        key = exact(key)
        found = self.answer("key_range_end", key, len(key))
        if found == NOT_A_KEY:
            raise ValueError(f"{key!r} is the key of no path")
        return None if found == NO_END else found
