// Keys of paths, the paths of keys, and the ends of the keys' ranges, for all short strings.
#define _DEFAULT_SOURCE
#include "check.h"
#include "comparisons.h"

// Returns the order of two keys in a store.
static int compare_keys(view a, view b) {
    size_t shorter = a.length < b.length ? a.length : b.length;
    int order = memcmp(a.bytes, b.bytes, shorter);
    if (order != 0) {
        return order < 0 ? -1 : 1;
    }
    return (a.length > b.length) - (a.length < b.length);
}

// Returns what the call writes to `memory` for the given bytes, or no bytes if that doesn't fit.
static view made(call_of_one call, view given, uint8_t *memory, size_t room) {
    size_t length = call(given.bytes, given.length, memory, room);
    return (view){memory, length <= room ? length : 0};
}

static size_t keys_among_strings;

// Checks that a string is refused as a key, or is the key of the path that is read from it. A `#`
// in the string represents NUL.
static void read_string(view string) {
    uint8_t copy[16], path[16], again[16];
    for (size_t at = 0; at < string.length; at++) {
        copy[at] = string.bytes[at] == '#' ? 0 : string.bytes[at];
    }
    view bytes = {copy, string.length};
    size_t length = unix_path_from_key(bytes.bytes, bytes.length, path, sizeof path);
    if (length == UNIX_PATH_NOT_A_KEY) {
        CHECK(unix_path_key_range_end(bytes.bytes, bytes.length, path, sizeof path)
              == UNIX_PATH_NOT_A_KEY, "refused");
        return;
    }
    keys_among_strings++;
    view key = made(unix_path_key, (view){path, length}, again, sizeof again);
    CHECK(same_bytes(key, bytes), "read back");
}

// Checks the number of keys among the strings. A name of n bytes has n + 1 bytes in a key, and
// there are 6^n such names, except `.` and `..`. The component `..` has 2 bytes. So of the
// components that may be anywhere, 6, 35, 216 and 1296 have 2, 3, 4 and 5 bytes in a key. At the
// beginning there may also be the root or a `.`, of 2 bytes each. That makes 1, 0, 8, 35, 264 and
// 1786 keys of 0 to 5 bytes.
static void strings_as_keys(void) {
    each_string("#a/\x01\x02\x03\x04", 5, read_string);
    CHECK(keys_among_strings == 2094, "%zu keys", keys_among_strings);
}

static view first_of_pair;

// Checks that keys are in the order of their paths, and that a path's key is in the range of
// another path's key if and only if the path starts with the other path.
static void pair_with(view path) {
    uint8_t first[16], second[16], last[16];
    view a = made(unix_path_key, first_of_pair, first, sizeof first);
    view b = made(unix_path_key, path, second, sizeof second);
    view end = made(unix_path_key_range_end, b, last, sizeof last);
    CHECK(compare_keys(a, b) == compare(first_of_pair, path), "order");
    bool is_in_range = compare_keys(b, a) <= 0 && (b.length == 0 || compare_keys(a, end) < 0);
    CHECK(is_in_range == unix_path_starts_with(first_of_pair.bytes, first_of_pair.length,
                                               path.bytes, path.length), "range");
}

static void pairs_of(view path) {
    uint8_t copy[16];
    memcpy(copy, path.bytes, path.length);
    first_of_pair = (view){copy, path.length};
    each_string("/.a0", 4, pair_with);
}

static void laws_of_keys(void) {
    each_string("/.a0", 4, pairs_of);
}

int main(void) {
    run("strings read as keys", strings_as_keys);
    run("laws of keys", laws_of_keys);
    return finish();
}
