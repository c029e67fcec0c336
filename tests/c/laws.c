// All calls on short strings of every kind: which bytes they read, and how their answers depend on
// one another.
#define _DEFAULT_SOURCE
#include "check.h"
#include "comparisons.h"
#include "records.h"
#include "mixed_walks.h"

static fence first_fence, second_fence;

// Checks that a path's key, next to a page that can't be read, is read back as the path's canonical
// form.
static void key_read_back(view path) {
    uint8_t bytes[16], canonical[16];
    size_t length = unix_path_key(path.bytes, path.length, bytes, sizeof bytes);
    view key = fence_in(second_fence, (view){bytes, length}, true);
    uint8_t path_of_key[16];
    size_t read = unix_path_from_key(key.bytes, key.length, path_of_key, sizeof path_of_key);
    size_t wanted = unix_path_canonical(path.bytes, path.length, canonical, sizeof canonical);
    CHECK(same_bytes((view){path_of_key, read}, (view){canonical, wanted}), "read back");
}

// Checks that the answers to the queries about one path agree with one another.
static void questions_of(view path) {
    bool is_absolute = unix_path_is_absolute(path.bytes, path.length);
    bool escapes = unix_path_escapes(path.bytes, path.length);
    int32_t reason = unix_path_check_request(path.bytes, path.length);
    CHECK(is_absolute == (path.length > 0 && path.bytes[0] == '/'), "root");
    CHECK((reason == UNIX_PATH_REQUEST_HAS_ROOT) == is_absolute, "request");
    CHECK((reason == UNIX_PATH_REQUEST_ESCAPES) == (escapes && !is_absolute), "request");
    text spelling = new_text(), lossy = new_text();
    add_one(&spelling, unix_path_canonical, path);
    add_one(&lossy, unix_path_to_string_lossy, path);
    CHECK(hash(path) == hash(as_view(&spelling)), "hash");
    CHECK(unix_path_is_canonical(path.bytes, path.length)
          == same_bytes(as_view(&spelling), path), "canonical");
    CHECK(unix_path_is_utf8(path.bytes, path.length) == same_bytes(as_view(&lossy), path), "text");
    free(spelling.bytes);
    free(lossy.bytes);
}

// Checks that no result for one path is longer than the header says, so that a buffer of that size
// is enough.
static void room_for_one(view path) {
    uint8_t out[16];
    size_t n = path.length;
    CHECK(unix_path_canonical(path.bytes, n, out, n) <= n, "canonical");
    CHECK(unix_path_resolved(path.bytes, n, out, n) <= n, "resolved");
    CHECK(unix_path_to_string_lossy(path.bytes, n, out, 3 * n) <= 3 * n, "lossy");
    CHECK(unix_path_key(path.bytes, n, out, n + 2) <= n + 2, "key");
}

// Checks that no result for two paths is longer than the header says.
static void room_for_two(view a, view b) {
    static const call_of_two calls[] = {unix_path_join, unix_path_with_file_name,
                                        unix_path_with_extension, unix_path_with_added_extension,
                                        unix_path_join_verbatim, unix_path_join_beneath,
                                        unix_path_join_in_root};
    uint8_t out[16];
    size_t room = a.length + 1 + b.length;
    for (size_t at = 0; at < sizeof calls / sizeof *calls; at++) {
        size_t length = calls[at](a.bytes, a.length, b.bytes, b.length, out, room);
        CHECK(length <= room || !unix_path_is_length(length), "call %zu", at);
    }
    size_t most = 3 * (a.length + 1) / 2 + b.length;
    uint8_t steps[32];
    size_t length = unix_path_relative_path(a.bytes, a.length, b.bytes, b.length, steps, most);
    CHECK(length <= most || !unix_path_is_length(length), "relative path");
}

// Checks that the first ancestor is the path, and each further one the parent of the one before it.
static void ancestors_are_parents(view path) {
    size_t next = path.length;
    unix_path_span ancestor, wanted = {0, path.length};
    bool is_wanted = true;
    while (unix_path_next_ancestor(path.bytes, path.length, &next, &ancestor)) {
        CHECK(is_wanted && same_span(ancestor, wanted), "ancestor of %zu", ancestor.length);
        is_wanted = unix_path_parent(path.bytes, wanted.length, &wanted);
    }
    CHECK(!is_wanted && next == SIZE_MAX, "%zu is left", wanted.length);
}

// Checks that each chunk begins where the one before it ends, and that the chunks, with their
// invalid bytes replaced, form the lossy string.
static void chunks_are_shown(view path) {
    text shown = new_text(), lossy = new_text();
    size_t next = 0, end = 0;
    unix_path_chunk chunk;
    while (unix_path_next_chunk(path.bytes, path.length, &next, &chunk)) {
        CHECK(chunk.start == end && chunk.broken_length <= 3, "chunk at %zu", chunk.start);
        add(&shown, (view){path.bytes + chunk.start, chunk.valid_length});
        add_string(&shown, chunk.broken_length == 0 ? "" : "\xEF\xBF\xBD");
        end = chunk.start + chunk.valid_length + chunk.broken_length;
        CHECK(next == end, "ends at %zu", end);
    }
    add_one(&lossy, unix_path_to_string_lossy, path);
    CHECK(end == path.length && same_bytes(as_view(&shown), as_view(&lossy)), "shown");
    free(shown.bytes);
    free(lossy.bytes);
}

// Makes each call of one path, which the caller has placed next to a page that can't be read.
static void call_all_of_one(view path) {
    static const call_of_place calls[] = {unix_path_parent, unix_path_file_name,
                                          unix_path_file_stem, unix_path_extension,
                                          unix_path_file_prefix};
    static const call_of_one writers[] = {unix_path_canonical, unix_path_to_string_lossy,
                                          unix_path_resolved, unix_path_key};
    for (size_t at = 0; at < sizeof calls / sizeof *calls; at++) {
        unix_path_span span = no_span;
        bool is_there = calls[at](path.bytes, path.length, &span);
        CHECK(is_there ? is_inside(path, span) : same_span(span, no_span), "call %zu", at);
    }
    for (size_t at = 0; at < sizeof writers / sizeof *writers; at++) {
        text answer = new_text();
        add_one(&answer, writers[at], path);
        size_t room = answer.length;
        uint8_t *out = second_fence.begin + second_fence.size - room;
        CHECK(writers[at](path.bytes, path.length, out, room) == room, "call %zu", at);
        CHECK(same_bytes(as_view(&answer), (view){out, room}), "call %zu", at);
        free(answer.bytes);
    }
    size_t joined = unix_path_join_in_root(path.bytes, path.length, path.bytes, path.length,
                                           second_fence.begin, 0);
    uint8_t *end = second_fence.begin + second_fence.size;
    CHECK(unix_path_join_in_root(path.bytes, path.length, path.bytes, path.length, end - joined,
                                 joined) == joined, "join in root");
    size_t range_end =
        unix_path_key_range_end(path.bytes, path.length, end - path.length, path.length);
    size_t read = unix_path_from_key(path.bytes, path.length, end - path.length, path.length);
    CHECK((range_end == UNIX_PATH_NOT_A_KEY) == (read == UNIX_PATH_NOT_A_KEY), "no key");
    key_read_back(path);
    questions_of(path);
    room_for_one(path);
    ancestors_are_parents(path);
    chunks_are_shown(path);
    walks_of(path);
}

static void call_fenced(view path) {
    call_all_of_one(fence_in(first_fence, path, true));
    call_all_of_one(fence_in(first_fence, path, false));
}

static void nothing_beside_is_read(void) {
    first_fence = new_fence();
    second_fence = new_fence();
    each_string("/.a\xE2\x82", 4, call_fenced);
}

// Checks that a join beneath the resolved root returns UNIX_PATH_ESCAPES if and only if the request
// escapes. If it doesn't escape, the join is the same as the join in the resolved root, and the
// same as the plain join of root and request after it is resolved.
static void joins_beneath(view root, view request, bool escapes) {
    uint8_t resolved[16], beneath[16], other[16], wanted[16];
    size_t length = unix_path_resolved(root.bytes, root.length, resolved, sizeof resolved);
    size_t strict = unix_path_join_beneath(resolved, length, request.bytes, request.length, beneath,
                                           sizeof beneath);
    CHECK((strict == UNIX_PATH_ESCAPES) == escapes, "escapes");
    size_t in_root = unix_path_join_in_root(resolved, length, request.bytes, request.length, other,
                                            sizeof other);
    CHECK(in_root <= length + 1 + request.length, "in root");
    if (escapes) {
        return;
    }
    CHECK(same_bytes((view){beneath, strict}, (view){other, in_root}), "both joins");
    size_t joined = unix_path_join(root.bytes, root.length, request.bytes, request.length, other,
                                   sizeof other);
    length = unix_path_resolved(other, joined, wanted, sizeof wanted);
    CHECK(same_bytes((view){beneath, strict}, (view){wanted, length}), "resolved join");
}

// Returns true if the root or a `..` is among the components.
static bool has_root_or_parent_dir(view path) {
    unix_path_walk walk = {0, path.length};
    unix_path_part part;
    while (unix_path_next(path.bytes, path.length, &walk, &part)) {
        if (part.kind == UNIX_PATH_ROOT_DIR || part.kind == UNIX_PATH_PARENT_DIR) {
            return true;
        }
    }
    return false;
}

// Checks that a path joined with its relative path to another path resolves to the same as the
// other path, and that there is no relative path if exactly one of the two paths has a root.
static void relative_path_leads(view from, view to) {
    text steps = new_text(), there = new_text(), found = new_text(), wanted = new_text();
    bool is_there = add_two(&steps, unix_path_relative_path, from, to);
    bool roots = unix_path_is_absolute(from.bytes, from.length)
                 == unix_path_is_absolute(to.bytes, to.length);
    CHECK(roots || !is_there, "roots");
    if (is_there) {
        add_two(&there, unix_path_join, from, as_view(&steps));
        add_one(&found, unix_path_resolved, as_view(&there));
        add_one(&wanted, unix_path_resolved, to);
        CHECK(same_bytes(as_view(&found), as_view(&wanted)), "relative path");
    }
    free(steps.bytes);
    free(there.bytes);
    free(found.bytes);
    free(wanted.bytes);
}

static view first_of_pair;

// Checks that the results of the calls on two paths agree with one another.
static void pair_with(view path) {
    view a = fence_in(first_fence, first_of_pair, true), b = fence_in(second_fence, path, true);
    unix_path_span span = no_span;
    bool is_equal = unix_path_equal(a.bytes, a.length, b.bytes, b.length);
    bool starts = unix_path_starts_with(a.bytes, a.length, b.bytes, b.length);
    CHECK(compare(a, b) == -compare(b, a), "order");
    CHECK(is_equal == (compare(a, b) == 0), "equality and order");
    CHECK(!is_equal || hash(a) == hash(b), "hash");
    CHECK(!is_equal || (starts && unix_path_ends_with(a.bytes, a.length, b.bytes, b.length)),
          "equal paths");
    CHECK(unix_path_strip_prefix(a.bytes, a.length, b.bytes, b.length, &span) == starts, "prefix");
    CHECK(starts ? is_inside(a, span) : same_span(span, no_span), "span");
    CHECK(common_dir(a, b) <= a.length && common_dir(a, b) == common_dir(b, a), "common dir");
    text first = new_text(), second = new_text();
    add_one(&first, unix_path_canonical, a);
    add_one(&second, unix_path_canonical, b);
    CHECK(same_bytes(as_view(&first), as_view(&second)) == is_equal, "spelling");
    first.length = second.length = 0;
    if (starts && add_two(&first, unix_path_join, b, view_at(a, span)) && b.length > 0) {
        CHECK(unix_path_equal(first.bytes, first.length, a.bytes, a.length), "rejoined");
    }
    bool escapes = unix_path_escapes(b.bytes, b.length);
    CHECK(add_two(&second, unix_path_join_verbatim, a, b) == !has_root_or_parent_dir(b),
          "root or parent");
    joins_beneath(a, b, escapes);
    relative_path_leads(a, b);
    room_for_two(a, b);
    add_two(&first, unix_path_with_file_name, a, b);
    add_two(&first, unix_path_with_extension, a, b);
    bool has_slash = b.length > 0 && memchr(b.bytes, '/', b.length) != NULL;
    CHECK(add_two(&first, unix_path_with_added_extension, a, b) == !has_slash, "separator");
    free(first.bytes);
    free(second.bytes);
}

static void pairs_of(view path) {
    uint8_t copy[16];
    memcpy(copy, path.bytes, path.length);
    first_of_pair = (view){copy, path.length};
    each_string("/.a", 4, pair_with);
}

static void laws_of_pairs(void) {
    each_string("/.a", 4, pairs_of);
}

int main(void) {
    run("nothing beside a path is read", nothing_beside_is_read);
    run("laws of pairs", laws_of_pairs);
    return finish();
}
