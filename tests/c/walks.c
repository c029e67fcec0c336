// Walks from both ends, and walks from records that no call wrote.
#define _DEFAULT_SOURCE
#include "check.h"
#include "records.h"
#include "mixed_walks.h"

static void walks_from_both_ends(void) {
    each_string("/.a", 6, walks_of);
}

// Checks that a walk has ended if its indices aren't in order or aren't in the path, and that no
// call changes it.
static void absurd_walks(void) {
    static const size_t values[] = {0, 1, 2, 3, 4, 5, SIZE_MAX / 2, SIZE_MAX / 2 + 1,
                                    SIZE_MAX - 1, SIZE_MAX};
    size_t count = sizeof values / sizeof *values;
    view path = view_of("a/b");
    for (size_t at = 0; at < count * count; at++) {
        unix_path_walk walk = {values[at / count], values[at % count]}, before = walk;
        unix_path_part part = no_part;
        unix_path_span span = no_span;
        unix_path_as_path(path.bytes, path.length, &walk, &span);
        CHECK(is_inside(path, span), "%zu, %zu", before.front, before.back);
        if (walk.front < walk.back && walk.back <= path.length) {
            continue;
        }
        CHECK(span.length == 0, "%zu, %zu", before.front, before.back);
        CHECK(!unix_path_next(path.bytes, path.length, &walk, &part), "%zu", at);
        CHECK(!unix_path_next_back(path.bytes, path.length, &walk, &part), "%zu", at);
        CHECK(same_part(part, no_part), "%zu, %zu", before.front, before.back);
        CHECK(walk.front == before.front && walk.back == before.back, "%zu", at);
    }
}

// Checks that there is no ancestor and no chunk after the path's end, and that no call changes a
// length or index that is so great.
static void absurd_cursors(void) {
    static const size_t values[] = {4, 5, SIZE_MAX / 2, SIZE_MAX - 1, SIZE_MAX};
    view path = view_of("a/b");
    for (size_t at = 0; at < sizeof values / sizeof *values; at++) {
        size_t next = values[at];
        unix_path_span span = no_span;
        unix_path_chunk chunk = no_chunk;
        CHECK(!unix_path_next_ancestor(path.bytes, path.length, &next, &span), "%zu", at);
        CHECK(!unix_path_next_chunk(path.bytes, path.length, &next, &chunk), "%zu", at);
        CHECK(same_span(span, no_span) && same_chunk(chunk, no_chunk), "%zu", at);
        CHECK(next == values[at], "%zu", at);
    }
}

// Cuts the bytes between these indices at every slash, writes the components to `parts`, and
// returns their number. The test compares walks with this naive reading.
static size_t cut_at_slashes(view path, size_t front, size_t back, unix_path_part *parts) {
    size_t count = 0;
    for (size_t start = front, end; start <= back; start = end + 1) {
        end = start;
        while (end < back && path.bytes[end] != '/') {
            end++;
        }
        unix_path_part part = {start, end - start, UNIX_PATH_NORMAL};
        if (start == front && start == end && end < back) {
            part = (unix_path_part){start, 1, UNIX_PATH_ROOT_DIR};
        } else if (end - start == 1 && path.bytes[start] == '.') {
            part = (unix_path_part){start, start == front, UNIX_PATH_CUR_DIR};
        } else if (end - start == 2 && memcmp(path.bytes + start, "..", 2) == 0) {
            part.kind = UNIX_PATH_PARENT_DIR;
        }
        if (part.length > 0) {
            parts[count++] = part;
        }
    }
    return count;
}

// Checks that any two indices in order inside the path are a walk over the bytes between them, from
// either end.
static void walks_between(view path) {
    for (size_t back = 0; back <= path.length; back++) {
        for (size_t front = 0; front <= back; front++) {
            unix_path_walk walk = {front, back};
            unix_path_span rest = no_span;
            unix_path_part part, parts[16], wanted[16];
            size_t count = cut_at_slashes(path, front, back, wanted);
            CHECK(take_all(path, walk, parts) == count, "%zu, %zu", front, back);
            unix_path_as_path(path.bytes, path.length, &walk, &rest);
            CHECK(is_inside(path, rest) && reaches(rest, wanted, count), "%zu, %zu", front, back);
            for (size_t at = 0; at < count; at++) {
                CHECK(same_part(parts[at], wanted[at]), "%zu, %zu", front, back);
                CHECK(unix_path_next_back(path.bytes, path.length, &walk, &part)
                      && same_part(part, wanted[count - 1 - at]), "%zu, %zu", front, back);
            }
            CHECK(!unix_path_next_back(path.bytes, path.length, &walk, &part), "%zu", front);
        }
    }
}

static void any_walks(void) {
    view path = view_of("a/b");
    unix_path_part parts[16];
    CHECK(take_all(path, (unix_path_walk){1, 3}, parts) == 2, "the root and a name");
    CHECK(same_part(parts[0], (unix_path_part){1, 1, UNIX_PATH_ROOT_DIR}), "the root");
    CHECK(same_part(parts[1], (unix_path_part){2, 1, UNIX_PATH_NORMAL}), "a name");
    walks_between(view_of("/a/./..//b"));
    each_string("/.a", 5, walks_between);
}

int main(void) {
    run("walks from both ends", walks_from_both_ends);
    run("walks with absurd places", absurd_walks);
    run("walks with any places", any_walks);
    run("ancestors and chunks past the end", absurd_cursors);
    return finish();
}
