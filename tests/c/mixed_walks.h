// Walks that take components from both ends, compared with the list of all components.
#ifndef MIXED_WALKS_H
#define MIXED_WALKS_H

#include "check.h"
#include "records.h"

// Writes all components of a walk to `parts`, which must have space for them. Returns their number.
static inline size_t take_all(view path, unix_path_walk walk, unix_path_part *parts) {
    size_t count = 0;
    while (count < 16 && unix_path_next(path.bytes, path.length, &walk, &parts[count])) {
        count++;
    }
    return count;
}

// Returns true if the span reaches from the first of these components to the last, or if it is
// empty and there are none.
static inline bool reaches(unix_path_span span, const unix_path_part *parts, size_t count) {
    if (count == 0) {
        return span.length == 0;
    }
    unix_path_part last = parts[count - 1];
    return span.start == parts[0].start
           && span.start + span.length == last.start + last.length;
}

// Takes four components: from the front for each bit of `turns` that is 1, and from the back for
// each bit that is 0. Checks that the components taken from the front, those of the rest, and those
// taken from the back are together the path's components.
static inline void walk_by(view path, unsigned turns, const unix_path_part *parts, size_t count) {
    size_t front = 0, behind = count;
    unix_path_walk walk, fresh;
    unix_path_part part;
    unix_path_span rest = no_span;
    unix_path_components(path.bytes, path.length, &walk);
    for (unsigned at = 0; at < 4; at++) {
        bool is_front = (turns >> at & 1) == 1;
        bool is_there = (is_front ? unix_path_next : unix_path_next_back)(path.bytes, path.length,
                                                                         &walk, &part);
        CHECK(is_there == (front < behind), "turns %u", turns);
        if (is_there) {
            CHECK(same_part(part, parts[is_front ? front++ : --behind]), "turns %u", turns);
        }
    }
    unix_path_as_path(path.bytes, path.length, &walk, &rest);
    CHECK(is_inside(path, rest), "turns %u", turns);
    view left = view_at(path, rest);
    unix_path_part again[16];
    unix_path_components(left.bytes, left.length, &fresh);
    CHECK(take_all(left, fresh, again) == behind - front, "turns %u", turns);
    for (size_t at = front; at < behind; at++) {
        again[at - front].start += rest.start;
        CHECK(same_part(again[at - front], parts[at]), "turns %u", turns);
    }
    CHECK(reaches(rest, parts + front, behind - front), "turns %u", turns);
}

static inline void walks_of(view path) {
    unix_path_walk walk;
    unix_path_part parts[16];
    unix_path_components(path.bytes, path.length, &walk);
    CHECK(walk.front <= walk.back && walk.back <= path.length, "places of a fresh walk");
    size_t count = take_all(path, walk, parts);
    for (unsigned turns = 0; turns < 16; turns++) {
        walk_by(path, turns, parts, count);
    }
}

#endif
