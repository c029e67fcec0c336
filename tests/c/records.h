// The records that calls write, and comparisons of them.
#ifndef RECORDS_H
#define RECORDS_H

#include "text.h"

// Records that no call writes, so that they show whether a record was written.
static const unix_path_span no_span = {SIZE_MAX, SIZE_MAX - 1};
static const unix_path_part no_part = {SIZE_MAX, SIZE_MAX - 1, UINT32_MAX};

static inline bool same_span(unix_path_span a, unix_path_span b) {
    return a.start == b.start && a.length == b.length;
}

static inline bool same_part(unix_path_part a, unix_path_part b) {
    return a.start == b.start && a.length == b.length && a.kind == b.kind;
}

static const unix_path_chunk no_chunk = {SIZE_MAX, SIZE_MAX - 1, SIZE_MAX - 2};

static inline bool same_chunk(unix_path_chunk a, unix_path_chunk b) {
    return a.start == b.start && a.valid_length == b.valid_length
           && a.broken_length == b.broken_length;
}

static inline bool is_inside(view path, unix_path_span span) {
    return span.start <= path.length && span.length <= path.length - span.start;
}

#endif
