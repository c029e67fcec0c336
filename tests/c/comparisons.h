// The calls that compare two paths or hash one, for views.
#ifndef COMPARISONS_H
#define COMPARISONS_H

#include "text.h"

static inline int32_t compare(view a, view b) {
    return unix_path_compare(a.bytes, a.length, b.bytes, b.length);
}

static inline uint64_t hash(view path) {
    return unix_path_hash(path.bytes, path.length);
}

static inline size_t common_dir(view a, view b) {
    return unix_path_common_dir(a.bytes, a.length, b.bytes, b.length);
}

#endif
