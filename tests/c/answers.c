// Answers to queries about paths, and paths made from other paths.
#include "answers.h"

#include "comparisons.h"

// Adds an item to a list.
static void add_item(request *line, view item) {
    if (line->has_item) {
        add_string(line->answer, "\t");
    }
    add(line->answer, item);
    line->has_item = true;
}

static view part_at(view path, unix_path_part part) {
    return (view){path.bytes + part.start, part.length};
}

// Adds the components of the path, in the order in which the call returns them.
static bool add_parts(request *line, call_of_step call) {
    view path = line->fields[0];
    unix_path_walk walk;
    unix_path_part part;
    unix_path_components(path.bytes, path.length, &walk);
    while (call(path.bytes, path.length, &walk, &part)) {
        add_item(line, part_at(path, part));
    }
    return true;
}

bool answer_parts(request *line) {
    return add_parts(line, unix_path_next);
}

bool answer_back(request *line) {
    return add_parts(line, unix_path_next_back);
}

bool answer_ancestors(request *line) {
    view path = line->fields[0];
    size_t next = path.length;
    unix_path_span ancestor;
    while (unix_path_next_ancestor(path.bytes, path.length, &next, &ancestor)) {
        add_item(line, view_at(path, ancestor));
    }
    return true;
}

// Takes a component for each turn. Adds the components that the turns with the letter `wanted`
// take, and returns their number.
static size_t take(request *line, view path, view turns, uint8_t wanted, unix_path_walk *walk) {
    size_t count = 0;
    unix_path_part part;
    unix_path_components(path.bytes, path.length, walk);
    for (size_t at = 0; at < turns.length; at++) {
        bool is_front = turns.bytes[at] == 'f';
        bool is_part = (is_front ? unix_path_next : unix_path_next_back)(path.bytes, path.length,
                                                                         walk, &part);
        if (is_part && turns.bytes[at] == wanted) {
            add_item(line, part_at(path, part));
            count++;
        }
    }
    return count;
}

static bool are_turns(view turns) {
    for (size_t at = 0; at < turns.length; at++) {
        if (turns.bytes[at] != 'f' && turns.bytes[at] != 'b') {
            return false;
        }
    }
    return true;
}

bool answer_walk(request *line) {
    view path = line->fields[0], turns = line->fields[1];
    if (!are_turns(turns)) {
        return false;
    }
    text front_items = new_text(), behind_items = new_text();
    request front = {NULL, 0, &front_items, true}, behind = {NULL, 0, &behind_items, true};
    unix_path_walk walk;
    unix_path_span rest;
    size_t front_count = take(&front, path, turns, 'f', &walk);
    size_t behind_count = take(&behind, path, turns, 'b', &walk);
    unix_path_as_path(path.bytes, path.length, &walk, &rest);
    char counts[64];
    snprintf(counts, sizeof counts, "%zu\t%zu", front_count, behind_count);
    add_item(line, view_of(counts));
    if (front_count > 0) {
        add(line->answer, as_view(&front_items));
    }
    add_item(line, view_at(path, rest));
    if (behind_count > 0) {
        add(line->answer, as_view(&behind_items));
    }
    free(front_items.bytes);
    free(behind_items.bytes);
    return true;
}

static bool add_span(request *line, call_of_place call) {
    view path = line->fields[0];
    unix_path_span span;
    if (call(path.bytes, path.length, &span)) {
        add_string(line->answer, "+");
        add(line->answer, view_at(path, span));
    } else {
        add_string(line->answer, "-");
    }
    return true;
}

bool answer_parent(request *line) {
    return add_span(line, unix_path_parent);
}

bool answer_name(request *line) {
    return add_span(line, unix_path_file_name);
}

bool answer_stem(request *line) {
    return add_span(line, unix_path_file_stem);
}

bool answer_ext(request *line) {
    return add_span(line, unix_path_extension);
}

bool answer_strip(request *line) {
    view path = line->fields[0], base = line->fields[1];
    unix_path_span span;
    if (unix_path_strip_prefix(path.bytes, path.length, base.bytes, base.length, &span)) {
        add_string(line->answer, "+");
        add(line->answer, view_at(path, span));
    } else {
        add_string(line->answer, "prefix not found");
    }
    return true;
}

static bool add_relation(request *line, call_of_relation call) {
    view a = line->fields[0], b = line->fields[1];
    bool is_true = call(a.bytes, a.length, b.bytes, b.length);
    add_string(line->answer, is_true ? "true" : "false");
    return true;
}

bool answer_starts(request *line) {
    return add_relation(line, unix_path_starts_with);
}

bool answer_ends(request *line) {
    return add_relation(line, unix_path_ends_with);
}

bool answer_canon(request *line) {
    add_one(line->answer, unix_path_canonical, line->fields[0]);
    return true;
}

bool answer_show(request *line) {
    add_one(line->answer, unix_path_to_string_lossy, line->fields[0]);
    return true;
}

bool answer_join(request *line) {
    return add_two(line->answer, unix_path_join, line->fields[0], line->fields[1]);
}

bool answer_cmp(request *line) {
    static const char *names[] = {"less", "equal", "greater"};
    add_string(line->answer, names[1 + compare(line->fields[0], line->fields[1])]);
    return true;
}

// Returns the order of two views, for qsort.
static int compare_views(const void *first, const void *second) {
    return compare(*(const view *)first, *(const view *)second);
}

static bool is_equal(view a, view b) {
    return unix_path_equal(a.bytes, a.length, b.bytes, b.length);
}

bool answer_under(request *line) {
    view base = line->fields[0], *paths = line->fields + 1;
    size_t count = line->count - 1;
    qsort(paths, count, sizeof *paths, compare_views);
    for (size_t at = 0; at < count; at++) {
        unix_path_span rest;
        bool is_first = at == 0 || !is_equal(paths[at - 1], paths[at]);
        if (is_first && unix_path_strip_prefix(paths[at].bytes, paths[at].length, base.bytes,
                                               base.length, &rest)) {
            text spelling = new_text();
            add_one(&spelling, unix_path_canonical, view_at(paths[at], rest));
            add_item(line, as_view(&spelling));
            free(spelling.bytes);
        }
    }
    return true;
}

// Adds a byte as it is spelled in a JSON string.
static void add_escaped(text *answer, uint8_t byte) {
    static const char letters[] = "\"\"\\\\\bb\ff\rr\nn\tt";
    char escaped[8] = {(char)byte, 0};
    const char *letter = byte == 0 ? NULL : strchr(letters, byte);
    if (letter != NULL && (letter - letters) % 2 == 0) {
        snprintf(escaped, sizeof escaped, "\\%c", letter[1]);
    } else if (byte < 0x20) {
        snprintf(escaped, sizeof escaped, "\\u%04x", (unsigned)byte);
    }
    add_string(answer, escaped);
}

bool answer_json(request *line) {
    view path = line->fields[0];
    if (!unix_path_is_utf8(path.bytes, path.length)) {
        add_string(line->answer, "path contains invalid UTF-8 characters");
        return true;
    }
    add_string(line->answer, "\"");
    for (size_t at = 0; at < path.length; at++) {
        add_escaped(line->answer, path.bytes[at]);
    }
    add_string(line->answer, "\"");
    return true;
}
