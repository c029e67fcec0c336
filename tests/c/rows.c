// The rows of tests/rows.txt. Each call is made with its paths between pages that can't be read,
// and the row is written again with the answer. If the two rows differ, the row in the file is
// wrong or malformed.
#define _DEFAULT_SOURCE
#include <ctype.h>
#include <inttypes.h>

#include "check.h"
#include "comparisons.h"
#include "records.h"
#include "mixed_walks.h"

// The greatest length of an answer or of a path in a row.
enum { most = 64 };

// A call: its name, the number of its paths, and the function that makes it.
typedef struct {
    const char *name;
    size_t paths;
    void (*ask)(view, view);
} call;

// A call that writes to a buffer.
typedef size_t (*writer)(view, view, uint8_t *, size_t);

// The row that is checked, the same row with the answer that was found, and the memory of paths and
// buffers.
static text row, found;
static fence first_path, second_path, room_of_out;

#define CHECK_ROW(holds) CHECK(holds, "%.*s", (int)row.length, (const char *)row.bytes)

// Adds a field with this spelling.
static void add_field(const char *spelled) {
    add_string(&found, *spelled == '\0' ? " |" : " | ");
    add_string(&found, spelled);
}

// Adds the answer of a query. A hash has no sign, and is written in base 16.
static void add_bool(bool is_true) { add_field(is_true ? "true" : "false"); }

static void add_int32_t(int32_t number) {
    char digits[32];
    snprintf(digits, sizeof digits, "%" PRId32, number);
    add_field(digits);
}

static void add_size_t(size_t number) {
    char digits[32];
    snprintf(digits, sizeof digits, "%zu", number);
    add_field(digits);
}

static void add_uint64_t(uint64_t number) {
    char digits[32];
    snprintf(digits, sizeof digits, "0x%016" PRIx64, number);
    add_field(digits);
}

// Returns true if a byte of a field is spelled verbatim.
static bool is_plain(view bytes, size_t at) {
    uint8_t byte = bytes.bytes[at];
    bool is_at_end = at == 0 || at + 1 == bytes.length;
    return byte >= ' ' && byte <= '~' && byte != '\\' && byte != '|'
           && !(byte == ' ' && is_at_end) && !(byte == '!' && at == 0);
}

static void add_bytes(view bytes) {
    char spelled[4 * most + 1] = "", *end = spelled;
    CHECK_ROW(bytes.length <= most);
    for (size_t at = 0; at < bytes.length && at < most; at++) {
        uint8_t byte = bytes.bytes[at];
        const char *form = is_plain(bytes, at) ? "%c" : byte == '\\' ? "\\%c" : "\\x%02X";
        end += snprintf(end, 5, form, byte);
    }
    add_field(spelled);
}

// Adds a span in the path. If there is none, adds `!none`, and checks that nothing was written.
static void add_span(view path, bool is_there, unix_path_span span) {
    if (!is_there) {
        CHECK_ROW(same_span(span, no_span));
        add_field("!none");
        return;
    }
    CHECK_ROW(is_inside(path, span));
    add_bytes(view_at(path, span));
    add_size_t(span.start);
}

// Adds the order, and checks it against the order of the swapped paths and unix_path_equal.
static void ask_order(view a, view b) {
    int32_t order = compare(a, b);
    add_int32_t(order);
    CHECK_ROW(compare(b, a) == -order);
    CHECK_ROW(unix_path_equal(a.bytes, a.length, b.bytes, b.length) == (order == 0));
}

// Adds the common directory's length, and checks that it is the same for the swapped paths.
static void ask_both_sides(view a, view b) {
    size_t length = common_dir(a, b);
    add_size_t(length);
    CHECK_ROW(common_dir(b, a) == length);
}

static void add_error(const char *name) {
    char word[64] = "!";
    for (size_t at = 0; name[at] != '\0'; at++) {
        word[1 + at] = (char)tolower((unsigned char)name[at]);
    }
    add_field(word);
}

// Adds what the call writes. Checks that it is written to each buffer that is large enough, and
// that nothing is written to a smaller buffer.
static void write_in_each_room(writer write, view a, view b) {
    uint8_t whole[most];
    memset(whole, 0xA5, sizeof whole);
    size_t answer = write(a, b, whole, sizeof whole);
    view wanted = {whole, unix_path_is_length(answer) ? answer : 0};
    CHECK_ROW(wanted.length <= most && is_written(whole, sizeof whole, wanted));
    for (size_t room = 0; room <= most; room++) {
        uint8_t *out = room_of_out.begin + room_of_out.size - room;
        memset(out, 0xA5, room);
        CHECK_ROW(write(a, b, out, room) == answer);
        CHECK_ROW(is_written(out, room, wanted.length <= room ? wanted : view_of("")));
    }
    if (unix_path_is_length(answer)) {
        add_bytes(wanted);
    } else {
        add_error(unix_path_error_name(answer) + strlen("UNIX_PATH_"));
    }
}

static uint32_t kind_of(view part) {
    static const char *const kinds[] = {"/", ".", ".."};
    uint32_t kind = 0;
    while (kind < 3 && !same_bytes(part, view_of(kinds[kind]))) {
        kind++;
    }
    return kind;
}

// Adds the components. Checks that walks from either end and from both ends take them, and checks
// the rest of a new walk.
static void walk_path(view a, view b) {
    (void)b;
    unix_path_walk walk;
    unix_path_part parts[16], part = no_part;
    unix_path_span rest;
    unix_path_components(a.bytes, a.length, &walk);
    unix_path_as_path(a.bytes, a.length, &walk, &rest);
    CHECK_ROW(walk.front == 0 && walk.back == rest.start + rest.length);
    size_t count = take_all(a, walk, parts);
    CHECK_ROW(reaches(rest, parts, count));
    walks_of(a);
    for (size_t at = 0; at < count; at++) {
        view bytes = {a.bytes + parts[at].start, parts[at].length};
        CHECK_ROW(parts[at].kind == kind_of(bytes));
        add_bytes(bytes);
        add_size_t(parts[at].start);
    }
    for (size_t at = count; at > 0; at--) {
        CHECK_ROW(unix_path_next_back(a.bytes, a.length, &walk, &part));
        CHECK_ROW(same_part(part, parts[at - 1]));
    }
    part = no_part;
    CHECK_ROW(!unix_path_next_back(a.bytes, a.length, &walk, &part) && same_part(part, no_part));
}

// Adds the ancestors. Checks that there is no further ancestor once `next` is SIZE_MAX, or if it is
// greater than the path's length.
static void list_ancestors(view a, view b) {
    (void)b;
    size_t next = a.length, past = a.length + 1;
    unix_path_span span;
    while (unix_path_next_ancestor(a.bytes, a.length, &next, &span)) {
        CHECK_ROW(span.start == 0 && is_inside(a, span));
        add_bytes(view_at(a, span));
    }
    span = no_span;
    CHECK_ROW(next == SIZE_MAX && !unix_path_next_ancestor(a.bytes, a.length, &next, &span));
    CHECK_ROW(next == SIZE_MAX && !unix_path_next_ancestor(a.bytes, a.length, &past, &span));
    CHECK_ROW(past == a.length + 1 && same_span(span, no_span));
}

// Adds the chunks. Checks that each begins where the chunk before it ends, and that no chunk begins
// at the path's end or after it.
static void list_chunks(view a, view b) {
    (void)b;
    size_t next = 0, end = 0, past = SIZE_MAX;
    unix_path_chunk chunk;
    while (unix_path_next_chunk(a.bytes, a.length, &next, &chunk)) {
        CHECK_ROW(chunk.start == end && next <= a.length);
        add_bytes((view){a.bytes + end, chunk.valid_length});
        add_bytes((view){a.bytes + end + chunk.valid_length, chunk.broken_length});
        end += chunk.valid_length + chunk.broken_length;
        CHECK_ROW(next == end);
    }
    chunk = no_chunk;
    CHECK_ROW(next == a.length && !unix_path_next_chunk(a.bytes, a.length, &next, &chunk));
    CHECK_ROW(next == a.length && !unix_path_next_chunk(a.bytes, a.length, &past, &chunk));
    CHECK_ROW(past == SIZE_MAX && same_chunk(chunk, no_chunk));
}

// One macro for each shape of call, by the shapes of tools/calls. It defines `ask_NAME`,
// which makes the call and adds its result. ../calls.inc uses it for each call of the shape.
#define FIND(name)                                                                                 \
    static void ask_##name(view a, view b) {                                                       \
        (void)b;                                                                                   \
        unix_path_span span = no_span;                                                             \
        bool is_there = unix_path_##name(a.bytes, a.length, &span);                                \
        add_span(a, is_there, span);                                                               \
    }
#define FIND_OF_TWO(name)                                                                          \
    static void ask_##name(view a, view b) {                                                       \
        unix_path_span span = no_span;                                                             \
        bool is_there = unix_path_##name(a.bytes, a.length, b.bytes, b.length, &span);             \
        add_span(a, is_there, span);                                                               \
    }
#define ASK(answer, name)                                                                          \
    static void ask_##name(view a, view b) {                                                       \
        (void)b;                                                                                   \
        add_##answer(unix_path_##name(a.bytes, a.length));                                         \
    }
#define ASK_TWO(answer, name)                                                                      \
    static void ask_##name(view a, view b) {                                                       \
        add_##answer(unix_path_##name(a.bytes, a.length, b.bytes, b.length));                      \
    }
#define MAKE(name)                                                                                 \
    static size_t write_##name(view a, view b, uint8_t *out, size_t room) {                        \
        (void)b;                                                                                   \
        return unix_path_##name(a.bytes, a.length, out, room);                                     \
    }                                                                                              \
    static void ask_##name(view a, view b) { write_in_each_room(write_##name, a, b); }
#define MAKE_OF_TWO(name)                                                                          \
    static size_t write_##name(view a, view b, uint8_t *out, size_t room) {                        \
        return unix_path_##name(a.bytes, a.length, b.bytes, b.length, out, room);                  \
    }                                                                                              \
    static void ask_##name(view a, view b) { write_in_each_room(write_##name, a, b); }
#include "../calls.inc"

// Joins the request beneath the root. The error code has to agree with unix_path_check_request.
static void join_beneath(view a, view b) {
    size_t answer = write_join_beneath(a, b, room_of_out.begin, 0);
    bool escapes = answer == UNIX_PATH_ESCAPES;
    int32_t reason = unix_path_is_absolute(b.bytes, b.length) ? 1 : 2;
    CHECK_ROW(unix_path_escapes(b.bytes, b.length) == escapes);
    CHECK_ROW(unix_path_check_request(b.bytes, b.length)
              == (escapes ? reason : answer == UNIX_PATH_NUL_IN_REQUEST ? 3 : 0));
    ask_join_beneath(a, b);
}

// Joins the request as in a chroot. A request that is joined is the root itself if and only if the
// join is the root's bytes.
static void join_in_root(view a, view b) {
    size_t answer = write_join_in_root(a, b, room_of_out.begin, 0);
    CHECK_ROW(!unix_path_is_length(answer)
              || unix_path_request_is_root(b.bytes, b.length) == (answer == a.length));
    ask_join_in_root(a, b);
}

// The calls with further checks, followed by all calls.
static const call calls[] = {
    {"compare", 2, ask_order},
    {"common_dir", 2, ask_both_sides},
    {"join_beneath", 2, join_beneath},
    {"join_in_root", 2, join_in_root},
#define BEGIN(name) {#name, 1, walk_path},
#define NEXT_SPAN(name) {#name, 1, list_ancestors},
#define NEXT_CHUNK(name) {#name, 1, list_chunks},
#define FIND(name) {#name, 1, ask_##name},
#define FIND_OF_TWO(name) {#name, 2, ask_##name},
#define ASK(answer, name) {#name, 1, ask_##name},
#define ASK_TWO(answer, name) {#name, 2, ask_##name},
#define MAKE(name) {#name, 1, ask_##name},
#define MAKE_OF_TWO(name) {#name, 2, ask_##name},
#include "../calls.inc"
};

// Returns the bytes of a field, at one end of the memory.
static view unescaped(view field, fence around, bool at_end) {
    uint8_t bytes[most];
    size_t length = 0;
    for (size_t at = 0; at < field.length && length < most; at++) {
        char digits[3] = "";
        bool is_code = field.length - at >= 4 && memcmp(field.bytes + at, "\\x", 2) == 0;
        if (is_code) {
            memcpy(digits, field.bytes + at + 2, 2);
        }
        at += is_code ? 3 : field.bytes[at] == '\\' && at + 1 < field.length;
        bytes[length++] = is_code ? (uint8_t)strtoul(digits, NULL, 16) : field.bytes[at];
    }
    return fence_in(around, (view){bytes, length}, at_end);
}

static const call *call_of(view name) {
    for (size_t at = 0; at < sizeof calls / sizeof *calls; at++) {
        if (same_bytes(name, view_of(calls[at].name))) {
            return &calls[at];
        }
    }
    return NULL;
}

// Makes the call of the row with its paths at one end of the memory.
static void ask_row(bool at_end) {
    view left = as_view(&row), paths[2] = {{row.bytes, 0}, {row.bytes, 0}};
    const call *it = call_of(take_field(&left));
    CHECK_ROW(it != NULL);
    if (it == NULL) {
        return;
    }
    found.length = 0;
    add_string(&found, it->name);
    for (size_t at = 0; at < it->paths; at++) {
        paths[at] = unescaped(take_field(&left), at == 0 ? first_path : second_path, at_end);
        add_bytes(paths[at]);
    }
    it->ask(paths[0], paths[1]);
    CHECK(same_bytes(as_view(&row), as_view(&found)), "%.*s, and not %.*s", (int)found.length,
          (const char *)found.bytes, (int)row.length, (const char *)row.bytes);
}

static size_t row_count;

static void ask_rows(void) {
    FILE *file = fopen("tests/rows.txt", "r");
    char line[1024];
    CHECK(file != NULL, "tests/rows.txt");
    while (file != NULL && fgets(line, sizeof line, file) != NULL) {
        if (line[0] != '#' && line[0] != '\n') {
            row.length = 0;
            add(&row, (view){(const uint8_t *)line, strcspn(line, "\n")});
            ask_row(false);
            ask_row(true);
            row_count++;
        }
    }
    CHECK(file != NULL && !ferror(file) && fclose(file) == 0, "tests/rows.txt");
}

int main(void) {
    row = new_text(), found = new_text();
    first_path = new_fence(), second_path = new_fence(), room_of_out = new_fence();
    run("rows", ask_rows);
    printf("%zu rows, 0 left out\n", row_count);
    free(row.bytes);
    free(found.bytes);
    return finish();
}
