// Each call with a null pointer for the empty path, and for a buffer of no bytes. Each call has to
// return what it returns for an empty path whose pointer isn't null.
#define _DEFAULT_SOURCE
#include "../passed_on.h"
#include "check.h"
#include "comparisons.h"
#include "records.h"

static const view none = {NULL, 0};
static const char *const others[] = {"", "/", "a.b", "x//y.tar/.", "../a", "./b"};
static const size_t other_count = sizeof others / sizeof *others;

// Compares each function of the header with the library's call, to which it passes its arguments.
static void each_function(void) {
    CHECK(wrong_functions(NULL, 0, NULL, 0, 64) == 0, "nothing");
    CHECK(wrong_functions(NULL, 0, NULL, 0, 0) == 0, "nothing, without room");
    for (size_t at = 0; at < other_count; at++) {
        view path = view_of(others[at]);
        CHECK(wrong_functions(path.bytes, path.length, NULL, 0, 64) == 0, "row %zu", at);
        CHECK(wrong_functions(path.bytes, path.length, NULL, 0, 0) == 0, "row %zu, no room", at);
        CHECK(wrong_functions(NULL, 0, path.bytes, path.length, 64) == 0, "row %zu", at);
        CHECK(wrong_functions(NULL, 0, path.bytes, path.length, 0) == 0, "row %zu, no room", at);
    }
}

static void walks_of_nothing(void) {
    unix_path_walk walk = {1, 2};
    unix_path_part part = no_part;
    unix_path_span span = no_span;
    unix_path_components(NULL, 0, &walk);
    CHECK(walk.front == 0 && walk.back == 0, "%zu, %zu", walk.front, walk.back);
    CHECK(!unix_path_next(NULL, 0, &walk, &part) && same_part(part, no_part), "next");
    CHECK(!unix_path_next_back(NULL, 0, &walk, &part) && same_part(part, no_part), "next back");
    unix_path_as_path(NULL, 0, &walk, &span);
    CHECK(span.start == 0 && span.length == 0, "%zu, %zu", span.start, span.length);
    size_t next = 0;
    unix_path_chunk chunk = no_chunk;
    CHECK(!unix_path_next_chunk(NULL, 0, &next, &chunk) && same_chunk(chunk, no_chunk) && next == 0,
          "chunk");
    CHECK(unix_path_next_ancestor(NULL, 0, &next, &span) && span.length == 0, "ancestor");
    span = no_span;
    CHECK(!unix_path_next_ancestor(NULL, 0, &next, &span) && same_span(span, no_span)
          && next == SIZE_MAX, "no ancestor");
}

static void places_in_nothing(void) {
    static const call_of_place calls[] = {unix_path_parent, unix_path_file_name,
                                          unix_path_file_stem, unix_path_extension,
                                          unix_path_file_prefix};
    for (size_t at = 0; at < sizeof calls / sizeof *calls; at++) {
        unix_path_span span = no_span;
        CHECK(!calls[at](NULL, 0, &span) && same_span(span, no_span), "call %zu", at);
    }
    for (size_t at = 0; at < other_count; at++) {
        view path = view_of(others[at]);
        unix_path_span span = no_span;
        CHECK(unix_path_strip_prefix(path.bytes, path.length, NULL, 0, &span), "row %zu", at);
        CHECK(same_bytes(view_at(path, span), path) || at == 3, "row %zu", at);
        span = no_span;
        CHECK(unix_path_strip_prefix(NULL, 0, path.bytes, path.length, &span) == (at == 0),
              "row %zu", at);
    }
}

static void questions_of_nothing(void) {
    CHECK(hash(none) == hash(view_of("")) && unix_path_is_utf8(NULL, 0), "hash");
    CHECK(unix_path_is_canonical(NULL, 0), "canonical");
    CHECK(!unix_path_is_absolute(NULL, 0) && !unix_path_escapes(NULL, 0), "root");
    CHECK(unix_path_check_request(NULL, 0) == UNIX_PATH_REQUEST_OK, "request");
    for (size_t at = 0; at < other_count; at++) {
        view path = view_of(others[at]);
        CHECK(unix_path_starts_with(path.bytes, path.length, NULL, 0), "row %zu", at);
        CHECK(unix_path_starts_with(NULL, 0, path.bytes, path.length) == (at == 0), "row %zu", at);
        CHECK(unix_path_ends_with(path.bytes, path.length, NULL, 0), "row %zu", at);
        CHECK(unix_path_ends_with(NULL, 0, path.bytes, path.length) == (at == 0), "row %zu", at);
        CHECK(unix_path_equal(NULL, 0, path.bytes, path.length) == (at == 0), "row %zu", at);
        CHECK(compare(none, path) == (at == 0 ? 0 : -1) && compare(path, none) == (at > 0),
              "row %zu", at);
        CHECK(common_dir(none, path) == 0 && common_dir(path, none) == 0, "row %zu", at);
    }
    CHECK(compare(none, none) == 0 && common_dir(none, none) == 0, "both");
}

// Checks that a call writes `wanted` to a buffer, and returns its length also for a null pointer as
// a buffer of no bytes.
static void write_both(call_of_two call, view a, view b, view wanted) {
    uint8_t memory[16];
    memset(memory, 0xA5, sizeof memory);
    CHECK(call(a.bytes, a.length, b.bytes, b.length, memory, sizeof memory) == wanted.length,
          "%zu", wanted.length);
    CHECK(is_written(memory, sizeof memory, wanted), "%zu", wanted.length);
    CHECK(call(a.bytes, a.length, b.bytes, b.length, NULL, 0) == wanted.length, "%zu",
          wanted.length);
}

static void written_of_nothing(void) {
    static const call_of_one calls[] = {unix_path_canonical, unix_path_to_string_lossy,
                                        unix_path_resolved};
    for (size_t at = 0; at < sizeof calls / sizeof *calls; at++) {
        uint8_t memory[2] = {0xA5, 0xA5};
        CHECK(calls[at](NULL, 0, memory, sizeof memory) == 0 && memory[0] == 0xA5, "call %zu", at);
        CHECK(calls[at](NULL, 0, NULL, 0) == 0 && calls[at]("a", 1, NULL, 0) == 1, "call %zu", at);
    }
    view name = view_of("a.b"), nothing = view_of("");
    write_both(unix_path_join, none, none, nothing);
    write_both(unix_path_join, none, name, name);
    write_both(unix_path_join, name, none, view_of("a.b/"));
    write_both(unix_path_with_file_name, none, name, name);
    write_both(unix_path_with_file_name, name, none, nothing);
    write_both(unix_path_with_extension, none, name, nothing);
    write_both(unix_path_with_extension, name, none, view_of("a"));
    write_both(unix_path_with_added_extension, none, name, nothing);
    write_both(unix_path_with_added_extension, name, none, name);
    write_both(unix_path_join_verbatim, none, none, nothing);
    write_both(unix_path_join_verbatim, none, name, name);
    write_both(unix_path_join_verbatim, name, none, view_of("a.b/"));
    write_both(unix_path_relative_path, none, none, nothing);
    write_both(unix_path_relative_path, none, name, name);
    write_both(unix_path_relative_path, name, none, view_of(".."));
    write_both(unix_path_join_beneath, none, none, nothing);
    write_both(unix_path_join_beneath, none, name, name);
    write_both(unix_path_join_beneath, name, none, name);
    write_both(unix_path_join_in_root, none, none, nothing);
    write_both(unix_path_join_in_root, none, name, name);
    write_both(unix_path_join_in_root, name, none, name);
}

// Checks which numbers are lengths and which are error codes.
static void lengths(void) {
    CHECK(unix_path_is_length(0) && unix_path_is_length((size_t)PTRDIFF_MAX), "lengths");
    CHECK(unix_path_is_c_string(NULL, 0) && unix_path_is_c_string("a/b", 3), "strings");
    CHECK(!unix_path_is_c_string("a/b", 4) && !unix_path_is_c_string("", 1), "strings");
    CHECK(UNIX_PATH_TOO_LONG == (size_t)PTRDIFF_MAX + 1, "one byte more than a buffer has");
    CHECK(!unix_path_is_length(UNIX_PATH_TOO_LONG), "no buffer");
    CHECK(!unix_path_is_length(UNIX_PATH_SEPARATOR) && !unix_path_is_length(UNIX_PATH_ESCAPES),
          "errors");
    CHECK(!unix_path_is_length(UNIX_PATH_NUL_IN_REQUEST), "errors");
    CHECK(!unix_path_is_length(UNIX_PATH_NO_RELATIVE_PATH), "errors");
    CHECK(unix_path_error_name(0) == NULL, "names");
    CHECK(unix_path_error_name((size_t)PTRDIFF_MAX) == NULL, "names");
    CHECK(strcmp(unix_path_error_name(UNIX_PATH_TOO_LONG), "UNIX_PATH_TOO_LONG") == 0, "names");
    CHECK(strcmp(unix_path_error_name(SIZE_MAX), "UNIX_PATH_TOO_LONG") == 0, "no buffer");
    CHECK(strcmp(unix_path_error_name(UNIX_PATH_SEPARATOR), "UNIX_PATH_SEPARATOR") == 0, "names");
    CHECK(strcmp(unix_path_error_name(UNIX_PATH_ESCAPES), "UNIX_PATH_ESCAPES") == 0, "names");
    CHECK(strcmp(unix_path_error_name(UNIX_PATH_NUL_IN_REQUEST), "UNIX_PATH_NUL_IN_REQUEST") == 0,
          "names");
    CHECK(strcmp(unix_path_error_name(UNIX_PATH_NOT_A_KEY), "UNIX_PATH_NOT_A_KEY") == 0, "names");
    CHECK(strcmp(unix_path_error_name(UNIX_PATH_NO_END), "UNIX_PATH_NO_END") == 0, "names");
    CHECK(strcmp(unix_path_error_name(UNIX_PATH_NO_RELATIVE_PATH), "UNIX_PATH_NO_RELATIVE_PATH")
              == 0, "names");
    char version[16];
    snprintf(version, sizeof version, "%d.%d", UNIX_PATH_VERSION_MAJOR, UNIX_PATH_VERSION_MINOR);
    CHECK(strcmp(version, UNIX_PATH_VERSION) == 0, "version %s", version);
    int number = UNIX_PATH_VERSION_MAJOR * 65536 + UNIX_PATH_VERSION_MINOR * 256;
    CHECK(UNIX_PATH_VERSION_NUMBER == number, "number");
    CHECK(unix_path_version() == UNIX_PATH_VERSION_NUMBER, "version");
}

int main(void) {
    run("each function", each_function);
    run("walks of nothing", walks_of_nothing);
    run("places in nothing", places_in_nothing);
    run("questions of nothing", questions_of_nothing);
    run("written of nothing", written_of_nothing);
    run("lengths", lengths);
    return finish();
}
