// Byte buffers that can grow, and the types of the library's calls.
#ifndef TEXT_H
#define TEXT_H

#include <stdio.h>
#include <stdlib.h>
#include <string.h>

#include "unix_path.h"

// Bytes that nothing here changes.
typedef struct {
    const uint8_t *bytes;
    size_t length;
} view;

// Bytes that can grow. `room` is the buffer's size.
typedef struct {
    uint8_t *bytes;
    size_t length, room;
} text;

// A call that takes a component from a walk.
typedef bool (*call_of_step)(const void *, size_t, unix_path_walk *, unix_path_part *);
// A call that finds a span in a path.
typedef bool (*call_of_place)(const void *, size_t, unix_path_span *);
// A query about two paths.
typedef bool (*call_of_relation)(const void *, size_t, const void *, size_t);
// Calls that write their result to a buffer, for one path and for two.
typedef size_t (*call_of_one)(const void *, size_t, void *, size_t);
typedef size_t (*call_of_two)(const void *, size_t, const void *, size_t, void *, size_t);

static inline view view_of(const char *string) {
    return (view){(const uint8_t *)string, strlen(string)};
}

static inline view view_at(view path, unix_path_span span) {
    return (view){path.bytes + span.start, span.length};
}

static inline view as_view(const text *buffer) {
    return (view){buffer->bytes, buffer->length};
}

static inline bool same_bytes(view a, view b) {
    return a.length == b.length && memcmp(a.bytes, b.bytes, a.length) == 0;
}

// Cuts off the field up to the next `|`, without the spaces around it.
static inline view take_field(view *left) {
    const uint8_t *bar = memchr(left->bytes, '|', left->length);
    size_t length = bar == NULL ? left->length : (size_t)(bar - left->bytes);
    view field = {left->bytes, length};
    size_t taken = bar == NULL ? length : length + 1;
    *left = (view){left->bytes + taken, left->length - taken};
    while (field.length > 0 && field.bytes[0] == ' ') {
        field = (view){field.bytes + 1, field.length - 1};
    }
    while (field.length > 0 && field.bytes[field.length - 1] == ' ') {
        field.length--;
    }
    return field;
}

// Enlarges the buffer to at least `room` bytes.
static inline void make_room(text *buffer, size_t room) {
    if (buffer->bytes != NULL && buffer->room >= room) {
        return;
    }
    buffer->room = room < 16 ? 16 : 2 * room;
    buffer->bytes = realloc(buffer->bytes, buffer->room);
    if (buffer->bytes == NULL) {
        fputs("out of memory\n", stderr);
        exit(1);
    }
}

static inline void add(text *buffer, view bytes) {
    make_room(buffer, buffer->length + bytes.length);
    memcpy(buffer->bytes + buffer->length, bytes.bytes, bytes.length);
    buffer->length += bytes.length;
}

static inline void add_string(text *buffer, const char *string) {
    add(buffer, view_of(string));
}

// Returns an empty buffer of some size, so that its pointer isn't null.
static inline text new_text(void) {
    text none = {NULL, 0, 0};
    make_room(&none, 0);
    return none;
}

static inline text copy_of(view bytes) {
    text copy = new_text();
    add(&copy, bytes);
    return copy;
}

// Adds what a call writes. If the buffer's spare bytes are too few, enlarges the buffer and makes
// the call again.
static inline void add_one(text *buffer, call_of_one call, view path) {
    size_t room = buffer->room - buffer->length;
    size_t length = call(path.bytes, path.length, buffer->bytes + buffer->length, room);
    if (length > room) {
        make_room(buffer, buffer->length + length);
        call(path.bytes, path.length, buffer->bytes + buffer->length, length);
    }
    buffer->length += length;
}

// Adds what a call of two paths writes, as add_one does for one path. If the call returns an error
// code, adds nothing and returns false.
static inline bool add_two(text *buffer, call_of_two call, view a, view b) {
    size_t room = buffer->room - buffer->length;
    uint8_t *end = buffer->bytes + buffer->length;
    size_t length = call(a.bytes, a.length, b.bytes, b.length, end, room);
    if (!unix_path_is_length(length)) {
        return false;
    }
    if (length > room) {
        make_room(buffer, buffer->length + length);
        call(a.bytes, a.length, b.bytes, b.length, buffer->bytes + buffer->length, length);
    }
    buffer->length += length;
    return true;
}

#endif
