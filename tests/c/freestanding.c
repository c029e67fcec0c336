// A program that uses the archive without the C library. It has its own entry point, and defines
// only the four functions that the archive needs. Its exit status is the number of wrong answers.
#include "unix_path.h"

void *memcpy(void *to, const void *from, size_t size);
void *memmove(void *to, const void *from, size_t size);
void *memset(void *to, int value, size_t size);
int memcmp(const void *a, const void *b, size_t size);
int wrong_answers(void);

// The system starts the program here. Calls wrong_answers, and exits with what it returns.
__asm__(".globl _start\n"
        "_start:\n"
        "    call wrong_answers\n"
        "    mov %eax, %edi\n"
        "    mov $60, %eax\n"
        "    syscall\n");

// Bytes that a compiler does not copy, fill or compare by calling one of the functions below.
typedef volatile unsigned char byte;

void *memcpy(void *to, const void *from, size_t size) {
    for (size_t at = 0; at < size; at++) {
        ((byte *)to)[at] = ((const byte *)from)[at];
    }
    return to;
}

void *memmove(void *to, const void *from, size_t size) {
    if ((uintptr_t)to <= (uintptr_t)from) {
        return memcpy(to, from, size);
    }
    for (size_t at = size; at > 0; at--) {
        ((byte *)to)[at - 1] = ((const byte *)from)[at - 1];
    }
    return to;
}

void *memset(void *to, int value, size_t size) {
    for (size_t at = 0; at < size; at++) {
        ((byte *)to)[at] = (unsigned char)value;
    }
    return to;
}

int memcmp(const void *a, const void *b, size_t size) {
    for (size_t at = 0; at < size; at++) {
        int difference = ((const byte *)a)[at] - ((const byte *)b)[at];
        if (difference != 0) {
            return difference;
        }
    }
    return 0;
}

static size_t length_of(const char *text) {
    size_t length = 0;
    while (text[length] != '\0') {
        length++;
    }
    return length;
}

// Returns true if the bytes are the text's.
static bool is_text(const char *bytes, size_t length, const char *text) {
    return length == length_of(text) && memcmp(bytes, text, length) == 0;
}

static bool resolves(const char *path, const char *wanted) {
    char out[64];
    return is_text(out, unix_path_resolved(path, length_of(path), out, sizeof out), wanted);
}

static bool leads(const char *from, const char *to, const char *wanted) {
    char out[64];
    size_t length =
        unix_path_relative_path(from, length_of(from), to, length_of(to), out, sizeof out);
    return is_text(out, length, wanted);
}

static bool joins(const char *root, const char *request, const char *wanted) {
    char out[64];
    size_t length = unix_path_join_beneath(root, length_of(root), request, length_of(request), out,
                                           sizeof out);
    return is_text(out, length, wanted);
}

// Returns true if the key of `path` is read back as `wanted`, the canonical form of `path`.
static bool is_read_back(const char *path, const char *wanted) {
    char key[64], out[64];
    size_t length = unix_path_key(path, length_of(path), key, sizeof key);
    return is_text(out, unix_path_from_key(key, length, out, sizeof out), wanted);
}

// Returns true if two paths compare as equal and have the same hash.
static bool are_equal(const char *a, const char *b) {
    size_t a_length = length_of(a), b_length = length_of(b);
    return unix_path_compare(a, a_length, b, b_length) == 0
           && unix_path_hash(a, a_length) == unix_path_hash(b, b_length);
}

static bool is_named(const char *path, const char *wanted) {
    unix_path_span span;
    return unix_path_file_name(path, length_of(path), &span)
           && is_text(path + span.start, span.length, wanted);
}

int wrong_answers(void) {
    const char *long_path = "/a/directory/that/has/more/bytes/than/a/lane/b/c";
    return !resolves("a/../..//b/.", "../b") + !resolves("/../a", "/a")
           + !leads(long_path, "/a/directory/that/has/more/bytes/than/a/lane/d", "../../d")
           + !leads("a", "", "..") + !joins("/srv", "a/../b/", "/srv/b")
           + !is_read_back("/srv//www/./index.html", "/srv/www/index.html")
           + !are_equal("a/./b//", "a/b") + are_equal("./a", "a")
           + !is_named("/srv/www//index.html/.", "index.html");
}
