// Checks that are counted, memory between pages that can't be read, and comparisons of what a call
// wrote.
#ifndef CHECK_H
#define CHECK_H

#include <stdio.h>
#include <string.h>
#ifdef _WIN32
#include <windows.h>
#else
#include <sys/mman.h>
#endif

#include "text.h"

// The number of failed checks in the running test, and the numbers of tests that passed and failed.
static size_t wrong_checks, passed_tests, failed_tests;

// Counts a check that doesn't hold, and prints it if it is one of the first few of a test.
#define CHECK(holds, ...)                                                                          \
    do {                                                                                           \
        if (!(holds) && wrong_checks++ < 5) {                                                      \
            printf("%s:%d: " #holds ": ", __FILE__, __LINE__);                                     \
            printf(__VA_ARGS__);                                                                   \
            printf("\n");                                                                          \
        }                                                                                          \
    } while (0)

// Runs a test, and prints whether all its checks held.
static inline void run(const char *name, void (*test)(void)) {
    wrong_checks = 0;
    test();
    passed_tests += wrong_checks == 0;
    failed_tests += wrong_checks != 0;
    printf("%s: %s\n", wrong_checks == 0 ? "passed" : "failed", name);
    fflush(stdout);
}

// Prints how many tests passed and failed, and returns the exit status.
static inline int finish(void) {
    printf("%zu passed, %zu failed\n", passed_tests, failed_tests);
    return failed_tests != 0;
}

// Memory between two pages that can't be read.
typedef struct {
    uint8_t *begin;
    size_t size;
} fence;

// Returns the middle one of three pages, the only one that can be read, or NULL.
static inline uint8_t *new_page(size_t size) {
#ifdef _WIN32
    uint8_t *all = VirtualAlloc(NULL, 3 * size, MEM_RESERVE, PAGE_NOACCESS);
    return all == NULL ? NULL : VirtualAlloc(all + size, size, MEM_COMMIT, PAGE_READWRITE);
#else
    uint8_t *all = mmap(NULL, 3 * size, PROT_NONE, MAP_PRIVATE | MAP_ANONYMOUS, -1, 0);
    bool is_there = all != MAP_FAILED && mprotect(all + size, size, PROT_READ | PROT_WRITE) == 0;
    return is_there ? all + size : NULL;
#endif
}

static inline fence new_fence(void) {
    fence made = {new_page(65536), 65536};
    if (made.begin == NULL) {
        perror("fence");
        exit(1);
    }
    return made;
}

// Copies the bytes to the end of the memory, or to its beginning, next to a page that can't be
// read.
static inline view fence_in(fence around, view bytes, bool at_end) {
    uint8_t *begin = at_end ? around.begin + around.size - bytes.length : around.begin;
    memcpy(begin, bytes.bytes, bytes.length);
    return (view){begin, bytes.length};
}

// Returns true if the memory begins with the answer, and all bytes after it are still A5.
static inline bool is_written(const uint8_t *memory, size_t size, view answer) {
    for (size_t at = answer.length; at < size; at++) {
        if (memory[at] != 0xA5) {
            return false;
        }
    }
    return memcmp(memory, answer.bytes, answer.length) == 0;
}

// Calls a function with each string of at most `longest` of these letters.
static inline void each_string(const char *letters, size_t longest, void (*call)(view)) {
    uint8_t bytes[16];
    size_t places[16] = {0}, count = strlen(letters);
    for (size_t length = 0; length <= longest;) {
        for (size_t at = 0; at < length; at++) {
            bytes[at] = (uint8_t)letters[places[at]];
        }
        call((view){bytes, length});
        size_t at = 0;
        while (at < length && ++places[at] == count) {
            places[at++] = 0;
        }
        length += at == length;
    }
}

#endif
