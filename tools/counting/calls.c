/* Makes calls from C on paths, for tools/count, which counts their instructions.
 *
 * Standard input consists of records. A record has four numbers of 32 bits: the lengths of the
 * call's name and of two paths, and whether a row ends with this record. Then come the name without
 * `unix_path_`, and both paths. A call with one path or a key gets the first. At the end of a row
 * `end_row` is called, so that callgrind writes its counts and starts counting again.
 */
#define UNIX_PATH_EXPORTS_ONLY
#include "unix_path.h"
#include <stdio.h>
#include <stdlib.h>
#include <string.h>

typedef struct {
    const uint8_t *bytes;
    size_t length;
} path;

enum { MOST = 1 << 16 };
static uint8_t record[MOST], out[3 * MOST];
static unix_path_slot slots[MOST];

#define A a.bytes, a.length
#define B b.bytes, b.length
#define OUT out, sizeof out

/* Makes the call if it has this name. */
#define CALL(name, ...)                                                                           \
    if (length == sizeof #name - 1 && memcmp(bytes, #name, length) == 0) {                        \
        __VA_ARGS__;                                                                              \
        return true;                                                                              \
    }

/* Makes the call with this name on both paths, as its signature requires. Returns false if there is
 * no such call. */
static bool make_call(const uint8_t *bytes, size_t length, path a, path b)
{
    unix_path_walk walk = {0, a.length};
    unix_path_part part;
    unix_path_span span;
    unix_path_chunk chunk;
    unix_path_refusal refusal;
    size_t last = a.length, first = 0;
#define BEGIN(name) CALL(name, unix_path_##name(A, &walk))
#define LEFT(name) CALL(name, unix_path_##name(A, &walk, &span))
#define STEP(name) CALL(name, while (unix_path_##name(A, &walk, &part)))
#define NEXT_SPAN(name) CALL(name, while (unix_path_##name(A, &last, &span)))
#define NEXT_CHUNK(name) CALL(name, while (unix_path_##name(A, &first, &chunk)))
#define FIND(name) CALL(name, unix_path_##name(A, &span))
#define FIND_OF_TWO(name) CALL(name, unix_path_##name(A, B, &span))
#define ASK(answer, name) CALL(name, unix_path_##name(A))
#define ASK_TWO(answer, name) CALL(name, unix_path_##name(A, B))
#define MAKE(name) CALL(name, unix_path_##name(A, OUT))
#define MAKE_OF_TWO(name) CALL(name, unix_path_##name(A, B, OUT))
#define COUNT_SLOTS(name) CALL(name, unix_path_##name(A))
#define CHECK_ENTRIES(name)                                                                       \
    CALL(name, unix_path_##name(A, slots, MOST, UNIX_PATH_CLOSED, &refusal))
#include "../../tests/calls.inc"
    return false;
}

/* callgrind writes its counts when this function returns. */
__attribute__((noinline)) void end_row(void)
{
    __asm__ volatile("" ::: "memory");
}

int main(void)
{
    for (uint32_t head[4]; fread(head, sizeof head, 1, stdin) == 1;) {
        size_t length = (size_t)head[0] + head[1] + head[2];
        if (length > MOST || fread(record, 1, length, stdin) != length)
            return EXIT_FAILURE;
        const uint8_t *first = record + head[0], *second = first + head[1];
        if (!make_call(record, head[0], (path){first, head[1]}, (path){second, head[2]}))
            return EXIT_FAILURE;
        if (head[3])
            end_row();
    }
    return EXIT_SUCCESS;
}
