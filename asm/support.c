/* What the assembly of a program calls beside the C library: the heap, errno and the arguments. It
 * isn't proved, and is written by hand. Licensed under MIT or Apache-2.0. */
#include <errno.h>
#include <stdbool.h>
#include <stddef.h>
#include <stdlib.h>
#include <string.h>

_Static_assert(_Alignof(max_align_t) >= 16, "malloc has to align to 16 bytes");

/* The result of an allocation. `start` is never a null pointer: if there is no memory, nothing is
 * read or written there. */
struct block {
    bool ok;
    void *start;
};

/* The main function of the assembly, which `main` below calls. */
int program_main(void);
struct block rattle_alloc(size_t size, size_t align);
struct block rattle_realloc(void *old, size_t kept, size_t size, size_t align);
void rattle_dealloc(void *start);
int rattle_errno(void);
void rattle_set_errno(int code);
ptrdiff_t rattle_arg(size_t index, unsigned char *bytes, size_t size);

static char **arguments;
static size_t count;
static struct block block_at(void *start) {
    static char none;
    return (struct block){start != NULL, start != NULL ? start : &none};
}

/* Allocates `size` bytes, aligned to `align`, which divides 16, also for no bytes. */
struct block rattle_alloc(size_t size, size_t align) {
    return block_at(malloc(size != 0 ? size : align));
}

/* Makes a block one of `size` bytes, and may move it. If there is no memory, the old block stays. */
struct block rattle_realloc(void *old, size_t kept, size_t size, size_t align) {
    (void)kept;
    return block_at(realloc(old, size != 0 ? size : align));
}

void rattle_dealloc(void *start) { free(start); }
int rattle_errno(void) { return errno; }
void rattle_set_errno(int code) { errno = code; }

/* Copies an argument. Returns its length, -1 after the last argument, or -2 if it doesn't fit. */
ptrdiff_t rattle_arg(size_t index, unsigned char *bytes, size_t size) {
    size_t length = index < count ? strlen(arguments[index]) : 0;
    memcpy(bytes, index < count ? arguments[index] : "", length < size ? length : size);
    return index >= count ? -1 : length <= size ? (ptrdiff_t)length : -2;
}

int main(int argc, char **argv) {
    count = (size_t)argc;
    arguments = argv;
    return program_main();
}
