/* memcpy and memmove, for a library that is linked without a C library. Compiled with -fno-builtin,
 * since the compiler would replace the loops by calls of these functions. */
#include <stddef.h>

void *memcpy(void *to, const void *from, size_t length);
void *memmove(void *to, const void *from, size_t length);

void *memmove(void *to, const void *from, size_t length) {
    unsigned char *out = to;
    const unsigned char *in = from;
    if (out < in) {
        for (size_t at = 0; at < length; at++) {
            out[at] = in[at];
        }
    } else {
        for (size_t at = length; at > 0; at--) {
            out[at - 1] = in[at - 1];
        }
    }
    return to;
}

void *memcpy(void *to, const void *from, size_t length) { return memmove(to, from, length); }
