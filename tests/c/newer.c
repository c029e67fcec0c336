// A call that the library does not have or, if PROGRAM is defined, a program that calls it.
#include <stdbool.h>
#include <stdio.h>

bool unix_path_newer(void);

#ifdef PROGRAM
int main(void) {
    fputs("it runs\n", stderr);
    return unix_path_newer() ? 0 : 1;
}
#else
bool unix_path_newer(void) {
    return true;
}
#endif
