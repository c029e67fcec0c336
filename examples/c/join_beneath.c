/* Reads requests, one per line, and prints the path that each names beneath the root /srv.
 *
 *   cc join_beneath.c $(pkg-config --cflags --libs unix_path) -o join_beneath
 *   printf '%s\n' a/../b ../etc/passwd | ./join_beneath     prints  /srv/b  refused
 */
#define _POSIX_C_SOURCE 200809L
#include <stdio.h>
#include <stdlib.h>
#include <string.h>
#include <sys/types.h>
#include <unix_path.h>

static void print_join(const char *root, const char *request, size_t request_length) {
    char out[64];
    size_t size = sizeof out - 1;
    size_t length = unix_path_join_beneath(root, strlen(root), request, request_length, out, size);
    if (!unix_path_is_length(length)) {
        puts("refused");
    } else if (length > size) {
        puts("too long");
    } else {
        out[length] = '\0';
        puts(out);
    }
}

int main(void) {
    char *line = NULL;
    size_t space = 0;
    ssize_t length;
    while ((length = getline(&line, &space, stdin)) > 0) {
        print_join("/srv", line, (size_t)length - (line[length - 1] == '\n'));
    }
    free(line);
    return fflush(stdout) != 0;
}
