/* Reads paths, one per line, and prints them in the order of their components. Of equal paths it
 * prints only the first.
 *
 *   cc sorted_paths.c $(pkg-config --cflags --libs unix_path) -o sorted_paths
 *   printf '%s\n' a.b a/b a//b/ ./a | ./sorted_paths     prints  ./a  a/b  a.b
 */
#define _POSIX_C_SOURCE 200809L
#include <stdio.h>
#include <stdlib.h>
#include <sys/types.h>
#include <unix_path.h>

/* A path without its newline, and the number of lines before it. */
typedef struct {
    char *text;
    size_t length, number;
} line;

static int by_parts(const line *a, const line *b) {
    return unix_path_compare(a->text, a->length, b->text, b->length);
}

/* Orders paths by their components, and equal paths by the numbers of their lines. */
static int compare(const void *first, const void *second) {
    const line *a = first, *b = second;
    int order = by_parts(a, b);
    return order != 0 ? order : (a->number > b->number) - (a->number < b->number);
}

int main(void) {
    size_t count = 0, room = 64, space = 0;
    line *lines = malloc(room * sizeof *lines);
    char *text = NULL;
    ssize_t length;
    while (lines != NULL && (length = getline(&text, &space, stdin)) > 0) {
        size_t end = (size_t)length - (text[length - 1] == '\n');
        lines[count] = (line){text, end, count};
        text = NULL;
        if (++count == room) lines = realloc(lines, (room *= 2) * sizeof *lines);
    }
    if (lines == NULL) return 1;
    qsort(lines, count, sizeof *lines, compare);
    for (size_t at = 0; at < count; at++) {
        if (at == 0 || by_parts(&lines[at - 1], &lines[at]) != 0) {
            fwrite(lines[at].text, 1, lines[at].length, stdout);
            putchar('\n');
        }
    }
    for (size_t at = 0; at < count; at++) free(lines[at].text);
    free(text);
    free(lines);
    return fflush(stdout) != 0;
}
