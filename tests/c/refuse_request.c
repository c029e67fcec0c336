/* Loaded before the C library: the allocation with the number in REFUSED_REQUEST fails, counted
 * from 1. At the end it prints on standard error how many allocations there were, and the size of
 * the one that failed. */
#define _GNU_SOURCE
#include <dlfcn.h>
#include <stdbool.h>
#include <stdio.h>
#include <stdlib.h>

static unsigned long requests;
static size_t refused_size;

static bool is_refused(size_t size)
{
    const char *number = getenv("REFUSED_REQUEST");
    requests++;
    if (number == NULL || strtoul(number, NULL, 10) != requests)
        return false;
    refused_size = size;
    return true;
}

void *malloc(size_t size)
{
    static void *(*next)(size_t);
    if (next == NULL)
        next = (void *(*)(size_t))dlsym(RTLD_NEXT, "malloc");
    return is_refused(size) ? NULL : next(size);
}

void *realloc(void *old, size_t size)
{
    static void *(*next)(void *, size_t);
    if (next == NULL)
        next = (void *(*)(void *, size_t))dlsym(RTLD_NEXT, "realloc");
    return is_refused(size) ? NULL : next(old, size);
}

__attribute__((destructor)) static void tell(void)
{
    fprintf(stderr, "requests: %lu, refused: %zu bytes\n", requests, refused_size);
}
