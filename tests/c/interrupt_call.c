/* Loaded before the C library. Reads of standard input and writes of standard output are counted
 * from 1. The read with the number in INTERRUPTED_READ and the write with the number in
 * INTERRUPTED_WRITE are interrupted. The read with the number in FAILED_READ and the write with the
 * number in FAILED_WRITE fail. The write with the number in EMPTY_WRITE accepts no byte. If
 * MOST_BYTES is set, no read or write moves more bytes than it says. At the end the numbers of
 * reads and writes are printed on standard error. */
#define _GNU_SOURCE
#include <dlfcn.h>
#include <errno.h>
#include <stdbool.h>
#include <stdio.h>
#include <stdlib.h>
#include <unistd.h>

static unsigned long reads, writes;

static bool is_named(const char *name, unsigned long call)
{
    const char *number = getenv(name);
    return number != NULL && strtoul(number, NULL, 10) == call;
}

static bool is_refused(const char *interrupted, const char *failed, unsigned long call)
{
    if (is_named(interrupted, call))
        errno = EINTR;
    else if (is_named(failed, call))
        errno = EIO;
    else
        return false;
    return true;
}

static size_t at_most(size_t size)
{
    const char *number = getenv("MOST_BYTES");
    size_t most = number == NULL ? size : strtoul(number, NULL, 10);
    return size < most ? size : most;
}

ssize_t read(int file, void *bytes, size_t size)
{
    static ssize_t (*next)(int, void *, size_t);
    if (next == NULL)
        next = (ssize_t (*)(int, void *, size_t))dlsym(RTLD_NEXT, "read");
    if (file != STDIN_FILENO)
        return next(file, bytes, size);
    if (is_refused("INTERRUPTED_READ", "FAILED_READ", ++reads))
        return -1;
    return next(file, bytes, at_most(size));
}

ssize_t write(int file, const void *bytes, size_t size)
{
    static ssize_t (*next)(int, const void *, size_t);
    if (next == NULL)
        next = (ssize_t (*)(int, const void *, size_t))dlsym(RTLD_NEXT, "write");
    if (file != STDOUT_FILENO)
        return next(file, bytes, size);
    if (is_refused("INTERRUPTED_WRITE", "FAILED_WRITE", ++writes))
        return -1;
    return is_named("EMPTY_WRITE", writes) ? 0 : next(file, bytes, at_most(size));
}

ssize_t __write(int file, const void *bytes, size_t size)
{
    return write(file, bytes, size);
}

__attribute__((destructor)) static void tell(void)
{
    fprintf(stderr, "reads: %lu, writes: %lu\n", reads, writes);
}
