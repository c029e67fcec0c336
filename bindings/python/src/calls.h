/* Calls of the library over Python's bytes.
 *
 * A function that returns an object returns a new reference, or NULL after setting an exception. A
 * `bytes` that is passed here is an exact `bytes`, never a subclass. */
#ifndef CALLS_H
#define CALLS_H

#include <Python.h>
#include <stdbool.h>

#include "unix_path.h"

/* Bytes of an object that the caller keeps alive. A NUL follows the bytes of a `bytes`. */
typedef struct {
    const char *data;
    size_t length;
} View;

/* Types of the calls that write a result. */
typedef size_t Make(const void *, size_t, void *, size_t);
typedef size_t MakeOfTwo(const void *, size_t, const void *, size_t, void *, size_t);

/* The exception for a request that is refused. */
extern PyObject *escapes_error;

/* Returns the bytes of a `bytes`. */
View view_of(PyObject *bytes);

/* Returns a part of a path. Refuses a span that isn't inside, which no call of the library finds.
 * Returns a view whose data is NULL then, after setting an exception. */
View part_of(View path, unix_path_span span);

/* Returns a new `bytes` or a new `str`. NULL as data is an exception that is already set. */
PyObject *bytes_from(View part);
PyObject *text_from(View part);

/* Returns the UTF-8 of a `str`, in which a surrogate of os.fsdecode is the byte that it is for.
 * Fails if there is another surrogate. */
PyObject *encoded(PyObject *text);

/* Returns the bytes of an object with a buffer, as a copy unless they are in an exact `bytes`. */
PyObject *copied(PyObject *buffer);

/* Makes a call with `size` bytes for its result, which are enough unless the call returns an error
 * code. `given` is the argument that an exception names. */
PyObject *make(Make *call, View path, size_t size, PyObject *given);
PyObject *make_of_two(MakeOfTwo *call, View a, View b, size_t size, PyObject *given);

/* Returns the canonical form of a path, without a leading `.`. Takes the reference to `raw`, which
 * may be NULL for an exception that is already set. */
PyObject *canonical_of(PyObject *raw);

/* A function of the module: takes the records of unix_path_check_entries as a `bytes`, and whether
 * the level is UNIX_PATH_CLOSED. Returns None, or for a refusal a tuple of its three numbers. */
PyObject *check_entries(PyObject *module, PyObject *args);

#endif
