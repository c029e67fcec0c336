#include "calls.h"

#include <string.h>

PyObject *escapes_error;

View view_of(PyObject *bytes)
{
    return (View){PyBytes_AsString(bytes), (size_t)PyBytes_Size(bytes)};
}

/* Sets the exception for a result that no call of the library returns. */
static void refuse_result(void)
{
    PyErr_SetString(PyExc_SystemError, "the library unix_path returned a wrong length");
}

View part_of(View path, unix_path_span span)
{
    if (span.start > path.length || span.length > path.length - span.start) {
        refuse_result();
        return (View){NULL, 0};
    }
    return (View){path.data + span.start, span.length};
}

PyObject *bytes_from(View part)
{
    return part.data == NULL ? NULL : PyBytes_FromStringAndSize(part.data, (Py_ssize_t)part.length);
}

PyObject *text_from(View part)
{
    return part.data == NULL
        ? NULL : PyUnicode_DecodeUTF8(part.data, (Py_ssize_t)part.length, "surrogateescape");
}

PyObject *encoded(PyObject *text)
{
    PyObject *bytes = PyUnicode_AsUTF8String(text);
    if (bytes == NULL && PyErr_ExceptionMatches(PyExc_UnicodeEncodeError)) {
        PyErr_Clear();
        bytes = PyUnicode_AsEncodedString(text, "utf-8", "surrogateescape");
    }
    return bytes;
}

PyObject *copied(PyObject *buffer)
{
    if (PyBytes_CheckExact(buffer)) {
        Py_INCREF(buffer);
        return buffer;
    }
    PyObject *memory = PyMemoryView_FromObject(buffer);
    PyObject *bytes = memory == NULL ? NULL : PyBytes_FromObject(memory);
    Py_XDECREF(memory);
    return bytes;
}

/* Memory for the result of a call, on the stack if it is small. */
typedef struct {
    char *data;
    size_t size;
    char small[512];
} Room;

static bool open_room(Room *room, size_t size)
{
    room->size = size;
    room->data = size <= sizeof room->small ? room->small : PyMem_Malloc(size);
    if (room->data == NULL) {
        PyErr_NoMemory();
    }
    return room->data != NULL;
}

/* Says why a join returns UNIX_PATH_ESCAPES for a request. Only join_verbatim does so for a request
 * that doesn't escape. */
static const char *why_escapes(View request)
{
    return unix_path_escapes(request.data, request.length) ? "leaves its root" : "has a '..'";
}

/* Sets the exception for an error code. `why` is the reason for UNIX_PATH_ESCAPES, or NULL for a
 * call that isn't a join. */
static void refuse(size_t code, PyObject *given, const char *why)
{
    bool escapes = code == UNIX_PATH_ESCAPES && why != NULL;
    if (escapes || code == UNIX_PATH_NUL_IN_REQUEST) {
        PyObject *error = PyObject_CallFunction(escapes_error, "N", PyUnicode_FromFormat(
            "%R %s", given, escapes ? why : "has a NUL byte"));
        if (error != NULL && PyObject_SetAttrString(error, "path", given) == 0) {
            PyErr_SetObject(escapes_error, error);
        }
        Py_XDECREF(error);
    } else if (code == UNIX_PATH_NO_RELATIVE_PATH) {
        PyErr_Format(PyExc_ValueError, "no relative path leads to %R", given);
    } else if (code == UNIX_PATH_NOT_A_KEY) {
        PyErr_Format(PyExc_ValueError, "%R is the key of no path", given);
    } else if (code == UNIX_PATH_TOO_LONG) {
        PyErr_NoMemory();
    } else {
        refuse_result();
    }
}

/* Returns what a call has written, if its answer is a length, and frees the memory. `why` is that
 * of refuse(). */
static PyObject *close_room(Room *room, size_t answer, PyObject *given, const char *why)
{
    PyObject *made = NULL;
    if (answer <= room->size) {
        made = bytes_from((View){room->data, answer});
    } else {
        refuse(answer, given, why);
    }
    if (room->data != room->small) {
        PyMem_Free(room->data);
    }
    return made;
}

PyObject *make(Make *call, View path, size_t size, PyObject *given)
{
    Room room;
    if (!open_room(&room, size)) {
        return NULL;
    }
    return close_room(&room, call(path.data, path.length, room.data, size), given, NULL);
}

PyObject *make_of_two(MakeOfTwo *call, View a, View b, size_t size, PyObject *given)
{
    Room room;
    if (!open_room(&room, size)) {
        return NULL;
    }
    size_t answer = call(a.data, a.length, b.data, b.length, room.data, size);
    const char *why = answer == UNIX_PATH_ESCAPES ? why_escapes(b) : NULL;
    return close_room(&room, answer, given, why);
}

/* Returns a canonical path without its leading `.`. Takes the reference. */
static PyObject *without_dot(PyObject *canonical)
{
    View path = view_of(canonical);
    unix_path_span rest;
    if (!unix_path_strip_prefix(path.data, path.length, ".", 1, &rest)) {
        return canonical;
    }
    PyObject *made = bytes_from(part_of(path, rest));
    Py_DECREF(canonical);
    return made;
}

PyObject *canonical_of(PyObject *raw)
{
    if (raw == NULL) {
        return NULL;
    }
    View path = view_of(raw);
    if (!unix_path_is_canonical(path.data, path.length)) {
        PyObject *made = make(unix_path_canonical, path, path.length, raw);
        Py_DECREF(raw);
        raw = made;
    }
    return raw != NULL && view_of(raw).data[0] == '.' ? without_dot(raw) : raw;
}
