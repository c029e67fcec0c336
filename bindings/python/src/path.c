/* The module unix_path._unix_path, which has the type UnixPath, in the limited API of Python 3.8.
 *
 * A path keeps the canonical form of its bytes, without a leading `.`, and nothing else. So equal
 * paths have the same bytes, and Python's keyed hash of these bytes is the hash of a path. */
#include "calls.h"

#include <string.h>

typedef struct {
    PyObject_HEAD
    PyObject *bytes; /* NULL until __init__ has been called, which means the empty path */
    View view;       /* what view_of(bytes) returns, which takes longer */
} UnixPath;

static PyTypeObject *path_type;

static bool is_path(PyObject *object)
{
    return PyObject_TypeCheck(object, path_type);
}

/* Returns the bytes of a path. */
static View view(PyObject *self)
{
    UnixPath *path = (UnixPath *)self;
    return path->bytes == NULL ? (View){"", 0} : path->view;
}

/* Sets the bytes of a path. Takes the reference. */
static void set_bytes(PyObject *self, PyObject *bytes)
{
    UnixPath *path = (UnixPath *)self;
    path->bytes = bytes;
    path->view = view_of(bytes);
}

/* Returns the bytes of a path as they are printed: the empty path is `.`. */
static View shown(PyObject *self)
{
    View path = view(self);
    return path.length == 0 ? (View){".", 1} : path;
}

static PyObject *path_str(PyObject *self)
{
    return text_from(shown(self));
}

/* Returns the bytes of a path as an object. */
static PyObject *own_bytes(PyObject *self)
{
    PyObject *bytes = ((UnixPath *)self)->bytes;
    Py_XINCREF(bytes);
    return bytes == NULL ? PyBytes_FromStringAndSize("", 0) : bytes;
}

/* Returns the bytes of an argument: a path, a `str`, or what __fspath__ returns, if it is a `str`.
 * A path's bytes are canonical, and all others verbatim. */
static PyObject *bytes_of(PyObject *segment)
{
    if (is_path(segment)) {
        return own_bytes(segment);
    }
    PyObject *text = PyOS_FSPath(segment), *bytes = NULL;
    if (text != NULL && PyUnicode_Check(text)) {
        bytes = encoded(text);
    } else if (text != NULL) {
        PyErr_SetString(PyExc_TypeError,
                        "a path is a str, or an object whose __fspath__ returns a str: "
                        "UnixPath.from_bytes makes a path from bytes");
    }
    Py_XDECREF(text);
    return bytes;
}

/* Joins two paths. Takes both references, of which either may be NULL for an exception. */
static PyObject *join(PyObject *base, PyObject *path)
{
    PyObject *made = NULL;
    if (base != NULL && path != NULL) {
        View a = view_of(base), b = view_of(path);
        made = make_of_two(unix_path_join, a, b, a.length + b.length + 1, path);
    }
    Py_XDECREF(base);
    Py_XDECREF(path);
    return made;
}

/* Joins the segments of a tuple from index `first` to before `end`, of which there is at least one.
 * It joins their halves, so that the time for many segments isn't quadratic. */
static PyObject *joined(PyObject *segments, Py_ssize_t first, Py_ssize_t end)
{
    if (end - first == 1) {
        return bytes_of(PyTuple_GetItem(segments, first));
    }
    Py_ssize_t middle = first + (end - first) / 2;
    PyObject *base = joined(segments, first, middle);
    return join(base, base == NULL ? NULL : joined(segments, middle, end));
}

/* Returns the canonical bytes of the path of some segments. */
static PyObject *path_of(PyObject *segments)
{
    Py_ssize_t count = PyTuple_Size(segments);
    return count == 0 ? PyBytes_FromStringAndSize("", 0)
                      : canonical_of(joined(segments, 0, count));
}

/* Returns a plain path with these canonical bytes. Takes the reference, which may be NULL. */
static PyObject *plain(PyObject *bytes)
{
    PyObject *made = bytes == NULL ? NULL : PyType_GenericAlloc(path_type, 0);
    if (made == NULL) {
        Py_XDECREF(bytes);
    } else {
        set_bytes(made, bytes);
    }
    return made;
}

/* Returns what a subclass makes of canonical bytes. Takes the reference to the bytes. */
static PyObject *made_by(PyObject *maker, PyObject *bytes)
{
    PyObject *text = maker == NULL ? NULL : text_from(view_of(bytes));
    PyObject *made = text == NULL ? NULL : PyObject_CallFunctionObjArgs(maker, text, NULL);
    Py_DECREF(bytes);
    Py_XDECREF(text);
    return made;
}

/* Returns a path of this type with these canonical bytes. Takes the reference, which may be
 * NULL. */
static PyObject *of_type(PyObject *type, PyObject *bytes)
{
    bool is_plain = bytes == NULL || type == (PyObject *)path_type;
    return is_plain ? plain(bytes) : made_by(type, bytes);
}

/* Returns a path like another one, which with_segments of a subclass makes. Takes the reference to
 * the bytes, which may be NULL. */
static PyObject *like(PyObject *self, PyObject *bytes)
{
    if (bytes == NULL || Py_TYPE(self) == path_type) {
        return plain(bytes);
    }
    PyObject *maker = PyObject_GetAttrString(self, "with_segments");
    PyObject *made = made_by(maker, bytes);
    Py_XDECREF(maker);
    return made;
}

/* Life of a path. */

static int path_init(PyObject *self, PyObject *args, PyObject *kwargs)
{
    if (kwargs != NULL && PyDict_Size(kwargs) > 0) {
        PyErr_SetString(PyExc_TypeError, "UnixPath() takes no keyword arguments");
        return -1;
    }
    UnixPath *path = (UnixPath *)self;
    PyObject *bytes = path->bytes == NULL ? path_of(args) : NULL;
    if (path->bytes == NULL && bytes != NULL) {
        set_bytes(self, bytes);
    } else {
        Py_XDECREF(bytes);
    }
    return path->bytes == NULL ? -1 : 0;
}

static void path_dealloc(PyObject *self)
{
    PyTypeObject *type = Py_TYPE(self);
    Py_XDECREF(((UnixPath *)self)->bytes);
    ((freefunc)PyType_GetSlot(type, Py_tp_free))(self);
    Py_DECREF(type);
}

static PyObject *path_with_segments(PyObject *self, PyObject *segments)
{
    return PyObject_CallObject((PyObject *)Py_TYPE(self), segments);
}

static PyObject *path_from_bytes(PyObject *type, PyObject *buffer)
{
    return of_type(type, canonical_of(copied(buffer)));
}

static PyObject *path_reduce(PyObject *self, PyObject *Py_UNUSED(none))
{
    return Py_BuildValue("O(N)", Py_TYPE(self), path_str(self));
}

/* What a path is as a whole. */

static PyObject *path_repr(PyObject *self)
{
    PyObject *name = PyObject_GetAttrString((PyObject *)Py_TYPE(self), "__name__");
    PyObject *text = name == NULL ? NULL : path_str(self);
    PyObject *made = text == NULL ? NULL : PyUnicode_FromFormat("%U(%R)", name, text);
    Py_XDECREF(name);
    Py_XDECREF(text);
    return made;
}

static PyObject *path_fspath(PyObject *self, PyObject *Py_UNUSED(none))
{
    return path_str(self);
}

static PyObject *path_bytes(PyObject *self, PyObject *Py_UNUSED(none))
{
    return bytes_from(shown(self));
}

static Py_hash_t path_hash(PyObject *self)
{
    PyObject *bytes = own_bytes(self);
    Py_hash_t hash = bytes == NULL ? -1 : PyObject_Hash(bytes);
    Py_XDECREF(bytes);
    return hash;
}

static PyObject *path_compare(PyObject *self, PyObject *other, int operation)
{
    if (!is_path(self) || !is_path(other)) {
        Py_RETURN_NOTIMPLEMENTED;
    }
    View a = view(self), b = view(other);
    if (operation == Py_EQ || operation == Py_NE) {
        bool is_equal = unix_path_equal(a.data, a.length, b.data, b.length);
        return PyBool_FromLong(is_equal == (operation == Py_EQ));
    }
    int order = unix_path_compare(a.data, a.length, b.data, b.length);
    Py_RETURN_RICHCOMPARE(order, 0, operation);
}

static PyObject *path_key(PyObject *self, PyObject *Py_UNUSED(none))
{
    View path = view(self);
    return make(unix_path_key, path, path.length + 2, self);
}

static PyObject *path_from_key(PyObject *type, PyObject *buffer)
{
    PyObject *key = copied(buffer);
    if (key == NULL) {
        return NULL;
    }
    View bytes = view_of(key);
    PyObject *path = make(unix_path_from_key, bytes, bytes.length + bytes.length / 2, key);
    Py_DECREF(key);
    return of_type(type, canonical_of(path));
}

/* Parts of a path. */

static PyObject *path_parts(PyObject *self, void *Py_UNUSED(none))
{
    View path = view(self);
    unix_path_walk walk;
    unix_path_part part;
    PyObject *list = PyList_New(0);
    unix_path_components(path.data, path.length, &walk);
    while (list != NULL && unix_path_next(path.data, path.length, &walk, &part)) {
        PyObject *text = text_from(part_of(path, (unix_path_span){part.start, part.length}));
        if (text == NULL || PyList_Append(list, text) != 0) {
            Py_CLEAR(list);
        }
        Py_XDECREF(text);
    }
    PyObject *parts = list == NULL ? NULL : PyList_AsTuple(list);
    Py_XDECREF(list);
    return parts;
}

static PyObject *path_drive(PyObject *Py_UNUSED(self), void *Py_UNUSED(none))
{
    return PyUnicode_FromString("");
}

static bool is_rooted(View path)
{
    return unix_path_is_absolute(path.data, path.length);
}

static PyObject *path_root(PyObject *self, void *Py_UNUSED(none))
{
    return PyUnicode_FromString(is_rooted(view(self)) ? "/" : "");
}

/* The name of a path, and its stem and suffix as in Python 3.13, where a name that ends in a dot
 * has no suffix. All are empty if the path has no name. */
typedef struct {
    View name, stem, suffix;
} Name;

/* Splits the name of a path. Returns false after setting an exception. */
static bool split_name(PyObject *self, Name *found)
{
    View path = view(self), none = {"", 0};
    unix_path_span span = {0, 0};
    *found = (Name){none, none, none};
    if (!unix_path_file_name(path.data, path.length, &span)) {
        return true;
    }
    found->name = found->stem = part_of(path, span);
    if (found->name.data == NULL || !unix_path_file_stem(path.data, path.length, &span)) {
        return found->name.data != NULL;
    }
    View stem = part_of(path, span);
    View suffix = part_of(found->name, (unix_path_span){
        stem.length, found->name.length - stem.length});
    if (suffix.length > 1) {
        found->stem = stem;
        found->suffix = suffix;
    }
    return stem.data != NULL && suffix.data != NULL;
}

static PyObject *path_name(PyObject *self, void *Py_UNUSED(none))
{
    View path = view(self);
    unix_path_span span;
    bool has_name = unix_path_file_name(path.data, path.length, &span);
    return text_from(has_name ? part_of(path, span) : (View){"", 0});
}

static PyObject *path_stem(PyObject *self, void *Py_UNUSED(none))
{
    Name found;
    return split_name(self, &found) ? text_from(found.stem) : NULL;
}

static PyObject *path_suffix(PyObject *self, void *Py_UNUSED(none))
{
    Name found;
    return split_name(self, &found) ? text_from(found.suffix) : NULL;
}

static PyObject *path_parent(PyObject *self, void *Py_UNUSED(none))
{
    View path = view(self);
    unix_path_span span;
    if (!unix_path_parent(path.data, path.length, &span)) {
        Py_INCREF(self);
        return self;
    }
    return like(self, bytes_from(part_of(path, span)));
}

/* Questions about a path. */

static PyObject *path_is_absolute(PyObject *self, PyObject *Py_UNUSED(none))
{
    return PyBool_FromLong(is_rooted(view(self)));
}

static PyObject *path_escapes(PyObject *self, PyObject *Py_UNUSED(none))
{
    View path = view(self);
    return PyBool_FromLong(unix_path_escapes(path.data, path.length));
}

static PyObject *path_is_reserved(PyObject *Py_UNUSED(self), PyObject *Py_UNUSED(none))
{
    Py_RETURN_FALSE;
}

/* Finds the rest of a path after a base. As in pathlib, only a path without a root starts with the
 * empty path. */
static bool is_after(View path, View base, unix_path_span *rest)
{
    return is_rooted(path) == is_rooted(base)
        && unix_path_strip_prefix(path.data, path.length, base.data, base.length, rest);
}

/* Returns the canonical bytes of the path of some segments, of which there is at least one. */
static PyObject *base_of(PyObject *segments)
{
    if (PyTuple_Size(segments) == 0) {
        PyErr_SetString(PyExc_TypeError, "at least one path is needed");
        return NULL;
    }
    return path_of(segments);
}

static PyObject *path_is_relative_to(PyObject *self, PyObject *segments)
{
    PyObject *base = base_of(segments);
    if (base == NULL) {
        return NULL;
    }
    unix_path_span rest;
    bool is_relative = is_after(view(self), view_of(base), &rest);
    Py_DECREF(base);
    return PyBool_FromLong(is_relative);
}

/* Cuts the last component of a base that relative_to walks up from. Returns false after setting an
 * exception if the base has none, or if this component is `..`. */
static bool walk_up(View *base)
{
    unix_path_span parent, name;
    if (!unix_path_parent(base->data, base->length, &parent)) {
        PyErr_SetString(PyExc_ValueError, "only one of the paths has a root");
        return false;
    }
    if (!unix_path_file_name(base->data, base->length, &name)) {
        PyErr_SetString(PyExc_ValueError, "where '..' in the base leads is unknown");
        return false;
    }
    *base = part_of(*base, parent);
    return base->data != NULL;
}

/* Returns `steps` times `../`, and then a path. */
static PyObject *climbed(size_t steps, View rest)
{
    PyObject *up = PyBytes_FromStringAndSize("../", 3);
    PyObject *climb = up == NULL ? NULL : PySequence_Repeat(up, (Py_ssize_t)steps);
    Py_XDECREF(up);
    PyBytes_ConcatAndDel(&climb, bytes_from(rest));
    return climb;
}

/* Returns the bytes of the relative path from a base to this path. */
static PyObject *relative_bytes(PyObject *self, View base, bool walks_up)
{
    View path = view(self);
    unix_path_span rest;
    size_t steps = 0;
    while (!is_after(path, base, &rest)) {
        if (!walks_up) {
            PyErr_Format(PyExc_ValueError, "%R isn't below the other path", self);
        }
        if (!walks_up || !walk_up(&base)) {
            return NULL;
        }
        steps++;
    }
    return climbed(steps, part_of(path, rest));
}

/* Returns the value of the only keyword argument that relative_to takes, or -1 for an exception. */
static int walk_up_of(PyObject *kwargs)
{
    PyObject *value = kwargs == NULL ? NULL : PyDict_GetItemString(kwargs, "walk_up");
    if (kwargs != NULL && PyDict_Size(kwargs) != (value != NULL)) {
        PyErr_SetString(PyExc_TypeError, "relative_to() takes no keyword argument but walk_up");
        return -1;
    }
    return value == NULL ? 0 : PyObject_IsTrue(value);
}

static PyObject *path_relative_to(PyObject *self, PyObject *segments, PyObject *kwargs)
{
    int walks_up = walk_up_of(kwargs);
    PyObject *base = walks_up < 0 ? NULL : base_of(segments);
    if (base == NULL) {
        return NULL;
    }
    PyObject *made = relative_bytes(self, view_of(base), walks_up);
    Py_DECREF(base);
    return like(self, canonical_of(made));
}

/* New paths. */

static PyObject *path_joinpath(PyObject *self, PyObject *segments)
{
    PyObject *rest = path_of(segments);
    return like(self, canonical_of(join(rest == NULL ? NULL : own_bytes(self), rest)));
}

static PyObject *path_truediv(PyObject *left, PyObject *right)
{
    PyObject *base = bytes_of(left);
    PyObject *made = join(base, base == NULL ? NULL : bytes_of(right));
    if (made == NULL && PyErr_ExceptionMatches(PyExc_TypeError)) {
        PyErr_Clear();
        Py_RETURN_NOTIMPLEMENTED;
    }
    return like(is_path(left) ? left : right, canonical_of(made));
}

static PyObject *join_request(PyObject *self, PyObject *request, MakeOfTwo *call)
{
    PyObject *bytes = bytes_of(request);
    if (bytes == NULL) {
        return NULL;
    }
    View root = view(self), path = view_of(bytes);
    PyObject *made = make_of_two(call, root, path, root.length + path.length + 1, request);
    Py_DECREF(bytes);
    return like(self, canonical_of(made));
}

static PyObject *path_join_beneath(PyObject *self, PyObject *request)
{
    return join_request(self, request, unix_path_join_beneath);
}

static PyObject *path_join_in_root(PyObject *self, PyObject *request)
{
    return join_request(self, request, unix_path_join_in_root);
}

static PyObject *path_join_verbatim(PyObject *self, PyObject *request)
{
    return join_request(self, request, unix_path_join_verbatim);
}

static PyObject *path_relative_path(PyObject *self, PyObject *to)
{
    PyObject *bytes = bytes_of(to);
    if (bytes == NULL) {
        return NULL;
    }
    View from = view(self), path = view_of(bytes);
    size_t size = 3 * (from.length + 1) / 2 + path.length;
    PyObject *made = make_of_two(unix_path_relative_path, from, path, size, to);
    Py_DECREF(bytes);
    return like(self, canonical_of(made));
}

static PyObject *path_resolved(PyObject *self, PyObject *Py_UNUSED(none))
{
    View path = view(self);
    return like(self, canonical_of(make(unix_path_resolved, path, path.length, self)));
}

static PyObject *path_canonical(PyObject *self, PyObject *Py_UNUSED(none))
{
    Py_INCREF(self);
    return self;
}

/* Splits the name of a path. Returns false after setting an exception, if there is none too. */
static bool split_some_name(PyObject *self, Name *found)
{
    if (!split_name(self, found)) {
        return false;
    }
    if (found->name.length == 0) {
        PyErr_Format(PyExc_ValueError, "%R has no name", self);
    }
    return found->name.length > 0;
}

/* Returns the UTF-8 of an argument that is a `str`. */
static PyObject *text_bytes(PyObject *text)
{
    if (!PyUnicode_Check(text)) {
        PyErr_SetString(PyExc_TypeError, "a name, a stem and a suffix are a str");
        return NULL;
    }
    return encoded(text);
}

/* Returns the path with another name, which comes from the argument `given`. Takes the reference to
 * the name, which may be NULL. */
static PyObject *renamed(PyObject *self, PyObject *name, PyObject *given)
{
    if (name == NULL) {
        return NULL;
    }
    View path = view(self), bytes = view_of(name);
    PyObject *made = NULL;
    if (bytes.length == 0 || memchr(bytes.data, '/', bytes.length) != NULL
        || (bytes.length == 1 && bytes.data[0] == '.')) {
        PyErr_Format(PyExc_ValueError, "%R makes no name", given);
    } else {
        size_t size = path.length + bytes.length + 1;
        made = make_of_two(unix_path_with_file_name, path, bytes, size, given);
    }
    Py_DECREF(name);
    return like(self, canonical_of(made));
}

static PyObject *path_with_name(PyObject *self, PyObject *name)
{
    Name old;
    return renamed(self, split_some_name(self, &old) ? text_bytes(name) : NULL, name);
}

static PyObject *path_with_stem(PyObject *self, PyObject *stem)
{
    Name old;
    PyObject *name = split_some_name(self, &old) ? text_bytes(stem) : NULL;
    if (name != NULL && view_of(name).length == 0 && old.suffix.length > 0) {
        PyErr_Format(PyExc_ValueError, "%R has a suffix, which needs a stem", self);
        Py_CLEAR(name);
    }
    PyBytes_ConcatAndDel(&name, bytes_from(old.suffix));
    return renamed(self, name, stem);
}

static PyObject *path_with_suffix(PyObject *self, PyObject *suffix)
{
    Name old;
    PyObject *bytes = split_some_name(self, &old) ? text_bytes(suffix) : NULL;
    View end = bytes == NULL ? (View){"", 0} : view_of(bytes);
    if (end.length == 1 || (end.length > 1 && end.data[0] != '.')) {
        PyErr_Format(PyExc_ValueError, "%R is no suffix", suffix);
        Py_CLEAR(bytes);
    }
    PyObject *name = bytes == NULL ? NULL : bytes_from(old.stem);
    PyBytes_ConcatAndDel(&name, bytes);
    return renamed(self, name, suffix);
}


static PyMethodDef methods[] = {
    {"__bytes__", path_bytes, METH_NOARGS, PyDoc_STR(
        "__bytes__($self, /)\n--\n\n"
        "Returns the path as bytes, in the spelling that str(path) has.\n\n"
        ">>> bytes(UnixPath('a//b'))\n"
        "b'a/b'")},
    {"__fspath__", path_fspath, METH_NOARGS, PyDoc_STR(
        "__fspath__($self, /)\n--\n\n"
        "Returns str(path).")},
    {"__reduce__", path_reduce, METH_NOARGS, NULL},
    {"as_posix", path_fspath, METH_NOARGS, PyDoc_STR(
        "as_posix($self, /)\n--\n\n"
        "Returns str(path).")},
    {"canonical", path_canonical, METH_NOARGS, PyDoc_STR(
        "canonical($self, /)\n--\n\n"
        "Returns the path itself: a path keeps only its canonical form.\n\n"
        ">>> UnixPath('/a//b/.').canonical()\n"
        "UnixPath('/a/b')")},
    {"escapes", path_escapes, METH_NOARGS, PyDoc_STR(
        "escapes($self, /)\n--\n\n"
        "Returns True if the path has a root, or goes above where it starts, even if later\n"
        "names come down again.\n\n"
        ">>> UnixPath('a/../b').escapes(), UnixPath('a/../../b').escapes()\n"
        "(False, True)")},
    {"from_bytes", path_from_bytes, METH_O | METH_CLASS, PyDoc_STR(
        "from_bytes($type, path, /)\n--\n\n"
        "Returns the path with these bytes, which may be any. Copies an object with a buffer.\n\n"
        ">>> UnixPath.from_bytes(b'/srv/\\xff')\n"
        "UnixPath('/srv/\\udcff')")},
    {"from_key", path_from_key, METH_O | METH_CLASS, PyDoc_STR(
        "from_key($type, key, /)\n--\n\n"
        "Returns the path that has this key. Raises ValueError if no path has it.\n\n"
        ">>> UnixPath.from_key(UnixPath('/a/b').key())\n"
        "UnixPath('/a/b')")},
    {"is_absolute", path_is_absolute, METH_NOARGS, PyDoc_STR(
        "is_absolute($self, /)\n--\n\n"
        "Returns True if the path has a root.")},
    {"is_relative_to", path_is_relative_to, METH_VARARGS, PyDoc_STR(
        "is_relative_to($self, /, *other)\n--\n\n"
        "Returns True if the path begins with the components of the other path. That makes no\n"
        "safe join: '/srv/../etc' begins with '/srv'.\n\n"
        ">>> path = UnixPath('/etc/passwd')\n"
        ">>> path.is_relative_to('/etc'), path.is_relative_to('/e')\n"
        "(True, False)")},
    {"is_reserved", path_is_reserved, METH_NOARGS, PyDoc_STR(
        "is_reserved($self, /)\n--\n\n"
        "Returns False: only Windows reserves names.")},
    {"join_beneath", path_join_beneath, METH_O, PyDoc_STR(
        "join_beneath($self, request, /)\n--\n\n"
        "Joins a request from outside, which must stay beneath this root, such as the name of an\n"
        "archive's entry. Resolves `..` in the request lexically. Raises EscapesError if the\n"
        "request has a root, goes above where it starts, or has a NUL, at which a system call\n"
        "would cut the result. No link is followed.\n\n"
        ">>> UnixPath('/srv').join_beneath('a/../b')\n"
        "UnixPath('/srv/b')\n"
        ">>> UnixPath('/srv').join_beneath('../etc/passwd')\n"
        "Traceback (most recent call last):\n"
        "unix_path.EscapesError: '../etc/passwd' leaves its root")},
    {"join_in_root", path_join_in_root, METH_O, PyDoc_STR(
        "join_in_root($self, request, /)\n--\n\n"
        "Joins a request as in a chroot, such as the decoded path of a URL. Drops leading\n"
        "slashes, and a `..` at the root stays there. Raises EscapesError if the request has a\n"
        "NUL.\n\n"
        ">>> UnixPath('/srv').join_in_root('/../b')\n"
        "UnixPath('/srv/b')")},
    {"join_verbatim", path_join_verbatim, METH_O, PyDoc_STR(
        "join_verbatim($self, request, /)\n--\n\n"
        "Joins a request without resolving it, for a root that is or contains links. Raises\n"
        "EscapesError if the request has a root, any `..`, or a NUL.\n\n"
        ">>> UnixPath('/srv').join_verbatim('a/../b')\n"
        "Traceback (most recent call last):\n"
        "unix_path.EscapesError: 'a/../b' has a '..'")},
    {"joinpath", path_joinpath, METH_VARARGS, PyDoc_STR(
        "joinpath($self, /, *segments)\n--\n\n"
        "Joins trusted paths, as `/` does. A path with a root replaces what is before it.\n\n"
        ">>> UnixPath('/srv').joinpath('a', 'b'), UnixPath('/srv') / '/etc'\n"
        "(UnixPath('/srv/a/b'), UnixPath('/etc'))")},
    {"key", path_key, METH_NOARGS, PyDoc_STR(
        "key($self, /)\n--\n\n"
        "Returns the key of the path: bytes that compare as the paths do. Keys are equal if and\n"
        "only if the paths are, and a key begins with the key of each parent.\n\n"
        ">>> UnixPath('/a').key()\n"
        "b'\\x00\\x01a\\x00'")},
    {"relative_path", path_relative_path, METH_O, PyDoc_STR(
        "relative_path($self, to, /)\n--\n\n"
        "Returns the relative path from this path to another one. Resolves both lexically. Raises\n"
        "ValueError if there is none: only one of them has a root, or a `..` at the beginning of\n"
        "this path is in the way.\n\n"
        ">>> UnixPath('/a/b/c').relative_path('/a/d')\n"
        "UnixPath('../../d')")},
    {"relative_to", (PyCFunction)(void (*)(void))path_relative_to, METH_VARARGS | METH_KEYWORDS,
     PyDoc_STR(
        "relative_to($self, /, *other, walk_up=False)\n--\n\n"
        "Returns what follows the other path in this one, by components. Raises ValueError if\n"
        "this path doesn't begin with the other one. With walk_up=True the result may begin with\n"
        "`..` instead.\n\n"
        ">>> UnixPath('/etc/passwd').relative_to('/etc')\n"
        "UnixPath('passwd')\n"
        ">>> UnixPath('/etc/passwd').relative_to('/usr', walk_up=True)\n"
        "UnixPath('../etc/passwd')")},
    {"resolved", path_resolved, METH_NOARGS, PyDoc_STR(
        "resolved($self, /)\n--\n\n"
        "Returns the path with each `..` dropped together with the name before it, or alone after\n"
        "the root. Where a component may be a link, only the system knows where `..` leads.\n\n"
        ">>> UnixPath('a/../../b').resolved()\n"
        "UnixPath('../b')")},
    {"with_name", path_with_name, METH_O, PyDoc_STR(
        "with_name($self, name, /)\n--\n\n"
        "Returns the path with another name. Raises ValueError if the path has no name, or if the\n"
        "new one is empty, '.' or has a slash.\n\n"
        ">>> UnixPath('/a/b.txt').with_name('c')\n"
        "UnixPath('/a/c')")},
    {"with_segments", path_with_segments, METH_VARARGS, PyDoc_STR(
        "with_segments($self, /, *segments)\n--\n\n"
        "Returns a path of the same type. The methods of a subclass make their results by this\n"
        "one.")},
    {"with_stem", path_with_stem, METH_O, PyDoc_STR(
        "with_stem($self, stem, /)\n--\n\n"
        "Returns the path with another stem. Raises ValueError like with_name().\n\n"
        ">>> UnixPath('a/b.txt').with_stem('c')\n"
        "UnixPath('a/c.txt')")},
    {"with_suffix", path_with_suffix, METH_O, PyDoc_STR(
        "with_suffix($self, suffix, /)\n--\n\n"
        "Returns the path with another suffix, or without one if it is empty. Raises ValueError\n"
        "like with_name(), and if the suffix doesn't begin with a dot, or is only that.\n\n"
        ">>> UnixPath('a.tar.gz').with_suffix('.xz')\n"
        "UnixPath('a.tar.xz')")},
    {NULL, NULL, 0, NULL},
};

static PyGetSetDef members[] = {
    {"anchor", path_root, NULL, PyDoc_STR("The root: '/' or empty."), NULL},
    {"drive", path_drive, NULL, PyDoc_STR("Empty: only Windows has drives."), NULL},
    {"name", path_name, NULL, PyDoc_STR(
        "The last component, or empty if it is the root or `..`."), NULL},
    {"parent", path_parent, NULL, PyDoc_STR(
        "The path without its last component, or the path itself if it has none but a root."),
     NULL},
    {"parts", path_parts, NULL, PyDoc_STR("The components, each as a str."), NULL},
    {"root", path_root, NULL, PyDoc_STR("The root: '/' or empty."), NULL},
    {"stem", path_stem, NULL, PyDoc_STR("The name without its suffix."), NULL},
    {"suffix", path_suffix, NULL, PyDoc_STR(
        "The end of the name from its last dot on. Empty if that dot is the name's first or last\n"
        "byte, or if there is none."), NULL},
    {NULL, NULL, NULL, NULL, NULL},
};

static const char documentation[] =
    "UnixPath(*segments)\n--\n\n"
    "A Unix path, with the interface of pathlib.PurePosixPath. It touches no file.\n\n"
    "A segment is a str or an os.PathLike object of one. The bytes of a str are its UTF-8, in\n"
    "which a surrogate of os.fsdecode() is the byte that it represents.\n\n"
    ">>> path = UnixPath('/srv//www/./index.html')\n"
    ">>> path, path.name, path.parent\n"
    "(UnixPath('/srv/www/index.html'), 'index.html', UnixPath('/srv/www'))";

static PyType_Slot slots[] = {
    {Py_tp_doc, (void *)documentation},
    {Py_tp_new, PyType_GenericNew},
    {Py_tp_init, path_init},
    {Py_tp_dealloc, path_dealloc},
    {Py_tp_repr, path_repr},
    {Py_tp_str, path_str},
    {Py_tp_hash, path_hash},
    {Py_tp_richcompare, path_compare},
    {Py_tp_methods, methods},
    {Py_tp_getset, members},
    {Py_nb_true_divide, path_truediv},
    {0, NULL},
};

static PyType_Spec specification = {
    "unix_path.UnixPath", sizeof(UnixPath), 0, Py_TPFLAGS_DEFAULT | Py_TPFLAGS_BASETYPE, slots,
};

static PyMethodDef functions[] = {
    {"check_entries", check_entries, METH_VARARGS, NULL},
    {NULL, NULL, 0, NULL},
};

static struct PyModuleDef definition = {
    PyModuleDef_HEAD_INIT, "unix_path._unix_path", NULL, -1, functions, NULL, NULL, NULL, NULL,
};

/* Adds an object to the module, which takes a reference of its own. */
static bool add(PyObject *module, const char *name, PyObject *object)
{
    Py_XINCREF(object);
    if (object == NULL || PyModule_AddObject(module, name, object) != 0) {
        Py_XDECREF(object);
        return false;
    }
    return true;
}

PyMODINIT_FUNC PyInit__unix_path(void)
{
    PyObject *module = PyModule_Create(&definition);
    path_type = module == NULL ? NULL : (PyTypeObject *)PyType_FromSpec(&specification);
    escapes_error = path_type == NULL ? NULL : PyErr_NewExceptionWithDoc(
        "unix_path.EscapesError",
        "A request is refused: it leaves its root, has a NUL, or for join_verbatim a `..`.\n"
        "`path` is the request.",
        PyExc_ValueError, NULL);
    if (escapes_error == NULL || !add(module, "UnixPath", (PyObject *)path_type)
        || !add(module, "EscapesError", escapes_error)) {
        Py_CLEAR(module);
    }
    return module;
}
