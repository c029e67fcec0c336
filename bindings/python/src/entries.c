#include "calls.h"

/* Returns None, or the numbers of a refused entry, of the entry that it clashes with, and of the
 * reason. */
static PyObject *refusal_of(uint32_t result, unix_path_refusal refusal)
{
    if (result == UNIX_PATH_ENTRIES_ACCEPTED) {
        Py_RETURN_NONE;
    }
    if (result == UNIX_PATH_ENTRIES_REFUSED) {
        return Py_BuildValue("(NNk)", PyLong_FromSize_t(refusal.entry),
                             PyLong_FromSize_t(refusal.cause), (unsigned long)refusal.reason);
    }
    PyErr_SetString(PyExc_SystemError, "the library unix_path read other records");
    return NULL;
}

PyObject *check_entries(PyObject *Py_UNUSED(module), PyObject *args)
{
    PyObject *records;
    int is_closed;
    if (!PyArg_ParseTuple(args, "Sp", &records, &is_closed)) {
        return NULL;
    }
    View view = view_of(records);
    size_t count = unix_path_entries_scratch(view.data, view.length);
    unix_path_slot *slots = count > SIZE_MAX / sizeof *slots ? NULL
                                                             : PyMem_Malloc(count * sizeof *slots);
    if (slots == NULL) {
        return PyErr_NoMemory();
    }
    unix_path_refusal refusal = {0, 0, 0};
    uint32_t result = unix_path_check_entries(
        view.data, view.length, slots, count, is_closed ? UNIX_PATH_CLOSED : UNIX_PATH_INSIDE,
        &refusal);
    PyMem_Free(slots);
    return refusal_of(result, refusal);
}
