/* Ranges as the intervals that they have, to be looked at and pickled. */
#include "native.h"

/* A bound: its kind, and its version or None. */
static PyObject *told_bound(const nodejs_semver_bound *bound)
{
    bool is_there = bound->kind != NODEJS_SEMVER_BOUND_NONE;
    PyObject *version = is_there ? new_version(made_type, &bound->version) : Py_NewRef(Py_None);
    return version ? Py_BuildValue("(IN)", bound->kind, version) : NULL;
}

PyObject *range_bounds(PyObject *self, PyObject *Py_UNUSED(none))
{
    const Range *range = (Range *)self;
    PyObject *made = PyTuple_New((Py_ssize_t)range->count);
    for (size_t place = 0; made && place < range->count; place++) {
        PyObject *lower = told_bound(&range->intervals[place].lower);
        PyObject *upper = lower ? told_bound(&range->intervals[place].upper) : NULL;
        PyObject *both = upper ? PyTuple_Pack(2, lower, upper) : NULL;
        Py_XDECREF(lower);
        Py_XDECREF(upper);
        if (!both || PyTuple_SetItem(made, (Py_ssize_t)place, both))
            Py_CLEAR(made);
    }
    return made;
}

/* Reads a bound as it is told, and adds the length of its texts. */
static bool is_bound(PyObject *told, nodejs_semver_bound *bound, size_t *len)
{
    PyObject *version;
    unsigned kind;
    if (!PyTuple_Check(told))
        return wrong_type("a tuple", told) != NULL;
    if (!PyArg_ParseTuple(told, "IO", &kind, &version))
        return false;
    nodejs_semver_text none = {"", 0};
    *bound = (nodejs_semver_bound){kind, {.pre_release = none, .build = none}};
    if (kind == NODEJS_SEMVER_BOUND_NONE && version == Py_None)
        return true;
    if (!is_version(version))
        return wrong_type("a Version", version) != NULL;
    bound->version = ((Version *)version)->is;
    *len += bound->version.pre_release.len + bound->version.build.len;
    return true;
}

/* Fills a range with told intervals, and asks the library whether there is such a range. */
static PyObject *filled(PyTypeObject *type, PyObject *told, size_t count, bool includes,
                        nodejs_semver_interval *intervals)
{
    size_t len = 0;
    char *at;
    for (size_t place = 0; place < count; place++) {
        PyObject *both = PyTuple_GetItem(told, (Py_ssize_t)place), *lower, *upper;
        if (!PyTuple_Check(both))
            return wrong_type("a tuple", both);
        if (!PyArg_ParseTuple(both, "OO", &lower, &upper) ||
            !is_bound(lower, &intervals[place].lower, &len) ||
            !is_bound(upper, &intervals[place].upper, &len))
            return NULL;
    }
    Range *made = new_range(type, count, len, includes, &at);
    if (!made)
        return NULL;
    memcpy(made->intervals, intervals, count * sizeof *intervals);
    for (size_t place = 0; place < count; place++) {
        at = keep(&made->intervals[place].lower.version, at);
        at = keep(&made->intervals[place].upper.version, at);
    }
    PyObject *text = range_str((PyObject *)made);
    if (!text)
        Py_CLEAR(made);
    Py_XDECREF(text);
    return (PyObject *)made;
}

/* Makes the range that some intervals tell, as `_bounds` does. */
PyObject *range_from(PyObject *type, PyObject *args)
{
    PyObject *told, *flag;
    bool includes;
    if (!PyArg_ParseTuple(args, "OO", &told, &flag) || !is_flag(flag, &includes))
        return NULL;
    if (!PyTuple_Check(told) || !PyTuple_Size(told))
        return wrong_type("a tuple of intervals", told);
    size_t count = (size_t)PyTuple_Size(told);
    nodejs_semver_interval *intervals = PyMem_Malloc(count * sizeof *intervals);
    if (!intervals)
        return PyErr_NoMemory();
    PyObject *made = filled((PyTypeObject *)type, told, count, includes, intervals);
    PyMem_Free(intervals);
    return made;
}
