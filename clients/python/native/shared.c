/* What the other files share: errors, arguments, and buffers. */
#include "native.h"

/* ---- errors */

/* Raises a TypeError, and returns NULL. */
void *wrong_type(const char *wanted, PyObject *value)
{
    PyObject *name = PyObject_GetAttrString((PyObject *)Py_TYPE(value), "__name__");
    if (name)
        PyErr_Format(PyExc_TypeError, "%s is expected, not %S", wanted, name);
    Py_XDECREF(name);
    return NULL;
}

/* Raises what a function of the module _errors makes of some arguments, and returns NULL. */
void *raised(const char *maker, PyObject *given)
{
    PyObject *module = PyImport_ImportModule("npm_semver._errors"), *call = NULL, *error = NULL;
    if (module && given)
        call = PyObject_GetAttrString(module, maker);
    if (call)
        error = PyObject_CallObject(call, given);
    if (error)
        PyErr_SetObject((PyObject *)Py_TYPE(error), error);
    Py_XDECREF(error);
    Py_XDECREF(call);
    Py_XDECREF(module);
    Py_XDECREF(given);
    return NULL;
}

/* Raises what a status means where no text of the caller is rejected, and returns NULL. */
void *failed(Status status)
{
    if (status == NODEJS_SEMVER_NO_MEMORY)
        return PyErr_NoMemory();
    return raised("failed", Py_BuildValue("(I)", status));
}

/* Puts a new reference in place of another one. */
void set(PyObject **place, PyObject *value)
{
    PyObject *old = *place;
    *place = Py_NewRef(value);
    Py_XDECREF(old);
}

/* ---- arguments */

/* The bytes of a str, or NULL with an error. */
const char *text_of(PyObject *value, const char *wanted, size_t *len)
{
    Py_ssize_t size = 0;
    *len = 0;
    if (!PyUnicode_Check(value))
        return wrong_type(wanted, value);
    const char *at = PyUnicode_AsUTF8AndSize(value, &size);
    *len = (size_t)size;
    return at;
}

/* Whether the error is that a str has what UTF-8 has not; then it is cleared. */
bool is_not_utf8(void)
{
    if (!PyErr_ExceptionMatches(PyExc_UnicodeEncodeError))
        return false;
    PyErr_Clear();
    return true;
}

/* Whether a flag is a bool, which is then told; else there is an error. */
bool is_flag(PyObject *value, bool *flag)
{
    if (value != Py_True && value != Py_False) {
        wrong_type("a bool", value);
        return false;
    }
    *flag = value == Py_True;
    return true;
}

/* ---- buffers that grow to what the library needs */

void begin_text(Text *text)
{
    *text = (Text){.at = text->own, .size = sizeof text->own};
}

void end_text(Text *text)
{
    if (text->at != text->own)
        PyMem_Free(text->at);
}

/* Whether a question is to be asked again, with the room that is needed now. */
bool grows(Text *text, Status *status)
{
    if (*status != NODEJS_SEMVER_TOO_SMALL)
        return false;
    end_text(text);
    text->at = PyMem_Malloc(text->len);
    text->size = text->len;
    if (!text->at) {
        text->at = text->own;
        *status = NODEJS_SEMVER_NO_MEMORY;
        return false;
    }
    return true;
}

/* The str of a printed text, None where there is nothing, or NULL with an error. */
PyObject *printed(Text *text, Status status)
{
    PyObject *made = NULL;
    if (status == OK)
        made = PyUnicode_DecodeUTF8(text->at, (Py_ssize_t)text->len, "strict");
    else if (status == NOTHING)
        made = Py_NewRef(Py_None);
    else
        failed(status);
    end_text(text);
    return made;
}
