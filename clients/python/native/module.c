/* Questions about texts, and the module. */
#include "native.h"

/* The version that a text has with marks in front, printed without its build, or None. */
static PyObject *module_clean(PyObject *Py_UNUSED(module), PyObject *value)
{
    size_t len;
    const char *at = text_of(value, "a str", &len);
    Status status = NOTHING;
    Text text;
    begin_text(&text);
    if (at) {
        do
            status = nodejs_semver_version_clean(at, len, text.at, text.size, &text.len);
        while (grows(&text, &status));
        if (status == NODEJS_SEMVER_BAD_VERSION)
            status = NOTHING;
    } else if (!is_not_utf8()) {
        return NULL;
    }
    return printed(&text, status);
}

/* The version that any text has in it, printed, or None. */
static PyObject *module_coerce(PyObject *Py_UNUSED(module), PyObject *args)
{
    PyObject *value, *flags[2];
    bool from_right, includes;
    size_t len;
    if (!PyArg_ParseTuple(args, "OOO", &value, &flags[0], &flags[1]) ||
        !is_flag(flags[0], &from_right) || !is_flag(flags[1], &includes))
        return NULL;
    const char *at = text_of(value, "a str", &len);
    if (!at)
        return is_not_utf8() ? raised("not_utf8", Py_BuildValue("(O)", value)) : NULL;
    Text text;
    Status status;
    begin_text(&text);
    do
        status = nodejs_semver_version_coerce(at, len, false, from_right, includes, text.at,
                                              text.size, &text.len);
    while (grows(&text, &status));
    return printed(&text, status);
}

/* What is wrong with a version text, and at which byte; None if nothing is. */
static PyObject *module_version_flaw(PyObject *Py_UNUSED(module), PyObject *args)
{
    PyObject *value, *flag;
    bool is_lenient;
    size_t len, place;
    uint32_t flaw;
    if (!PyArg_ParseTuple(args, "OO", &value, &flag) || !is_flag(flag, &is_lenient))
        return NULL;
    const char *at = text_of(value, "a str", &len);
    if (!at)
        return NULL;
    Status status = is_lenient ? nodejs_semver_version_flaw(at, len, &flaw, &place)
                               : nodejs_semver_version_npm_flaw(at, len, &flaw, &place);
    if (status == OK)
        return Py_BuildValue("(In)", flaw, (Py_ssize_t)place);
    return status == NOTHING ? Py_NewRef(Py_None) : failed(status);
}

/* Which alternative npm's reading rejects: the bytes of it, and of what is malformed in it. */
static PyObject *module_range_flaw(PyObject *Py_UNUSED(module), PyObject *args)
{
    PyObject *value, *flag;
    bool includes;
    size_t len;
    nodejs_semver_alternative flaw;
    if (!PyArg_ParseTuple(args, "OO", &value, &flag) || !is_flag(flag, &includes))
        return NULL;
    const char *at = text_of(value, "a str", &len);
    if (!at)
        return NULL;
    Status status = nodejs_semver_range_npm_flaw(at, len, includes, &flaw);
    if (status == OK)
        return Py_BuildValue("(nnnn)", (Py_ssize_t)flaw.start, (Py_ssize_t)flaw.end,
                             (Py_ssize_t)flaw.word_start, (Py_ssize_t)flaw.word_end);
    return status == NOTHING ? Py_NewRef(Py_None) : failed(status);
}

/* The words that the lenient reading ignores: where each begins and ends in bytes, and why. */
static PyObject *module_ignored_words(PyObject *Py_UNUSED(module), PyObject *value)
{
    size_t len, count = 8, room;
    const char *at = text_of(value, "a str", &len);
    if (!at)
        return NULL;
    nodejs_semver_word *words = NULL;
    Status status;
    do {
        room = count;
        nodejs_semver_word *more = PyMem_Realloc(words, (room + !room) * sizeof *words);
        if (!more) {
            PyMem_Free(words);
            return PyErr_NoMemory();
        }
        words = more;
        status = nodejs_semver_range_ignored_words(at, len, words, room, &count);
    } while (status == NODEJS_SEMVER_TOO_SMALL);
    PyObject *made = status == OK ? PyList_New((Py_ssize_t)count) : failed(status);
    for (size_t place = 0; made && place < count; place++) {
        nodejs_semver_word *it = &words[place];
        PyObject *told = Py_BuildValue("(nnI)", (Py_ssize_t)it->start, (Py_ssize_t)it->end,
                                       it->kind);
        if (!told || PyList_SetItem(made, (Py_ssize_t)place, told))
            Py_CLEAR(made);
    }
    PyMem_Free(words);
    return made;
}

/* What a status says. */
static PyObject *module_message(PyObject *Py_UNUSED(module), PyObject *value)
{
    unsigned long given = PyLong_AsUnsignedLong(value);
    if (PyErr_Occurred())
        return NULL;
    Text text;
    Status status;
    begin_text(&text);
    do
        status = nodejs_semver_message((uint32_t)given, text.at, text.size, &text.len);
    while (grows(&text, &status));
    return printed(&text, status == OK ? OK : NOTHING);
}

/* Has the versions that are made be of a subclass. */
static PyObject *module_make(PyObject *Py_UNUSED(module), PyObject *value)
{
    if (!PyType_Check(value) || !PyType_IsSubtype((PyTypeObject *)value, version_type))
        return wrong_type("a class of versions", value);
    set((PyObject **)&made_type, value);
    Py_RETURN_NONE;
}

static PyMethodDef module_methods[] = {
    {"clean", module_clean, METH_O, NULL},
    {"coerce", module_coerce, METH_VARARGS, NULL},
    {"version_flaw", module_version_flaw, METH_VARARGS, NULL},
    {"range_flaw", module_range_flaw, METH_VARARGS, NULL},
    {"ignored_words", module_ignored_words, METH_O, NULL},
    {"message", module_message, METH_O, NULL},
    {"make", module_make, METH_O, NULL},
    {0},
};

static PyModuleDef module_def = {
    PyModuleDef_HEAD_INIT,
    .m_name = "npm_semver._native",
    .m_size = -1,
    .m_methods = module_methods,
};

PyMODINIT_FUNC PyInit__native(void)
{
    PyObject *module = PyModule_Create(&module_def);
    version_type = (PyTypeObject *)PyType_FromSpec(&version_spec);
    range_type = (PyTypeObject *)PyType_FromSpec(&range_spec);
    if (!module || !version_type || !range_type ||
        PyModule_AddObjectRef(module, "Version", (PyObject *)version_type) ||
        PyModule_AddObjectRef(module, "Range", (PyObject *)range_type) ||
        PyModule_AddStringConstant(module, "LIBRARY", NODEJS_SEMVER_VERSION)) {
        Py_XDECREF(module);
        return NULL;
    }
    made_type = (PyTypeObject *)Py_NewRef(version_type);
    return module;
}
