/* Versions that are kept, and their keys. */
#include "native.h"

PyTypeObject *version_type, *made_type;

bool is_version(PyObject *value)
{
    return PyObject_TypeCheck(value, version_type);
}

/* The version of some parts, whose texts begin at a place, which is then the one behind them. */
nodejs_semver_version kept(const nodejs_semver_parts *parts, const char **at)
{
    const char *build = *at + parts->pre_release_len;
    nodejs_semver_version made = {parts->major, parts->minor, parts->patch,
                                  {*at, parts->pre_release_len}, {build, parts->build_len}};
    *at = build + parts->build_len;
    return made;
}

/* The parts of a version, whose texts may lie one behind the other. */
static nodejs_semver_parts parts_of(const nodejs_semver_version *version)
{
    return (nodejs_semver_parts){version->major, version->minor, version->patch,
                                 version->pre_release.len, version->build.len};
}

/* Has the texts of a version lie at a place, and returns the one behind them. */
char *keep(nodejs_semver_version *version, char *at)
{
    nodejs_semver_parts parts = parts_of(version);
    const char *begun = at;
    memcpy(at, version->pre_release.at, parts.pre_release_len);
    at += parts.pre_release_len;
    memcpy(at, version->build.at, parts.build_len);
    *version = kept(&parts, &begun);
    return at + parts.build_len;
}

PyObject *new_version(PyTypeObject *type, const nodejs_semver_version *version)
{
    Version *made = (Version *)((allocfunc)PyType_GetSlot(type, Py_tp_alloc))(type, 0);
    size_t len = version->pre_release.len + version->build.len;
    if (!made)
        return NULL;
    made->hash = -1;
    made->is = *version;
    made->is.pre_release.at = made->is.build.at = "";
    if (len) {
        made->texts = PyMem_Malloc(len);
        if (!made->texts) {
            Py_DECREF(made);
            return PyErr_NoMemory();
        }
        made->is = *version;
        keep(&made->is, made->texts);
    }
    return (PyObject *)made;
}

/* The version that the library told, or None where there is nothing. */
PyObject *told_version(PyTypeObject *type, Status status, const nodejs_semver_parts *parts,
                              Text *text)
{
    PyObject *made = NULL;
    const char *at = text->at;
    if (status == OK) {
        nodejs_semver_version version = kept(parts, &at);
        made = new_version(type, &version);
    } else if (status == NOTHING) {
        made = Py_NewRef(Py_None);
    } else {
        failed(status);
    }
    end_text(text);
    return made;
}

/* Reads a version. */
static PyObject *read_version(PyTypeObject *type, PyObject *value, bool is_lenient)
{
    size_t len;
    const char *at = text_of(value, "a str or a Version", &len);
    nodejs_semver_parts parts = {0};
    Status status = NODEJS_SEMVER_NOT_UTF8;
    Text text;
    begin_text(&text);
    if (at) {
        do {
            status = nodejs_semver_version_read(is_lenient ? PORT : NPM, at, len, &parts,
                                                text.at, text.size);
            text.len = parts.pre_release_len + parts.build_len;
        } while (grows(&text, &status));
    } else if (!is_not_utf8()) {
        return NULL;
    }
    if (status == OK || status == NODEJS_SEMVER_NO_MEMORY)
        return told_version(type, status, &parts, &text);
    end_text(&text);
    return raised("version",
                  Py_BuildValue("(OOI)", value, is_lenient ? Py_True : Py_False, status));
}

/* The version of a Version or a str, as a new reference. */
PyObject *version_of(PyObject *value)
{
    return is_version(value) ? Py_NewRef(value) : read_version(made_type, value, false);
}

static PyObject *version_new(PyTypeObject *type, PyObject *args, PyObject *named)
{
    static char *names[] = {"", "lenient", NULL};
    PyObject *value, *flag = Py_False;
    bool is_lenient;
    if (!PyArg_ParseTupleAndKeywords(args, named, "O|$O:Version", names, &value, &flag) ||
        !is_flag(flag, &is_lenient))
        return NULL;
    if (!is_version(value))
        return read_version(type, value, is_lenient);
    return Py_TYPE(value) == type ? Py_NewRef(value) : new_version(type, &((Version *)value)->is);
}

static void version_dealloc(PyObject *self)
{
    PyTypeObject *type = Py_TYPE(self);
    PyMem_Free(((Version *)self)->texts);
    ((freefunc)PyType_GetSlot(type, Py_tp_free))(self);
    Py_DECREF(type);
}

static PyObject *version_str(PyObject *self)
{
    Text text;
    Status status;
    begin_text(&text);
    do
        status = nodejs_semver_print(&((Version *)self)->is, text.at, text.size, &text.len);
    while (grows(&text, &status));
    return printed(&text, status);
}

/* A number of 64 bits, or false with an error. */
static bool is_number(PyObject *value, uint64_t *number)
{
    if (!PyLong_Check(value) || PyBool_Check(value)) {
        wrong_type("an int", value);
        return false;
    }
    *number = PyLong_AsUnsignedLongLong(value);
    if (!PyErr_Occurred())
        return true;
    if (PyErr_ExceptionMatches(PyExc_OverflowError)) {
        PyErr_Clear();
        PyErr_Format(PyExc_ValueError, "a number has 64 bits and no sign, not %R", value);
    }
    return false;
}

/* The status of a version of the caller: OK only if its identifiers are printed as they are. */
static Status spelled(const nodejs_semver_version *version)
{
    const nodejs_semver_text *pre = &version->pre_release, *build = &version->build;
    size_t signs = build->len ? 1 : 0;
    Text text;
    Status status;
    begin_text(&text);
    do
        status = nodejs_semver_print(version, text.at, text.size, &text.len);
    while (grows(&text, &status));
    if (status == OK) {
        const char *last = text.at + text.len;
        if (text.len < pre->len + signs + build->len ||
            memcmp(last - build->len, build->at, build->len) ||
            memcmp(last - build->len - signs - pre->len, pre->at, pre->len))
            status = NODEJS_SEMVER_BAD_VERSION;
    }
    end_text(&text);
    return status;
}

/* Makes a version of its numbers and the texts of its identifiers. */
static PyObject *version_from(PyObject *type, PyObject *args)
{
    PyObject *numbers[3], *pre, *build;
    nodejs_semver_version is;
    if (!PyArg_ParseTuple(args, "OOOOO", &numbers[0], &numbers[1], &numbers[2], &pre, &build) ||
        !is_number(numbers[0], &is.major) || !is_number(numbers[1], &is.minor) ||
        !is_number(numbers[2], &is.patch))
        return NULL;
    is.pre_release.at = text_of(pre, "a str", &is.pre_release.len);
    is.build.at = is.pre_release.at ? text_of(build, "a str", &is.build.len) : NULL;
    if (!is.build.at && !is_not_utf8())
        return NULL;
    Status status = is.build.at ? spelled(&is) : NODEJS_SEMVER_BAD_VERSION;
    if (status == OK)
        return new_version((PyTypeObject *)type, &is);
    return status == NODEJS_SEMVER_BAD_VERSION ? raised("parts", Py_NewRef(args)) : failed(status);
}

static PyObject *version_compare(PyObject *self, PyObject *other, int operation)
{
    int32_t order;
    if (!is_version(self) || !is_version(other))
        Py_RETURN_NOTIMPLEMENTED;
    Status status = nodejs_semver_order(&((Version *)self)->is, &((Version *)other)->is, &order);
    if (status != OK)
        return failed(status);
    Py_RETURN_RICHCOMPARE(order, 0, operation);
}

static PyObject *version_order(PyObject *self, PyObject *other)
{
    int32_t order;
    if (!is_version(other))
        return wrong_type("a Version", other);
    Status status = nodejs_semver_order(&((Version *)self)->is, &((Version *)other)->is, &order);
    return status == OK ? PyLong_FromLong(order) : failed(status);
}

static PyObject *version_order_with_builds(PyObject *self, PyObject *other)
{
    int32_t order;
    if (!is_version(other))
        return wrong_type("a Version", other);
    const nodejs_semver_version *is = &((Version *)self)->is;
    Status status = nodejs_semver_order_with_builds(is, &((Version *)other)->is, &order);
    return status == OK ? PyLong_FromLong(order) : failed(status);
}

static PyObject *version_kind(PyObject *self, PyObject *other)
{
    uint32_t kind;
    if (!is_version(other))
        return wrong_type("a Version", other);
    Status status = nodejs_semver_kind(&((Version *)self)->is, &((Version *)other)->is, &kind);
    return status == OK ? PyLong_FromUnsignedLong(kind) : failed(status);
}

/* The status of an increment by a level, and the next version, or None. */
static PyObject *version_next(PyObject *self, PyObject *args)
{
    PyObject *given[2];
    const char *at[2];
    size_t len[2];
    unsigned base;
    if (!PyArg_ParseTuple(args, "OOI", &given[0], &given[1], &base))
        return NULL;
    for (int place = 0; place < 2; place++)
        if (!(at[place] = text_of(given[place], "a str", &len[place])))
            return is_not_utf8() ? raised("not_utf8", Py_BuildValue("(O)", given[place])) : NULL;
    nodejs_semver_parts parts = {0};
    Text text;
    Status status;
    begin_text(&text);
    do {
        status = nodejs_semver_next(&((Version *)self)->is, at[0], len[0], at[1], len[1], base,
                                    &parts, text.at, text.size);
        text.len = parts.pre_release_len + parts.build_len;
    } while (grows(&text, &status));
    Status told = status == OK || status == NODEJS_SEMVER_NO_MEMORY ? status : NOTHING;
    PyObject *next = told_version(Py_TYPE(self), told, &parts, &text);
    return next ? Py_BuildValue("(IN)", status, next) : NULL;
}

/* ---- keys, as docs/KEYS.md has them */

/* Writes a number, and returns the place behind it. */
static char *put_number(char *at, uint64_t number)
{
    int bytes = number < 251 ? 1 : number < 65536 ? 2 : number < UINT64_C(4294967296) ? 4 : 8;
    if (bytes > 1)
        *at++ = (char)(bytes == 2 ? 251 : bytes == 4 ? 252 : 253);
    while (bytes--)
        *at++ = (char)(number >> 8 * bytes);
    return at;
}

/* Whether a text is a number of 64 bits in decimal. */
static bool is_numeric(const char *text, size_t len, uint64_t *number)
{
    *number = 0;
    for (size_t at = 0; at < len; at++) {
        if (text[at] < '0' || text[at] > '9')
            return false;
        uint64_t digit = (uint64_t)(text[at] - '0');
        if (*number > (UINT64_MAX - digit) / 10)
            return false;
        *number = *number * 10 + digit;
    }
    return true;
}

static char *put_identifier(char *at, const char *text, size_t len)
{
    uint64_t number;
    if (is_numeric(text, len, &number)) {
        *at++ = 1;
        return put_number(at, number);
    }
    *at++ = 2;
    memcpy(at, text, len);
    at[len] = 0;
    return at + len + 1;
}

static PyObject *version_key(PyObject *self, void *Py_UNUSED(closure))
{
    const nodejs_semver_version *version = &((Version *)self)->is;
    const char *text = version->pre_release.at, *last = text + version->pre_release.len;
    /* A number takes up to 9 bytes, and an identifier at most twice its text and the dot. */
    char *first = PyMem_Malloc((size_t)(last - text) * 2 + 32), *at = first;
    if (!first)
        return PyErr_NoMemory();
    at = put_number(put_number(put_number(at, version->major), version->minor), version->patch);
    *at = 3;
    for (; text < last; text++) {
        const char *dot = memchr(text, '.', (size_t)(last - text));
        dot = dot ? dot : last;
        at = put_identifier(at, text, (size_t)(dot - text));
        *at = 0;
        text = dot;
    }
    PyObject *made = PyBytes_FromStringAndSize(first, at + 1 - first);
    PyMem_Free(first);
    return made;
}

static Py_hash_t version_hash(PyObject *self)
{
    Version *version = (Version *)self;
    if (version->hash == -1) {
        PyObject *key = version_key(self, NULL);
        if (!key)
            return -1;
        version->hash = PyObject_Hash(key);
        Py_DECREF(key);
    }
    return version->hash;
}

static PyObject *version_major(PyObject *self, void *Py_UNUSED(closure))
{
    return PyLong_FromUnsignedLongLong(((Version *)self)->is.major);
}

static PyObject *version_minor(PyObject *self, void *Py_UNUSED(closure))
{
    return PyLong_FromUnsignedLongLong(((Version *)self)->is.minor);
}

static PyObject *version_patch(PyObject *self, void *Py_UNUSED(closure))
{
    return PyLong_FromUnsignedLongLong(((Version *)self)->is.patch);
}

static PyObject *decoded(nodejs_semver_text text)
{
    return PyUnicode_DecodeUTF8(text.at, (Py_ssize_t)text.len, "strict");
}

static PyObject *version_pre(PyObject *self, void *Py_UNUSED(closure))
{
    return decoded(((Version *)self)->is.pre_release);
}

static PyObject *version_build(PyObject *self, void *Py_UNUSED(closure))
{
    return decoded(((Version *)self)->is.build);
}

static PyMethodDef version_methods[] = {
    {"_from", version_from, METH_VARARGS | METH_CLASS, NULL},
    {"_order", version_order, METH_O, NULL},
    {"_order_with_builds", version_order_with_builds, METH_O, NULL},
    {"_kind", version_kind, METH_O, NULL},
    {"_next", version_next, METH_VARARGS, NULL},
    {0},
};

static PyGetSetDef version_fields[] = {
    {"major", version_major, NULL, "The first number.", NULL},
    {"minor", version_minor, NULL, "The second number.", NULL},
    {"patch", version_patch, NULL, "The third number.", NULL},
    {"key", version_key, NULL, "Bytes that compare as versions do.", NULL},
    {"_pre", version_pre, NULL, NULL, NULL},
    {"_build", version_build, NULL, NULL, NULL},
    {0},
};

static PyType_Slot version_slots[] = {
    {Py_tp_new, version_new},       {Py_tp_dealloc, version_dealloc},
    {Py_tp_str, version_str},       {Py_tp_richcompare, version_compare},
    {Py_tp_hash, version_hash},     {Py_tp_methods, version_methods},
    {Py_tp_getset, version_fields}, {0, NULL},
};

PyType_Spec version_spec = {
    .name = "npm_semver._native.Version",
    .basicsize = sizeof(Version),
    .flags = Py_TPFLAGS_DEFAULT | Py_TPFLAGS_BASETYPE | Py_TPFLAGS_IMMUTABLETYPE,
    .slots = version_slots,
};
