/* Ranges that are kept. */
#include "native.h"

PyTypeObject *range_type;

static bool is_range(PyObject *value)
{
    return PyObject_TypeCheck(value, range_type);
}

/* What the library tells of a range: its intervals, and the texts of their bounds. */
typedef struct {
    nodejs_semver_interval_parts own[4];
    nodejs_semver_interval_parts *at;
    size_t size, count;
    Text texts;
} Told;

static void begin_told(Told *told)
{
    told->at = told->own;
    told->size = sizeof told->own / sizeof *told->own;
    told->count = 0;
    begin_text(&told->texts);
}

static void end_told(Told *told)
{
    if (told->at != told->own)
        PyMem_Free(told->at);
    end_text(&told->texts);
}

/* Whether a question is to be asked again, with the room that is needed now. */
static bool grows_told(Told *told, Status *status)
{
    if (*status == NODEJS_SEMVER_TOO_SMALL && told->count > told->size) {
        if (told->at != told->own)
            PyMem_Free(told->at);
        told->size = told->count;
        told->at = PyMem_Malloc(told->count * sizeof *told->at);
        if (!told->at) {
            told->at = told->own;
            *status = NODEJS_SEMVER_NO_MEMORY;
        } else if (told->texts.len <= told->texts.size) {
            return true;
        }
    }
    return grows(&told->texts, status);
}

/* A range with room for intervals and for the texts of their bounds, which begin at a place. */
Range *new_range(PyTypeObject *type, size_t count, size_t len, bool includes, char **texts)
{
    Range *made = (Range *)((allocfunc)PyType_GetSlot(type, Py_tp_alloc))(type, 0);
    if (!made)
        return NULL;
    made->hash = -1;
    made->includes = includes;
    made->count = count;
    made->intervals = PyMem_Malloc(count * sizeof *made->intervals + len);
    if (!made->intervals) {
        Py_DECREF(made);
        return (Range *)PyErr_NoMemory();
    }
    *texts = (char *)(made->intervals + count);
    return made;
}

static PyObject *range_of(PyTypeObject *type, const Told *told, bool includes)
{
    char *texts;
    Range *made = new_range(type, told->count, told->texts.len, includes, &texts);
    if (!made)
        return NULL;
    const char *at = memcpy(texts, told->texts.at, told->texts.len);
    for (size_t place = 0; place < told->count; place++) {
        const nodejs_semver_interval_parts *parts = &told->at[place];
        nodejs_semver_interval *interval = &made->intervals[place];
        interval->lower.kind = parts->lower.kind;
        interval->lower.version = kept(&parts->lower.version, &at);
        interval->upper.kind = parts->upper.kind;
        interval->upper.version = kept(&parts->upper.version, &at);
    }
    return (PyObject *)made;
}

static PyObject *range_new(PyTypeObject *type, PyObject *args, PyObject *named)
{
    static char *names[] = {"", "include_prerelease", "lenient", NULL};
    PyObject *value, *flags[2] = {Py_False, Py_False}, *made = NULL;
    bool includes, is_lenient;
    size_t len;
    if (!PyArg_ParseTupleAndKeywords(args, named, "O|$OO:Range", names, &value, &flags[0],
                                     &flags[1]) ||
        !is_flag(flags[0], &includes) || !is_flag(flags[1], &is_lenient))
        return NULL;
    const char *at = text_of(value, "a str", &len);
    Status status = NODEJS_SEMVER_NOT_UTF8;
    Told told;
    begin_told(&told);
    if (at) {
        do
            status = nodejs_semver_range_read(is_lenient ? PORT : NPM, at, len, includes, told.at,
                                              told.size, &told.count, told.texts.at,
                                              told.texts.size, &told.texts.len);
        while (grows_told(&told, &status));
    } else if (!is_not_utf8()) {
        return NULL;
    }
    if (status == OK)
        made = range_of(type, &told, includes);
    else if (status == NODEJS_SEMVER_NO_MEMORY)
        PyErr_NoMemory();
    else
        raised("range_", Py_BuildValue("(OOOI)", value, flags[0], flags[1], status));
    end_told(&told);
    return made;
}

static void range_dealloc(PyObject *self)
{
    PyTypeObject *type = Py_TYPE(self);
    PyMem_Free(((Range *)self)->intervals);
    ((freefunc)PyType_GetSlot(type, Py_tp_free))(self);
    Py_DECREF(type);
}

PyObject *range_str(PyObject *self)
{
    Range *range = (Range *)self;
    Text text;
    Status status;
    begin_text(&text);
    do
        status = nodejs_semver_print_range(range->intervals, range->count, text.at, text.size,
                                           &text.len);
    while (grows(&text, &status));
    return printed(&text, status);
}

/* Whether a range accepts a version: 1, 0, or -1 with an error. */
static int accepts(const Range *range, PyObject *version)
{
    bool answer;
    Status status = nodejs_semver_accepts(range->intervals, range->count,
                                          &((Version *)version)->is, range->includes, &answer);
    if (status == OK)
        return answer;
    failed(status);
    return -1;
}

static int range_contains(PyObject *self, PyObject *value)
{
    PyObject *version = version_of(value);
    if (!version)
        return -1;
    int answer = accepts((Range *)self, version);
    Py_DECREF(version);
    return answer;
}

/* The iterator over several versions, which one text is not. */
static PyObject *iterated(PyObject *values)
{
    if (PyUnicode_Check(values) || PyBytes_Check(values) || PyByteArray_Check(values))
        return wrong_type("a list of versions", values);
    return PyObject_GetIter(values);
}

static PyObject *range_filter(PyObject *self, PyObject *values)
{
    PyObject *iterator = iterated(values), *found = iterator ? PyList_New(0) : NULL, *value;
    while (found && (value = PyIter_Next(iterator))) {
        int answer = range_contains(self, value);
        if (answer < 0 || (answer && PyList_Append(found, value)))
            Py_CLEAR(found);
        Py_DECREF(value);
    }
    Py_XDECREF(iterator);
    if (PyErr_Occurred())
        Py_CLEAR(found);
    return found;
}

/* Takes a value in place of the best one, if the range accepts its version and that is better. */
static bool is_tried(const Range *range, PyObject *value, int sign, PyObject *best[2])
{
    PyObject *version = version_of(value);
    int answer = version ? accepts(range, version) : -1;
    int32_t order = sign;
    if (answer > 0 && best[1]) {
        Status status = nodejs_semver_order(&((Version *)version)->is,
                                            &((Version *)best[1])->is, &order);
        if (status != OK) {
            failed(status);
            answer = -1;
        }
    }
    if (answer > 0 && order == sign) {
        set(&best[0], value);
        set(&best[1], version);
    }
    Py_XDECREF(version);
    return answer >= 0;
}

/* The greatest of some versions that it accepts, or the smallest: the first of equal ones. */
static PyObject *best_of(PyObject *self, PyObject *values, int sign)
{
    PyObject *iterator = iterated(values), *value, *best[2] = {NULL, NULL};
    bool is_good = iterator != NULL;
    while (is_good && (value = PyIter_Next(iterator))) {
        is_good = is_tried((Range *)self, value, sign, best);
        Py_DECREF(value);
    }
    Py_XDECREF(iterator);
    Py_XDECREF(best[1]);
    if (PyErr_Occurred()) {
        Py_XDECREF(best[0]);
        return NULL;
    }
    return best[0] ? best[0] : Py_NewRef(Py_None);
}

static PyObject *range_max(PyObject *self, PyObject *values)
{
    return best_of(self, values, 1);
}

static PyObject *range_min(PyObject *self, PyObject *values)
{
    return best_of(self, values, -1);
}

/* ---- two ranges */

/* Whether both ranges include pre-releases, or neither does; else there is an error. */
static bool are_alike(const Range *one, const Range *other)
{
    if (one->includes != other->includes)
        PyErr_SetString(PyExc_ValueError, "of two ranges one includes pre-releases");
    return one->includes == other->includes;
}

static bool is_same_text(nodejs_semver_text one, nodejs_semver_text other)
{
    return one.len == other.len && !memcmp(one.at, other.at, one.len);
}

static bool is_same_bound(const nodejs_semver_bound *one, const nodejs_semver_bound *other)
{
    const nodejs_semver_version *is = &one->version, *it = &other->version;
    return one->kind == other->kind &&
           (one->kind == NODEJS_SEMVER_BOUND_NONE ||
            (is->major == it->major && is->minor == it->minor && is->patch == it->patch &&
             is_same_text(is->pre_release, it->pre_release) && is_same_text(is->build, it->build)));
}

static bool is_same(const Range *one, const Range *other)
{
    bool answer = one->count == other->count && one->includes == other->includes;
    for (size_t place = 0; answer && place < one->count; place++) {
        const nodejs_semver_interval *is = &one->intervals[place], *it = &other->intervals[place];
        answer = is_same_bound(&is->lower, &it->lower) && is_same_bound(&is->upper, &it->upper);
    }
    return answer;
}

/* Whether the second range accepts all that the first accepts: 1, 0, or -1 with an error. */
static int is_subset(const Range *one, const Range *other)
{
    bool answer;
    if (!are_alike(one, other))
        return -1;
    Status status = nodejs_semver_is_subset(one->intervals, one->count, other->intervals,
                                            other->count, one->includes, &answer);
    if (status == OK)
        return answer;
    failed(status);
    return -1;
}

static PyObject *range_compare(PyObject *self, PyObject *value, int operation)
{
    if (!is_range(self) || !is_range(value))
        Py_RETURN_NOTIMPLEMENTED;
    const Range *one = (Range *)self, *other = (Range *)value;
    if (operation == Py_EQ || operation == Py_NE)
        return PyBool_FromLong(is_same(one, other) == (operation == Py_EQ));
    if (operation == Py_GE || operation == Py_GT) {
        one = (Range *)value;
        other = (Range *)self;
    }
    int answer = is_subset(one, other);
    if (answer > 0 && (operation == Py_LT || operation == Py_GT)) {
        int back = is_subset(other, one);
        answer = back < 0 ? back : !back;
    }
    return answer < 0 ? NULL : PyBool_FromLong(answer);
}

static Py_hash_t range_hash(PyObject *self)
{
    Range *range = (Range *)self;
    if (range->hash == -1) {
        PyObject *text = range_str(self);
        if (!text)
            return -1;
        range->hash = PyObject_Hash(text);
        Py_DECREF(text);
    }
    return range->hash;
}

/* What accepts nothing, as npm writes it: <0.0.0-0. */
static const Told nothing = {
    .own = {{.upper = {NODEJS_SEMVER_BOUND_OPEN, {.pre_release_len = 1}}}},
    .count = 1,
    .texts = {.own = "0", .len = 1},
};

static PyObject *new_nothing(PyTypeObject *type, bool includes)
{
    Told told = nothing;
    told.at = told.own;
    told.texts.at = told.texts.own;
    return range_of(type, &told, includes);
}

static bool is_nothing(const Range *range)
{
    const nodejs_semver_bound *upper = &range->intervals[0].upper;
    const nodejs_semver_version *is = &upper->version;
    return range->count == 1 && range->intervals[0].lower.kind == NODEJS_SEMVER_BOUND_NONE &&
           upper->kind == NODEJS_SEMVER_BOUND_OPEN && !is->major && !is->minor && !is->patch &&
           is->pre_release.len == 1 && *is->pre_release.at == '0';
}

typedef Status Operation(const nodejs_semver_interval *, size_t, const nodejs_semver_interval *,
                         size_t, nodejs_semver_interval_parts *, size_t, size_t *, char *, size_t,
                         size_t *);

/* The range that an operation makes of two; of one that accepts nothing a given one. */
static PyObject *combined(PyObject *self, PyObject *value, Operation *operation,
                          PyObject *with_nothing)
{
    const Range *one = (Range *)self, *other = (Range *)value;
    PyTypeObject *type = Py_TYPE(self);
    PyObject *made = NULL;
    Status status;
    Told told;
    if (!are_alike(one, other))
        return NULL;
    if (is_nothing(one) || is_nothing(other))
        return Py_NewRef(with_nothing);
    begin_told(&told);
    do
        status = operation(one->intervals, one->count, other->intervals, other->count, told.at,
                           told.size, &told.count, told.texts.at, told.texts.size,
                           &told.texts.len);
    while (grows_told(&told, &status));
    if (status == OK)
        made = range_of(type, &told, one->includes);
    else if (status == NOTHING)
        made = new_nothing(type, one->includes);
    else
        failed(status);
    end_told(&told);
    return made;
}

static PyObject *range_and(PyObject *self, PyObject *value)
{
    if (!is_range(self) || !is_range(value))
        Py_RETURN_NOTIMPLEMENTED;
    return combined(self, value, nodejs_semver_intersect,
                    is_nothing((Range *)self) ? self : value);
}

static PyObject *range_or(PyObject *self, PyObject *value)
{
    if (!is_range(self) || !is_range(value))
        Py_RETURN_NOTIMPLEMENTED;
    return combined(self, value, nodejs_semver_union, is_nothing((Range *)self) ? value : self);
}

static PyObject *range_subtract(PyObject *self, PyObject *value)
{
    if (!is_range(self) || !is_range(value))
        Py_RETURN_NOTIMPLEMENTED;
    return combined(self, value, nodejs_semver_difference, self);
}

static PyObject *range_meets(PyObject *self, PyObject *value)
{
    bool answer;
    if (!is_range(value))
        return wrong_type("a Range", value);
    const Range *one = (Range *)self, *other = (Range *)value;
    if (!are_alike(one, other))
        return NULL;
    Status status = nodejs_semver_meets(one->intervals, one->count, other->intervals,
                                        other->count, &answer);
    return status == OK ? PyBool_FromLong(answer) : failed(status);
}

static PyObject *range_min_version(PyObject *self, PyObject *Py_UNUSED(none))
{
    const Range *range = (Range *)self;
    nodejs_semver_parts parts = {0};
    Status status;
    Text text;
    begin_text(&text);
    do {
        status = nodejs_semver_least_version(range->intervals, range->count, &parts, text.at,
                                             text.size);
        text.len = parts.pre_release_len + parts.build_len;
    } while (grows(&text, &status));
    return told_version(made_type, status, &parts, &text);
}

static PyObject *range_least_beyond(PyObject *self, PyObject *value)
{
    nodejs_semver_parts parts = {0};
    Status status;
    Text text;
    if (!is_range(value))
        return wrong_type("a Range", value);
    const Range *one = (Range *)self, *other = (Range *)value;
    if (!are_alike(one, other))
        return NULL;
    begin_text(&text);
    do {
        status = nodejs_semver_least_beyond(one->intervals, one->count, other->intervals,
                                            other->count, one->includes, &parts, text.at,
                                            text.size);
        text.len = parts.pre_release_len + parts.build_len;
    } while (grows(&text, &status));
    return told_version(made_type, status, &parts, &text);
}

/* Whether a version is above the range, or below it. */
static PyObject *range_outside(PyObject *self, PyObject *args)
{
    const Range *range = (Range *)self;
    PyObject *value, *flag;
    bool is_above, answer;
    if (!PyArg_ParseTuple(args, "OO", &value, &flag) || !is_flag(flag, &is_above))
        return NULL;
    PyObject *version = version_of(value);
    if (!version)
        return NULL;
    Status status = nodejs_semver_lies_outside(range->intervals, range->count,
                                               &((Version *)version)->is, is_above,
                                               range->includes, &answer);
    Py_DECREF(version);
    return status == OK ? PyBool_FromLong(answer) : failed(status);
}

/* ---- the class */

static PyObject *range_includes(PyObject *self, void *Py_UNUSED(closure))
{
    return PyBool_FromLong(((Range *)self)->includes);
}

static PyMethodDef range_methods[] = {
    {"_from", range_from, METH_VARARGS | METH_CLASS, NULL},
    {"_bounds", range_bounds, METH_NOARGS, NULL},
    {"_filter", range_filter, METH_O, NULL},
    {"_max", range_max, METH_O, NULL},
    {"_min", range_min, METH_O, NULL},
    {"_meets", range_meets, METH_O, NULL},
    {"_min_version", range_min_version, METH_NOARGS, NULL},
    {"_least_beyond", range_least_beyond, METH_O, NULL},
    {"_outside", range_outside, METH_VARARGS, NULL},
    {0},
};

static PyGetSetDef range_fields[] = {
    {"include_prerelease", range_includes, NULL,
     "Whether it accepts each pre-release within its bounds.", NULL},
    {0},
};

static PyType_Slot range_slots[] = {
    {Py_tp_new, range_new},         {Py_tp_dealloc, range_dealloc},
    {Py_tp_str, range_str},         {Py_tp_richcompare, range_compare},
    {Py_tp_hash, range_hash},       {Py_sq_contains, range_contains},
    {Py_nb_and, range_and},         {Py_nb_or, range_or},
    {Py_nb_subtract, range_subtract}, {Py_tp_methods, range_methods},
    {Py_tp_getset, range_fields},   {0, NULL},
};

PyType_Spec range_spec = {
    .name = "npm_semver._native.Range",
    .basicsize = sizeof(Range),
    .flags = Py_TPFLAGS_DEFAULT | Py_TPFLAGS_BASETYPE | Py_TPFLAGS_IMMUTABLETYPE,
    .slots = range_slots,
};
