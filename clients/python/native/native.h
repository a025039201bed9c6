/*
 * The compiled part of the Python package npm_semver: versions and ranges that are kept, and asked
 * of the C library. It uses the stable interface of CPython alone, so that one build is for
 * Python 3.10 and each later one. What the classes offer beside this is in __init__.py.
 */
#ifndef NATIVE_H
#define NATIVE_H

#define Py_LIMITED_API 0x030A0000
#define PY_SSIZE_T_CLEAN
#include <Python.h>
#include <stdbool.h>
#include <string.h>

#include "nodejs_semver.h"

#define OK NODEJS_SEMVER_OK
#define NOTHING NODEJS_SEMVER_NOTHING
#define NPM NODEJS_SEMVER_READING_NPM
#define PORT NODEJS_SEMVER_READING_PORT

typedef nodejs_semver_status Status;

/* A version. Its texts lie in a block of its own, if it has any. */
typedef struct {
    PyObject_HEAD
    Py_hash_t hash;
    char *texts;
    nodejs_semver_version is;
} Version;

/* A range. The texts of its bounds lie behind its intervals, in the same block. */
typedef struct {
    PyObject_HEAD
    Py_hash_t hash;
    nodejs_semver_interval *intervals;
    size_t count;
    bool includes;
} Range;

/* The two classes here, and the class of the versions that are made, which is a subclass. */
extern PyTypeObject *version_type, *range_type, *made_type;
extern PyType_Spec version_spec, range_spec;

/* A buffer that grows to what the library needs. */
typedef struct {
    char own[512];
    char *at;
    size_t size, len;
} Text;

/* Each raises an error, and returns NULL. */
void *wrong_type(const char *wanted, PyObject *value);
void *raised(const char *maker, PyObject *given);
void *failed(Status status);

void set(PyObject **place, PyObject *value);
const char *text_of(PyObject *value, const char *wanted, size_t *len);
bool is_not_utf8(void);
bool is_flag(PyObject *value, bool *flag);

void begin_text(Text *text);
void end_text(Text *text);
bool grows(Text *text, Status *status);
PyObject *printed(Text *text, Status status);

bool is_version(PyObject *value);
nodejs_semver_version kept(const nodejs_semver_parts *parts, const char **at);
char *keep(nodejs_semver_version *version, char *at);
PyObject *new_version(PyTypeObject *type, const nodejs_semver_version *version);
PyObject *told_version(PyTypeObject *type, Status status, const nodejs_semver_parts *parts,
                       Text *text);
PyObject *version_of(PyObject *value);

Range *new_range(PyTypeObject *type, size_t count, size_t len, bool includes, char **texts);
PyObject *range_str(PyObject *self);
PyObject *range_bounds(PyObject *self, PyObject *none);
PyObject *range_from(PyObject *type, PyObject *args);

#endif
