/* What the files of the extension share. */
#ifndef CORE_H
#define CORE_H

#define PY_SSIZE_T_CLEAN
/* Python's stable ABI of 3.10. */
#define Py_LIMITED_API 0x030A0000
#include <Python.h>
/* (Python.h comes first, since it says which of the system's declarations are seen) */
#include "tambyulo.h"
#include <pthread.h>

/* A map or a snapshot.
 *
 * The lock gives the map to one call at a time. Mostly the interpreter's own lock does that already; but count_prefix and
 * clear, which take long, let go of it, and other threads may then make calls on the same handle. */
typedef struct handle {
    PyObject_HEAD
    pthread_mutex_t lock;
    /* Whether there is a map: not yet where the construction failed. */
    char is_made;
    char has_str_keys;
    char has_bytes_values;
    union {
        tambyulo_map numbers;
        tambyulo_texts texts;
    } map;
} handle;

/* Some bytes of a Python object that is held meanwhile. */
typedef struct text {
    const uint8_t *at;
    size_t len;
} text;

/* A value: its number, or its bytes. */
typedef struct value {
    uint64_t number;
    text text;
} value;

/* handle.c: each returns -1, or NULL, with an exception. */
int key_of(const handle *self, PyObject *object, text *out);
int value_of(const handle *self, PyObject *object, value *out);
void acquire(handle *self);
void release(handle *self);
handle *make_handle(PyTypeObject *type, char has_str_keys, char has_bytes_values);
handle *fork_handle(PyTypeObject *type, handle *source);
PyObject *no_new(PyTypeObject *type, PyObject *arguments, PyObject *words);
/* That a method was given one or two arguments: a key, and what to return where it is absent. */
int one_or_two(const char *name, Py_ssize_t count);
extern PyType_Spec handle_spec;
extern PyTypeObject *handle_type;

/* walk.c */
PyObject *iterate(PyObject *object);
PyObject *walk(PyObject *object, PyObject *what);
extern PyType_Spec walk_spec;
extern PyTypeObject *walk_type;

/* map.c */
extern PyType_Spec map_spec;
extern PyObject *full_error;

#endif
