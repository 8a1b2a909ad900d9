/* Maps: how they are made and written. */
#include "core.h"

PyObject *full_error;

/* One of two types that an argument may be, or the first where it was left out: 0 or 1, or -1 with an exception. */
static int kind_of(PyObject *given, PyTypeObject *first, PyTypeObject *second, const char *name) {
    if (given == NULL || given == (PyObject *)first) return 0;
    if (given == (PyObject *)second) return 1;
    PyErr_Format(PyExc_TypeError, "%s is to be %R or %R, not %R", name, first, second, given);
    return -1;
}

static PyObject *map_new(PyTypeObject *type, PyObject *arguments, PyObject *words) {
    static char *names[] = {"pairs", "keys", "values", "limit", NULL};
    PyObject *pairs = NULL, *keys = NULL, *values = NULL, *limit = NULL;
    if (!PyArg_ParseTupleAndKeywords(arguments, words, "|O$OOO:Map", names, &pairs, &keys, &values, &limit)) return NULL;
    int has_str_keys = kind_of(keys, &PyBytes_Type, &PyUnicode_Type, "keys");
    if (has_str_keys < 0) return NULL;
    int has_bytes_values = kind_of(values, &PyLong_Type, &PyBytes_Type, "values");
    if (has_bytes_values < 0) return NULL;
    uint64_t most = TAMBYULO_MOST_PAIRS;
    if (limit != NULL) {
        most = PyLong_AsUnsignedLongLong(limit);
        if (most == (uint64_t)-1 && PyErr_Occurred()) return NULL;
        if (most < 1 || most > TAMBYULO_MOST_PAIRS) {
            PyErr_Format(PyExc_ValueError, "limit is to be from 1 to %d", (int)TAMBYULO_MOST_PAIRS);
            return NULL;
        }
    }
    handle *self = make_handle(type, (char)has_str_keys, (char)has_bytes_values);
    if (self == NULL) return NULL;
    if (has_bytes_values)
        tambyulo_texts_limit(&self->map.texts, most);
    else
        tambyulo_limit(&self->map.numbers, most);
    return (PyObject *)self;
}

/* --- Writes. --- */

/* Why a write was refused, as an exception. */
static PyObject *refused(uint64_t status) {
    if (status != TAMBYULO_FULL) return PyErr_NoMemory();
    PyErr_SetString(full_error, "the key is new and the map is full");
    return NULL;
}

/* A write that maps a key to a value, on a map of either kind. */
typedef struct writer {
    tambyulo_answer (*number)(tambyulo_map *, const uint8_t *, size_t, uint64_t);
    tambyulo_answer (*text)(tambyulo_texts *, const uint8_t *, size_t, const uint8_t *, size_t);
} writer;

static const writer PUT = {tambyulo_put, tambyulo_texts_put};
static const writer PUT_IF_ABSENT = {tambyulo_put_if_absent, tambyulo_texts_put_if_absent};
static const writer REPLACE = {tambyulo_replace, tambyulo_texts_replace};
static const writer REMOVE_IF = {tambyulo_remove_if, tambyulo_texts_remove_if};

/* Makes the write. The lock is held. */
static tambyulo_answer call(const writer *what, handle *self, const text *key, const value *to) {
    if (self->has_bytes_values) return what->text(&self->map.texts, key->at, key->len, to->text.at, to->text.len);
    return what->number(&self->map.numbers, key->at, key->len, to->number);
}

static tambyulo_answer remove_key(handle *self, const text *key) {
    if (self->has_bytes_values) return tambyulo_texts_remove(&self->map.texts, key->at, key->len);
    return tambyulo_remove(&self->map.numbers, key->at, key->len);
}

/* Whether the write was refused. */
static int is_refused(tambyulo_answer answer) { return answer.status > TAMBYULO_FOUND; }

static int map_ass_subscript(PyObject *object, PyObject *key_object, PyObject *value_object) {
    handle *self = (handle *)object;
    text key;
    value to = {0};
    if (key_of(self, key_object, &key) < 0) return -1;
    if (value_object != NULL && value_of(self, value_object, &to) < 0) return -1;
    acquire(self);
    tambyulo_answer answer = value_object != NULL ? call(&PUT, self, &key, &to) : remove_key(self, &key);
    release(self);
    if (is_refused(answer)) {
        refused(answer.status);
        return -1;
    }
    if (value_object == NULL && answer.status == TAMBYULO_ABSENT) {
        PyErr_SetObject(PyExc_KeyError, key_object);
        return -1;
    }
    return 0;
}

/* The value of the key, with the lock held, as a new reference in `out`: of a map of texts alone, since of numbers the answer
 * of a write has it. Whether it could be made. */
static int text_before(handle *self, const text *key, PyObject **out) {
    *out = NULL;
    if (!self->has_bytes_values) return 0;
    uint8_t none[1];
    tambyulo_answer answer = tambyulo_texts_get(&self->map.texts, key->at, key->len, none, 0);
    if (answer.status != TAMBYULO_FOUND) return 0;
    PyObject *found = PyBytes_FromStringAndSize(NULL, (Py_ssize_t)answer.value);
    char *at = found == NULL ? NULL : PyBytes_AsString(found);
    if (at == NULL) return -1;
    tambyulo_texts_get(&self->map.texts, key->at, key->len, (uint8_t *)at, (size_t)answer.value);
    *out = found;
    return 0;
}

/* The value before a write, from what was got before it and the answer; `other` where there was none. */
static PyObject *before(PyObject *found, tambyulo_answer answer, PyObject *other) {
    if (is_refused(answer)) {
        Py_XDECREF(found);
        return refused(answer.status);
    }
    if (found != NULL) return found;
    if (answer.status == TAMBYULO_FOUND) return PyLong_FromUnsignedLongLong(answer.value);
    Py_XINCREF(other);
    return other;
}

/* A method that maps a key to a value and returns the value before, or None. */
static PyObject *put_by(const writer *what, const char *name, PyObject *object, PyObject *const *arguments, Py_ssize_t count) {
    handle *self = (handle *)object;
    text key;
    value to;
    if (count != 2) return PyErr_Format(PyExc_TypeError, "%s takes a key and a value", name);
    if (key_of(self, arguments[0], &key) < 0 || value_of(self, arguments[1], &to) < 0) return NULL;
    PyObject *found;
    acquire(self);
    if (text_before(self, &key, &found) < 0) {
        release(self);
        return NULL;
    }
    tambyulo_answer answer = call(what, self, &key, &to);
    release(self);
    return before(found, answer, Py_None);
}

static PyObject *map_put(PyObject *object, PyObject *const *arguments, Py_ssize_t count) {
    return put_by(&PUT, "put", object, arguments, count);
}

static PyObject *map_put_if_absent(PyObject *object, PyObject *const *arguments, Py_ssize_t count) {
    return put_by(&PUT_IF_ABSENT, "put_if_absent", object, arguments, count);
}

static PyObject *map_replace(PyObject *object, PyObject *const *arguments, Py_ssize_t count) {
    return put_by(&REPLACE, "replace", object, arguments, count);
}

static PyObject *map_setdefault(PyObject *object, PyObject *const *arguments, Py_ssize_t count) {
    PyObject *found = put_by(&PUT_IF_ABSENT, "setdefault", object, arguments, count);
    if (found != Py_None) return found;
    Py_DECREF(found);
    Py_INCREF(arguments[1]);
    return arguments[1];
}

static PyObject *map_replace_if(PyObject *object, PyObject *const *arguments, Py_ssize_t count) {
    handle *self = (handle *)object;
    text key;
    value old, to;
    if (count != 3) return PyErr_Format(PyExc_TypeError, "replace_if takes a key, the value that it has, and another");
    if (key_of(self, arguments[0], &key) < 0 || value_of(self, arguments[1], &old) < 0 || value_of(self, arguments[2], &to) < 0)
        return NULL;
    acquire(self);
    tambyulo_answer answer =
        self->has_bytes_values
            ? tambyulo_texts_replace_if(&self->map.texts, key.at, key.len, old.text.at, old.text.len, to.text.at, to.text.len)
            : tambyulo_replace_if(&self->map.numbers, key.at, key.len, old.number, to.number);
    release(self);
    return is_refused(answer) ? refused(answer.status) : PyBool_FromLong((long)answer.status);
}

static PyObject *map_remove_if(PyObject *object, PyObject *const *arguments, Py_ssize_t count) {
    handle *self = (handle *)object;
    text key;
    value old;
    if (count != 2) return PyErr_Format(PyExc_TypeError, "remove_if takes a key and a value");
    if (key_of(self, arguments[0], &key) < 0 || value_of(self, arguments[1], &old) < 0) return NULL;
    acquire(self);
    tambyulo_answer answer = call(&REMOVE_IF, self, &key, &old);
    release(self);
    return is_refused(answer) ? refused(answer.status) : PyBool_FromLong((long)answer.status);
}

static PyObject *map_pop(PyObject *object, PyObject *const *arguments, Py_ssize_t count) {
    handle *self = (handle *)object;
    text key;
    if (one_or_two("pop", count) < 0 || key_of(self, arguments[0], &key) < 0) return NULL;
    PyObject *found;
    acquire(self);
    if (text_before(self, &key, &found) < 0) {
        release(self);
        return NULL;
    }
    tambyulo_answer answer = remove_key(self, &key);
    release(self);
    PyObject *value = before(found, answer, count == 2 ? arguments[1] : NULL);
    if (value == NULL && !PyErr_Occurred()) PyErr_SetObject(PyExc_KeyError, arguments[0]);
    return value;
}

static PyObject *map_clear(PyObject *object, PyObject *unused) {
    (void)unused;
    handle *self = (handle *)object;
    acquire(self);
    Py_BEGIN_ALLOW_THREADS
    if (self->has_bytes_values)
        tambyulo_texts_clear(&self->map.texts);
    else
        tambyulo_clear(&self->map.numbers);
    Py_END_ALLOW_THREADS
    release(self);
    Py_INCREF(Py_None);
    return Py_None;
}

/* --- The type. --- */

static PyMethodDef map_methods[] = {
    {"put", (PyCFunction)(void (*)(void))map_put, METH_FASTCALL,
     "put(key, value): maps the key to the value; returns the value before, or None."},
    {"put_if_absent", (PyCFunction)(void (*)(void))map_put_if_absent, METH_FASTCALL,
     "put_if_absent(key, value): maps the key to the value where it has none; returns the value that it had, or None."},
    {"replace", (PyCFunction)(void (*)(void))map_replace, METH_FASTCALL,
     "replace(key, value): maps the key to the value where it has one; returns the value before, or None."},
    {"replace_if", (PyCFunction)(void (*)(void))map_replace_if, METH_FASTCALL,
     "replace_if(key, old, value): maps the key to the value where it has the value old; returns whether it had."},
    {"remove_if", (PyCFunction)(void (*)(void))map_remove_if, METH_FASTCALL,
     "remove_if(key, value): removes the key where it has the value; returns whether it had."},
    {"setdefault", (PyCFunction)(void (*)(void))map_setdefault, METH_FASTCALL,
     "setdefault(key, value): the value of the key, to which it is mapped where it has none."},
    {"pop", (PyCFunction)(void (*)(void))map_pop, METH_FASTCALL,
     "pop(key[, default]): removes the key, and returns the value before, or the default."},
    {"clear", map_clear, METH_NOARGS, "Removes all pairs. It is never refused."},
    {NULL, NULL, 0, NULL},
};

static PyType_Slot map_slots[] = {
    {Py_tp_new, map_new},
    {Py_tp_methods, map_methods},
    {Py_mp_ass_subscript, map_ass_subscript},
    {0, NULL},
};

PyType_Spec map_spec = {
    .name = "tambyulo._core.Map",
    .basicsize = sizeof(handle),
    .flags = Py_TPFLAGS_DEFAULT | Py_TPFLAGS_BASETYPE,
    .slots = map_slots,
};
