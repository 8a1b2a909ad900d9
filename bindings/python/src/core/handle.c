/* Handles: how they are made, and what maps and snapshots both have. */
#include "core.h"

PyTypeObject *handle_type;

/* --- Keys and values. --- */

static int bytes_of(PyObject *object, text *out) {
    char *at;
    Py_ssize_t len;
    if (PyBytes_AsStringAndSize(object, &at, &len) < 0) return -1;
    out->at = (const uint8_t *)at;
    out->len = (size_t)len;
    return 0;
}

/* The bytes of a key. */
int key_of(const handle *self, PyObject *object, text *out) {
    if (!self->has_str_keys) return bytes_of(object, out);
    Py_ssize_t len;
    const char *at = PyUnicode_AsUTF8AndSize(object, &len);
    if (at == NULL) {
        if (PyErr_ExceptionMatches(PyExc_TypeError)) PyErr_Format(PyExc_TypeError, "the keys of this map are str, not %R", Py_TYPE(object));
        return -1;
    }
    out->at = (const uint8_t *)at;
    out->len = (size_t)len;
    return 0;
}

int value_of(const handle *self, PyObject *object, value *out) {
    if (self->has_bytes_values) return bytes_of(object, &out->text);
    out->number = PyLong_AsUnsignedLongLong(object);
    return out->number == (uint64_t)-1 && PyErr_Occurred() ? -1 : 0;
}

/* --- The lock. --- */

void acquire(handle *self) {
    if (pthread_mutex_trylock(&self->lock) == 0) return;
    Py_BEGIN_ALLOW_THREADS
    pthread_mutex_lock(&self->lock);
    Py_END_ALLOW_THREADS
}

void release(handle *self) { pthread_mutex_unlock(&self->lock); }

/* --- Making and ending handles. --- */

/* A handle of the type, whose map has no pairs. */
handle *make_handle(PyTypeObject *type, char has_str_keys, char has_bytes_values) {
    allocfunc alloc = (allocfunc)PyType_GetSlot(type, Py_tp_alloc);
    handle *self = (handle *)alloc(type, 0);
    if (self == NULL) return NULL;
    self->has_str_keys = has_str_keys;
    self->has_bytes_values = has_bytes_values;
    if (pthread_mutex_init(&self->lock, NULL) != 0) {
        Py_DECREF(self);
        PyErr_NoMemory();
        return NULL;
    }
    if (has_bytes_values)
        tambyulo_texts_init(&self->map.texts);
    else
        tambyulo_init(&self->map.numbers);
    self->is_made = 1;
    return self;
}

/* The types that have no constructor. */
PyObject *no_new(PyTypeObject *type, PyObject *arguments, PyObject *words) {
    (void)arguments;
    (void)words;
    return PyErr_Format(PyExc_TypeError, "%R is not constructed: Map.snapshot() and iter() make such objects", type);
}

/* A handle of the type with the pairs of another. */
handle *fork_handle(PyTypeObject *type, handle *source) {
    handle *self = make_handle(type, source->has_str_keys, source->has_bytes_values);
    if (self == NULL) return NULL;
    acquire(source);
    uint64_t status = source->has_bytes_values ? tambyulo_texts_fork(&source->map.texts, &self->map.texts)
                                               : tambyulo_fork(&source->map.numbers, &self->map.numbers);
    release(source);
    if (status != 0) {
        Py_DECREF(self);
        PyErr_NoMemory();
        return NULL;
    }
    return self;
}

/* The same as a method of a class: a handle of that class with the pairs of another handle. */
static PyObject *handle_fork(PyObject *type, PyObject *source) {
    int is_handle = PyObject_IsInstance(source, (PyObject *)handle_type);
    if (is_handle < 0) return NULL;
    if (!is_handle) return PyErr_Format(PyExc_TypeError, "a Map or a Snapshot, not %R", source);
    return (PyObject *)fork_handle((PyTypeObject *)type, (handle *)source);
}

static void handle_dealloc(PyObject *object) {
    handle *self = (handle *)object;
    PyTypeObject *type = Py_TYPE(object);
    if (self->is_made) {
        if (self->has_bytes_values)
            tambyulo_texts_drop(&self->map.texts);
        else
            tambyulo_drop(&self->map.numbers);
        pthread_mutex_destroy(&self->lock);
    }
    freefunc release_memory = (freefunc)PyType_GetSlot(type, Py_tp_free);
    release_memory(object);
    Py_DECREF(type);
}

/* --- Reads. --- */

/* The value of the key as a new reference, or NULL: with an exception, or with none where the key is absent. */
static PyObject *look_up(handle *self, const text *key) {
    if (!self->has_bytes_values) {
        acquire(self);
        tambyulo_answer answer = tambyulo_get(&self->map.numbers, key->at, key->len);
        release(self);
        return answer.status == TAMBYULO_FOUND ? PyLong_FromUnsignedLongLong(answer.value) : NULL;
    }
    uint8_t few[256];
    acquire(self);
    tambyulo_answer answer = tambyulo_texts_get(&self->map.texts, key->at, key->len, few, sizeof few);
    PyObject *found = NULL;
    if (answer.status == TAMBYULO_FOUND) {
        char *at;
        int is_long = answer.value > sizeof few;
        found = PyBytes_FromStringAndSize(is_long ? NULL : (char *)few, (Py_ssize_t)answer.value);
        if (is_long && found != NULL && (at = PyBytes_AsString(found)) != NULL)
            tambyulo_texts_get(&self->map.texts, key->at, key->len, (uint8_t *)at, (size_t)answer.value);
    }
    release(self);
    return found;
}

static int has_key(handle *self, const text *key) {
    uint8_t none[1];
    acquire(self);
    tambyulo_answer answer = self->has_bytes_values ? tambyulo_texts_get(&self->map.texts, key->at, key->len, none, 0)
                                                    : tambyulo_get(&self->map.numbers, key->at, key->len);
    release(self);
    return answer.status == TAMBYULO_FOUND;
}

static PyObject *handle_subscript(PyObject *object, PyObject *key_object) {
    text key;
    if (key_of((handle *)object, key_object, &key) < 0) return NULL;
    PyObject *found = look_up((handle *)object, &key);
    if (found == NULL && !PyErr_Occurred()) PyErr_SetObject(PyExc_KeyError, key_object);
    return found;
}

static int handle_contains(PyObject *object, PyObject *key_object) {
    text key;
    if (key_of((handle *)object, key_object, &key) < 0) return -1;
    return has_key((handle *)object, &key);
}

static Py_ssize_t handle_len(PyObject *object) {
    handle *self = (handle *)object;
    acquire(self);
    uint64_t len = self->has_bytes_values ? tambyulo_texts_len(&self->map.texts) : tambyulo_len(&self->map.numbers);
    release(self);
    return (Py_ssize_t)len;
}

int one_or_two(const char *name, Py_ssize_t count) {
    if (count == 1 || count == 2) return 0;
    PyErr_Format(PyExc_TypeError, "%s takes a key, and what to return where it is absent", name);
    return -1;
}

static PyObject *handle_get(PyObject *object, PyObject *const *arguments, Py_ssize_t count) {
    text key;
    if (one_or_two("get", count) < 0 || key_of((handle *)object, arguments[0], &key) < 0) return NULL;
    PyObject *found = look_up((handle *)object, &key);
    if (found != NULL || PyErr_Occurred()) return found;
    found = count == 2 ? arguments[1] : Py_None;
    Py_INCREF(found);
    return found;
}

static PyObject *handle_count_prefix(PyObject *object, PyObject *prefix_object) {
    handle *self = (handle *)object;
    text prefix;
    if (key_of(self, prefix_object, &prefix) < 0) return NULL;
    uint64_t count;
    acquire(self);
    Py_BEGIN_ALLOW_THREADS
    count = self->has_bytes_values ? tambyulo_texts_count_prefix(&self->map.texts, prefix.at, prefix.len)
                                   : tambyulo_count_prefix(&self->map.numbers, prefix.at, prefix.len);
    Py_END_ALLOW_THREADS
    release(self);
    return PyLong_FromUnsignedLongLong(count);
}

static PyObject *handle_key_type(PyObject *object, void *unused) {
    (void)unused;
    PyObject *type = (PyObject *)(((handle *)object)->has_str_keys ? &PyUnicode_Type : &PyBytes_Type);
    Py_INCREF(type);
    return type;
}

static PyObject *handle_value_type(PyObject *object, void *unused) {
    (void)unused;
    PyObject *type = (PyObject *)(((handle *)object)->has_bytes_values ? &PyBytes_Type : &PyLong_Type);
    Py_INCREF(type);
    return type;
}

/* --- The type. --- */

static PyMethodDef handle_methods[] = {
    {"get", (PyCFunction)(void (*)(void))handle_get, METH_FASTCALL, "get(key, default=None): the value of the key, or the default."},
    {"count_prefix", handle_count_prefix, METH_O, "count_prefix(prefix): how many keys begin with the prefix. It walks over all pairs."},
    {"_walk", walk, METH_O, NULL},
    {"_fork", handle_fork, METH_O | METH_CLASS, NULL},
    {NULL, NULL, 0, NULL},
};

static PyGetSetDef handle_members[] = {
    {"key_type", handle_key_type, NULL, "The type of the keys: bytes or str.", NULL},
    {"value_type", handle_value_type, NULL, "The type of the values: int or bytes.", NULL},
    {NULL, NULL, NULL, NULL, NULL},
};

static PyType_Slot handle_slots[] = {
    {Py_tp_new, no_new},
    {Py_tp_dealloc, handle_dealloc},
    {Py_tp_methods, handle_methods},
    {Py_tp_getset, handle_members},
    {Py_tp_iter, iterate},
    {Py_mp_length, handle_len},
    {Py_mp_subscript, handle_subscript},
    {Py_sq_contains, handle_contains},
    {0, NULL},
};

PyType_Spec handle_spec = {
    .name = "tambyulo._core.Handle",
    .basicsize = sizeof(handle),
    .flags = Py_TPFLAGS_DEFAULT | Py_TPFLAGS_BASETYPE,
    .slots = handle_slots,
};
