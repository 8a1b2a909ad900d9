/* Walks over pairs. */
#include "core.h"

PyTypeObject *walk_type;

/* How many bytes a page has room for at first. */
enum { ROOM = 4096 };

static PyObject *key_object(char has_str_keys, const uint8_t *at, size_t len) {
    if (has_str_keys) return PyUnicode_DecodeUTF8((const char *)at, (Py_ssize_t)len, "strict");
    return PyBytes_FromStringAndSize((const char *)at, (Py_ssize_t)len);
}

enum { KEYS = 0, VALUES = 1, ITEMS = 2 };

/* A walk over the pairs of a map of its own, a page at a time. */
typedef struct walker {
    PyObject_HEAD
    handle *map;
    int what;
    uint8_t *page;
    size_t room;
    /* Where the next pair of the page is, and how many are left there. */
    const uint8_t *at;
    uint64_t pairs;
    /* The number of the next page's first pair. */
    uint64_t from;
} walker;

static PyObject *start_walk(PyObject *object, int what) {
    allocfunc alloc = (allocfunc)PyType_GetSlot(walk_type, Py_tp_alloc);
    walker *self = (walker *)alloc(walk_type, 0);
    if (self == NULL) return NULL;
    self->what = what;
    self->map = fork_handle(Py_TYPE(object), (handle *)object);
    self->page = PyMem_Malloc(ROOM);
    self->room = ROOM;
    if (self->map != NULL && self->page == NULL) PyErr_NoMemory();
    if (self->map == NULL || self->page == NULL) {
        Py_DECREF(self);
        return NULL;
    }
    return (PyObject *)self;
}

PyObject *iterate(PyObject *object) { return start_walk(object, KEYS); }

PyObject *walk(PyObject *object, PyObject *what) {
    long number = PyLong_AsLong(what);
    if (number == -1 && PyErr_Occurred()) return NULL;
    if (number < KEYS || number > ITEMS) {
        PyErr_SetString(PyExc_ValueError, "0 for keys, 1 for values, 2 for both");
        return NULL;
    }
    return start_walk(object, (int)number);
}

static void walk_dealloc(PyObject *object) {
    walker *self = (walker *)object;
    PyTypeObject *type = Py_TYPE(object);
    PyMem_Free(self->page);
    Py_XDECREF(self->map);
    freefunc release_memory = (freefunc)PyType_GetSlot(type, Py_tp_free);
    release_memory(object);
    Py_DECREF(type);
}

/* Goes to the next page, where there is one: 1, or 0 at the end, or -1 with an exception. */
static int turn(walker *self) {
    for (;;) {
        acquire(self->map);
        tambyulo_page page = self->map->has_bytes_values
                                 ? tambyulo_texts_page_from(&self->map->map.texts, self->from, self->page, self->room)
                                 : tambyulo_page_from(&self->map->map.numbers, self->from, self->page, self->room);
        release(self->map);
        if (page.pairs > 0) {
            self->at = self->page;
            self->pairs = page.pairs;
            self->from += page.pairs;
            return 1;
        }
        if (page.bytes == 0) return 0;
        uint8_t *larger = PyMem_Realloc(self->page, (size_t)page.bytes);
        if (larger == NULL) {
            PyErr_NoMemory();
            return -1;
        }
        self->page = larger;
        self->room = (size_t)page.bytes;
    }
}

static PyObject *walk_next(PyObject *object) {
    walker *self = (walker *)object;
    if (self->pairs == 0 && turn(self) <= 0) return NULL;
    char has_texts = self->map->has_bytes_values;
    tambyulo_pair pair = has_texts ? tambyulo_next_text(&self->at) : tambyulo_next_pair(&self->at);
    self->pairs--;
    PyObject *key = NULL, *value = NULL;
    if (self->what != VALUES) {
        key = key_object(self->map->has_str_keys, pair.key, pair.key_len);
        if (key == NULL || self->what == KEYS) return key;
    }
    value = has_texts ? PyBytes_FromStringAndSize((const char *)pair.text, (Py_ssize_t)pair.value)
                      : PyLong_FromUnsignedLongLong(pair.value);
    if (value == NULL || self->what == VALUES) {
        Py_XDECREF(key);
        return value;
    }
    PyObject *both = PyTuple_New(2);
    if (both == NULL) {
        Py_DECREF(key);
        Py_DECREF(value);
        return NULL;
    }
    PyTuple_SetItem(both, 0, key);
    PyTuple_SetItem(both, 1, value);
    return both;
}

static PyType_Slot walk_slots[] = {
    {Py_tp_new, no_new},
    {Py_tp_dealloc, walk_dealloc},
    {Py_tp_iter, PyObject_SelfIter},
    {Py_tp_iternext, walk_next},
    {0, NULL},
};

PyType_Spec walk_spec = {
    .name = "tambyulo._core.Walk",
    .basicsize = sizeof(walker),
    .flags = Py_TPFLAGS_DEFAULT,
    .slots = walk_slots,
};
