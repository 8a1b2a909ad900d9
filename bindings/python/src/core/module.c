/* The module: tambyulo.h as types of Python. */
#include "core.h"

static PyType_Slot snapshot_slots[] = {{0, NULL}};

static PyType_Spec snapshot_spec = {
    .name = "tambyulo._core.Snapshot",
    .basicsize = sizeof(handle),
    .flags = Py_TPFLAGS_DEFAULT | Py_TPFLAGS_BASETYPE,
    .slots = snapshot_slots,
};

static struct PyModuleDef module = {
    PyModuleDef_HEAD_INIT,
    .m_name = "tambyulo._core",
    .m_doc = "The calls of tambyulo.h as types of Python. The package tambyulo has what to use.",
    .m_size = -1,
};

/* Makes a type of the module, and adds it to the module where it has a name there. */
static PyTypeObject *add_type(PyObject *to, PyType_Spec *spec, PyTypeObject *base, const char *name) {
    PyObject *type = PyType_FromModuleAndSpec(to, spec, (PyObject *)base);
    if (type == NULL || (name != NULL && PyModule_AddObjectRef(to, name, type) < 0)) {
        Py_XDECREF(type);
        return NULL;
    }
    return (PyTypeObject *)type;
}

PyMODINIT_FUNC PyInit__core(void) {
    if (tambyulo_size() > sizeof(tambyulo_map) || tambyulo_texts_size() > sizeof(tambyulo_texts)) {
        PyErr_SetString(PyExc_ImportError, "tambyulo.h and the library are of different versions");
        return NULL;
    }
    PyObject *made = PyModule_Create(&module);
    if (made == NULL) return NULL;
    full_error = PyErr_NewExceptionWithDoc("tambyulo.Full", "The key is new, and the map has as many pairs as it may.", NULL, NULL);
    walk_type = add_type(made, &walk_spec, NULL, NULL);
    handle_type = add_type(made, &handle_spec, NULL, NULL);
    if (full_error == NULL || PyModule_AddObjectRef(made, "Full", full_error) < 0 || walk_type == NULL || handle_type == NULL ||
        add_type(made, &map_spec, handle_type, "Map") == NULL || add_type(made, &snapshot_spec, handle_type, "Snapshot") == NULL ||
        PyModule_AddIntConstant(made, "MOST_PAIRS", (long)TAMBYULO_MOST_PAIRS) < 0) {
        Py_DECREF(made);
        return NULL;
    }
    return made;
}
