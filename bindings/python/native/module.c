/* The module: its types, functions and numbers. */
#include "native.h"

PyTypeObject *sketch_type, *theta_type, *sums_type, *compact_theta_type, *compact_sums_type;
PyObject *error_of_status, *arranged, *arranged_pairs, *is_missing, *refusal_of_key, *refusal_of_missing, *sketch_warning;
static PyTypeObject *union_type, *intersection_type, *sums_union_type, *sums_intersection_type;

/* The types, each with its base, or null for `object`, and the calls of its objects, or null for compact sketches. */
static const struct {
    const char *name;
    PyTypeObject **type;
    PyType_Spec *spec;
    PyTypeObject **base;
    const Kind *kind;
} types[] = {
    {"Sketch", &sketch_type, &sketch_spec, NULL, NULL},
    {"Theta", &theta_type, &theta_spec, &sketch_type, &theta_kind},
    {"Sums", &sums_type, &sums_spec, &sketch_type, &sums_kind},
    {"CompactTheta", &compact_theta_type, &compact_theta_spec, &sketch_type, NULL},
    {"CompactSums", &compact_sums_type, &compact_sums_spec, &sketch_type, NULL},
    {"Union", &union_type, &union_spec, NULL, &union_kind},
    {"Intersection", &intersection_type, &intersection_spec, NULL, &intersection_kind},
    {"SumsUnion", &sums_union_type, &sums_union_spec, NULL, &sums_union_kind},
    {"SumsIntersection", &sums_intersection_type, &sums_intersection_spec, NULL, &sums_intersection_kind},
};
#define TYPES (sizeof types / sizeof *types)

/* The functions of the package that are called, and the class of its warnings. */
static const struct {
    PyObject **function;
    const char *module, *name;
} called[] = {
    {&error_of_status, "kaftanclay.errors", "error_of_status"},
    {&arranged, "kaftanclay._keys", "arranged"},
    {&arranged_pairs, "kaftanclay._keys", "arranged_pairs"},
    {&is_missing, "kaftanclay._keys", "is_missing"},
    {&refusal_of_key, "kaftanclay._keys", "refusal_of_key"},
    {&refusal_of_missing, "kaftanclay._keys", "refusal_of_missing"},
    {&sketch_warning, "kaftanclay.errors", "SketchWarning"},
};

/* tp_new of all types: an object that isn't made yet. */
PyObject *new_object(PyTypeObject *type, PyObject *given, PyObject *by_name) {
    (void)given;
    (void)by_name;
    size_t at = 1;
    while (at < TYPES && !PyType_IsSubtype(type, *types[at].type)) at++;
    if (at == TYPES) {
        PyErr_SetString(PyExc_TypeError, "a Sketch is of one of the types below it");
        return NULL;
    }
    /* Objects of all types have one layout, so Python lets a class derive from several; but an object is of one kind. */
    for (size_t more = at + 1; more < TYPES; more++) {
        if (!PyType_IsSubtype(type, *types[more].type)) continue;
        PyErr_SetString(PyExc_TypeError, "a class is derived from one kind of object only");
        return NULL;
    }
    allocfunc allocate = (allocfunc)PyType_GetSlot(type, Py_tp_alloc);
    PyObject *self = allocate(type, 0);
    if (self != NULL) ((Object *)self)->kind = types[at].kind;
    return self;
}

static int add_types(PyObject *module) {
    for (size_t at = 0; at < TYPES; at++) {
        /* They are made once: objects of an earlier import of the module stay theirs. */
        PyTypeObject **type = types[at].type;
        PyObject *base = types[at].base != NULL ? (PyObject *)*types[at].base : NULL;
        if (*type == NULL) *type = (PyTypeObject *)PyType_FromModuleAndSpec(module, types[at].spec, base);
        if (*type == NULL || PyModule_AddObjectRef(module, types[at].name, (PyObject *)*type)) return -1;
    }
    return 0;
}

static int find_called(void) {
    for (size_t at = 0; at < sizeof called / sizeof *called; at++) {
        PyObject *module = PyImport_ImportModule(called[at].module);
        if (module == NULL) return -1;
        PyObject *old = *called[at].function;
        *called[at].function = PyObject_GetAttrString(module, called[at].name);
        Py_XDECREF(old);
        Py_DECREF(module);
        if (*called[at].function == NULL) return -1;
    }
    return 0;
}

static int add_number(PyObject *module, const char *name, unsigned long long number) {
    PyObject *object = PyLong_FromUnsignedLongLong(number);
    int status = object != NULL ? PyModule_AddObjectRef(module, name, object) : -1;
    Py_XDECREF(object);
    return status;
}

static int fill_module(PyObject *module) {
    if (PyInterpreterState_GetID(PyInterpreterState_Get()) != 0) {
        PyErr_SetString(PyExc_ImportError, "kaftanclay works in the main interpreter only, not in subinterpreters");
        return -1;
    }
    prepare_arrays();
    if (watch_forks() || find_called() || add_types(module)) return -1;
    return add_number(module, "DEFAULT_SEED", KC_DEFAULT_SEED) || add_number(module, "MAX_THETA", KC_MAX_THETA) ? -1 : 0;
}

static PyModuleDef_Slot slots[] = {{Py_mod_exec, fill_module}, {0, NULL}};
static struct PyModuleDef definition = {
    .m_base = PyModuleDef_HEAD_INIT, .m_name = "_native", .m_doc = "The sketches of the C library.", .m_size = 0,
    .m_methods = functions, .m_slots = slots};

PyMODINIT_FUNC PyInit__native(void) { return PyModuleDef_Init(&definition); }
