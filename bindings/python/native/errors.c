/* Statuses as errors, and the numbers and names of arguments. */
#include "native.h"

/* Sets the error of a status, with this reason if one is passed and the status is KC_INVALID_ARGUMENT, KC_INVALID_DATA or KC_FAILED. */
PyObject *refuse(kc_status status, const char *reason) {
    PyObject *error = PyObject_CallFunction(error_of_status, "Iz", (unsigned)status, reason);
    if (error != NULL) {
        PyErr_SetObject((PyObject *)Py_TYPE(error), error);
        Py_DECREF(error);
    }
    return NULL;
}

/* Puts an error aside, if there is one, while others' code frees what they made. */
Error put_aside(void) {
    Error error;
    PyErr_Fetch(&error.type, &error.value, &error.traceback);
    return error;
}

/* Sets the error that was put aside. */
void put_back(Error error) { PyErr_Restore(error.type, error.value, error.traceback); }

/* Sets the error of a number that is out of a range, which the text says. */
int refuse_range(const char *range, PyObject *number) {
    PyObject *text = PyObject_Str(number);
    if (text == NULL) {
        /* Python refuses to write a number of very many digits, and a class may refuse to write its own. */
        if (!PyErr_ExceptionMatches(PyExc_ValueError)) return -1;
        PyErr_Clear();
        text = PyUnicode_FromString("this one");
    }
    PyObject *whole = text != NULL ? PyUnicode_FromFormat("%s, not %U", range, text) : NULL;
    const char *reason = whole != NULL ? PyUnicode_AsUTF8AndSize(whole, NULL) : NULL;
    if (reason != NULL) refuse(KC_INVALID_ARGUMENT, reason);
    Py_XDECREF(whole);
    Py_XDECREF(text);
    return -1;
}

/* A whole number from 0 to `most`. Refuses others with a TypeError, or with the text of its range. */
int number_of(PyObject *value, const char *range, uint64_t most, uint64_t *out) {
    PyObject *index = Py_IS_TYPE(value, &PyLong_Type) ? Py_NewRef(value) : PyNumber_Index(value);
    if (index == NULL) return -1;
    uint64_t found = PyLong_AsUnsignedLongLong(index);
    int status = 0;
    if (found == UINT64_MAX && PyErr_Occurred()) {
        status = -1;
        if (PyErr_ExceptionMatches(PyExc_OverflowError)) {
            PyErr_Clear();
            refuse_range(range, index);
        }
    } else if (found > most) {
        status = refuse_range(range, index);
    }
    Py_DECREF(index);
    *out = found;
    return status;
}

static const char *const modes[] = {[KC_SUM] = "sum", [KC_MIN] = "min", [KC_MAX] = "max"};

/* The mode of a word. Refuses others with a TypeError, or with the text of all. */
int mode_of(PyObject *word, uint8_t *mode) {
    static const char range[] = "a mode is 'sum', 'min' or 'max'";
    if (!PyUnicode_Check(word)) {
        PyObject *name = PyType_GetName(Py_TYPE(word));
        if (name != NULL) PyErr_Format(PyExc_TypeError, "%s, not %U", range, name);
        Py_XDECREF(name);
        return -1;
    }
    for (uint8_t at = 0; at < sizeof modes / sizeof *modes; at++) {
        if (PyUnicode_CompareWithASCIIString(word, modes[at]) != 0) continue;
        *mode = at;
        return 0;
    }
    return refuse_range(range, word);
}

PyObject *word_of(uint8_t mode) { return PyUnicode_FromString(modes[mode]); }

/* A number of 128 bits as an int. */
PyObject *number_of_wide(kc_wide wide) {
    PyObject *low = PyLong_FromUnsignedLongLong(wide.low);
    if (wide.high == 0 || low == NULL) return low;
    PyObject *high = PyLong_FromUnsignedLongLong(wide.high), *bits = PyLong_FromLong(64);
    PyObject *moved = high != NULL && bits != NULL ? PyNumber_Lshift(high, bits) : NULL;
    PyObject *whole = moved != NULL ? PyNumber_Or(moved, low) : NULL;
    Py_XDECREF(moved);
    Py_XDECREF(bits);
    Py_XDECREF(high);
    Py_DECREF(low);
    return whole;
}

/* Where a name is among those of a call; -1 if it isn't, and -2 with an error if its argument is there already. */
static Py_ssize_t place_of(const char *call, const char *const *names, PyObject *name, PyObject **values) {
    for (Py_ssize_t at = 0; names[at] != NULL; at++) {
        if (PyUnicode_CompareWithASCIIString(name, names[at]) != 0) continue;
        if (values[at] == NULL) return at;
        PyErr_Format(PyExc_TypeError, "%s() got multiple values for argument '%s'", call, names[at]);
        return -2;
    }
    return -1;
}

/* Puts the arguments of a call into `values`, which begins as nulls, in the order of its names. The first `positional` may be
 * passed by position, and the first `needed` must be there. The references are borrowed. */
int arguments(const char *call, const char *const *names, Py_ssize_t positional, Py_ssize_t needed, PyObject *const *given,
              Py_ssize_t count, PyObject *by_name, PyObject **values) {
    if (count > positional) {
        PyErr_Format(PyExc_TypeError, "%s() takes at most %zd positional arguments, not %zd", call, positional, count);
        return -1;
    }
    for (Py_ssize_t at = 0; at < count; at++) values[at] = given[at];
    Py_ssize_t named = by_name != NULL ? PyTuple_Size(by_name) : 0;
    for (Py_ssize_t at = 0; at < named; at++) {
        PyObject *name = PyTuple_GetItem(by_name, at);
        Py_ssize_t place = place_of(call, names, name, values);
        if (place == -1) PyErr_Format(PyExc_TypeError, "%s() got an unexpected keyword argument '%U'", call, name);
        if (place < 0) return -1;
        values[place] = given[count + at];
    }
    for (Py_ssize_t at = 0; at < needed; at++) {
        if (values[at] != NULL) continue;
        PyErr_Format(PyExc_TypeError, "%s() misses its argument '%s'", call, names[at]);
        return -1;
    }
    return 0;
}
