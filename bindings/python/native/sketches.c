/* The types of sketches: what all of them answer, those that take updates, and compact ones, which are an image and its state. */
#include "native.h"
#include <string.h>

/* The calls of the two kinds of sketches that take updates. */
#define CALLS_OF_SKETCH(name) \
    static kc_status free_##name(Handle *h) { return kc_##name##_free(&h->name); } \
    static kc_status name##_state(Handle *h, kc_state *out) { return kc_##name##_state(&h->name, out); } \
    static kc_status name##_image(Handle *h, void *out, size_t room, uint64_t *length) { \
        return kc_##name##_image(&h->name, out, room, length); } \
    static kc_status trim_##name(Handle *h) { return kc_##name##_trim(&h->name); } \
    static kc_status clone_##name(Handle *h, Handle *out) { return kc_##name##_clone(&h->name, &out->name); }
CALLS_OF_SKETCH(theta)
CALLS_OF_SKETCH(sums)

static kc_status make_theta(Handle *h, const Settings *s) {
    return kc_theta_new_with(&h->theta, s->lg_k, s->seed, s->resize_factor, s->starting_theta);
}

static kc_status make_sums(Handle *h, const Settings *s) {
    return kc_sums_new_by_mode(&h->sums, s->lg_k, s->seed, s->resize_factor, s->starting_theta, s->mode);
}

static kc_status add_bytes_to_theta(Handle *h, const void *bytes, size_t count, uint64_t value) {
    (void)value;
    return kc_theta_update_bytes(&h->theta, bytes, count);
}

static kc_status add_u64_to_theta(Handle *h, uint64_t number, uint64_t value) {
    (void)value;
    return kc_theta_update_u64(&h->theta, number);
}

static kc_status add_bytes_to_sums(Handle *h, const void *bytes, size_t count, uint64_t value) {
    return kc_sums_add_bytes(&h->sums, bytes, count, value);
}

static kc_status add_u64_to_sums(Handle *h, uint64_t number, uint64_t value) { return kc_sums_add_u64(&h->sums, number, value); }

const Kind theta_kind = {.make = make_theta, .free = free_theta, .state = theta_state, .image = theta_image, .trim = trim_theta,
                         .clone = clone_theta, .add_bytes = add_bytes_to_theta, .add_u64 = add_u64_to_theta, .entry = 8};
const Kind sums_kind = {.make = make_sums, .free = free_sums, .state = sums_state, .image = sums_image, .trim = trim_sums,
                        .clone = clone_sums, .add_bytes = add_bytes_to_sums, .add_u64 = add_u64_to_sums, .entry = 16, .of_sums = true};

/* ---- What all sketches answer ---- */

static int state_of(PyObject *self, kc_state *state) {
    Object *o = (Object *)self;
    if (require_made(o)) return -1;
    if (o->kind == NULL) {
        *state = o->state;
        return 0;
    }
    if (ready(o)) return -1;
    kc_status status = o->kind->state(&o->handle, state);
    return status == KC_OK ? 0 : refuse_call(o, status);
}

static PyObject *sketch_state(PyObject *self, PyObject *unused) {
    kc_state state;
    (void)unused;
    return state_of(self, &state) ? NULL : state_as_tuple(&state);
}

static Py_ssize_t sketch_length(PyObject *self) {
    kc_state state;
    return state_of(self, &state) ? -1 : (Py_ssize_t)state.retained;
}

static PyObject *sketch_lg_k(PyObject *self, void *unused) {
    (void)unused;
    return require_made((Object *)self) ? NULL : PyLong_FromLong(((Object *)self)->settings.lg_k);
}

static PyObject *sketch_seed(PyObject *self, void *unused) {
    (void)unused;
    return require_made((Object *)self) ? NULL : PyLong_FromUnsignedLongLong(((Object *)self)->settings.seed);
}

static PyObject *sketch_guesses_lg_k(PyObject *self, void *unused) {
    (void)unused;
    return require_made((Object *)self) ? NULL : PyBool_FromLong(((Object *)self)->settings.guesses_lg_k);
}

static PyObject *sketch_mode(PyObject *self, void *unused) {
    (void)unused;
    return require_made((Object *)self) ? NULL : word_of(((Object *)self)->settings.mode);
}

static PyObject *sketch_theta(PyObject *self, void *unused) {
    kc_state state;
    (void)unused;
    return state_of(self, &state) ? NULL : PyLong_FromUnsignedLongLong(state.theta);
}

static PyObject *sketch_is_empty(PyObject *self, void *unused) {
    kc_state state;
    (void)unused;
    return state_of(self, &state) ? NULL : PyBool_FromLong(state.empty == 1);
}

static PyObject *sketch_is_exact(PyObject *self, void *unused) {
    kc_state state;
    (void)unused;
    return state_of(self, &state) ? NULL : PyBool_FromLong(state.theta == KC_MAX_THETA);
}

/* The quotient of a number of 128 bits and one of 63, rounded once: Python's own division of whole numbers. */
static PyObject *quotient(kc_wide above, uint64_t below) {
    PyObject *first = number_of_wide(above), *second = PyLong_FromUnsignedLongLong(below);
    PyObject *found = first != NULL && second != NULL ? PyNumber_TrueDivide(first, second) : NULL;
    Py_XDECREF(second);
    Py_XDECREF(first);
    return found;
}

/* The same, faster. The whole part is below 2^64 here, and 64 bits of the fraction are behind it; what is left of the fraction makes
 * the last bit 1, so that the conversion to a double rounds as it would with all of it. */
static PyObject *small_quotient(kc_wide above, uint64_t below) {
    unsigned __int128 rest = ((unsigned __int128)above.high << 64) | above.low;
    uint64_t whole = (uint64_t)(rest / below);
    rest = rest % below << 64;
    unsigned __int128 both = ((unsigned __int128)whole << 64) | (uint64_t)(rest / below) | (rest % below != 0);
    return PyFloat_FromDouble((double)both * 0x1p-64);
}

static PyObject *sketch_estimate(PyObject *self, void *unused) {
    kc_state state;
    kc_wide above;
    (void)unused;
    if (state_of(self, &state)) return NULL;
    kc_status status = kc_estimate_numerator(state.retained, &above);
    if (status != KC_OK) return refuse(status, NULL);
    /* The whole part is below 2^64, and isn't 0. */
    bool is_small = above.high < state.theta && (above.high > 0 || above.low >= state.theta);
    return is_small ? small_quotient(above, state.theta) : quotient(above, state.theta);
}

static PyObject *sketch_estimate_text(PyObject *self, PyObject *const *given, Py_ssize_t count, PyObject *by_name) {
    static const char *const names[] = {"places", NULL};
    PyObject *values[1] = {0};
    uint64_t places = 0, length;
    kc_state state;
    char text[64];
    if (arguments("estimate_text", names, 1, 0, given, count, by_name, values)) return NULL;
    if (values[0] != NULL && number_of(values[0], "the number of decimals is from 0 to 19", UINT32_MAX, &places)) return NULL;
    if (state_of(self, &state)) return NULL;
    return short_text(kc_estimate_text(&state, (uint32_t)places, text, sizeof text, &length), text, &length, values[0]);
}

static PyObject *sketch_bounds(PyObject *self, PyObject *const *given, Py_ssize_t count, PyObject *by_name) {
    static const char *const names[] = {"deviations", NULL}, range[] = "the number of standard deviations is 1, 2 or 3";
    PyObject *values[1] = {0};
    uint64_t deviations = 2;
    kc_state state;
    kc_wide lower, upper;
    if (arguments("bounds", names, 1, 0, given, count, by_name, values)) return NULL;
    if (values[0] != NULL && number_of(values[0], range, UINT32_MAX, &deviations)) return NULL;
    if (state_of(self, &state)) return NULL;
    kc_status status = kc_count_bounds(state.retained, state.theta, (uint32_t)deviations, &lower, &upper);
    if (status == KC_INVALID_ARGUMENT && values[0] != NULL) return refuse_range(range, values[0]), NULL;
    if (status != KC_OK) return refuse(status, NULL);
    PyObject *first = number_of_wide(lower), *second = number_of_wide(upper);
    PyObject *both = first != NULL && second != NULL ? PyTuple_Pack(2, first, second) : NULL;
    Py_XDECREF(second);
    Py_XDECREF(first);
    return both;
}

/* ---- Images ---- */

static kc_status write_sketch(void *what, void *out, size_t room, uint64_t *length) {
    Object *o = what;
    return o->kind->image(&o->handle, out, room, length);
}

static PyObject *sketch_to_bytes(PyObject *self, PyObject *unused) {
    Object *o = (Object *)self;
    kc_state state;
    (void)unused;
    if (state_of(self, &state)) return NULL;
    if (o->kind == NULL) return Py_NewRef(o->image);
    /* Its entries, and 24 bytes before them. */
    size_t room = o->kind->entry * (size_t)state.retained + 24;
    Output output;
    if (begin(o)) return NULL;
    kc_status status = write_output(write_sketch, o, room, state.retained >= MANY, &output);
    end(o);
    return bytes_of_output(status, &output);
}

static PyMethodDef sketch_methods[] = {
    METHOD("estimate_text", sketch_estimate_text,
           "estimate_text($self, places=0)\n--\n\n"
           "The estimate rounded down to so many decimals, from 0 to 19.\n\n"
           "Raises InvalidArgumentError for any other number of decimals, and TypeError for no whole number."),
    METHOD("bounds", sketch_bounds,
           "bounds($self, deviations=2)\n--\n\n"
           "Bounds of the number of distinct keys by 1, 2 or 3 standard deviations: the lower and the upper one.\n\n"
           "If hashes are random, the number is within them in about 68, 95 or 99.7 of 100 sketches. Raises\n"
           "InvalidArgumentError for any other number of standard deviations, and TypeError for no whole number."),
    {"to_bytes", sketch_to_bytes, METH_NOARGS,
     "to_bytes($self)\n--\n\nIts image in the DataSketches format. Raises OutOfMemoryError."},
    {"__bytes__", sketch_to_bytes, METH_NOARGS, "__bytes__($self)\n--\n\nIts image, as to_bytes."},
    {"_state", sketch_state, METH_NOARGS, "_state($self)\n--\n\nHow many hashes it retains, its theta, and whether it is empty."},
    {0}};

static PyGetSetDef sketch_getters[] = {
    {"lg_k", sketch_lg_k, NULL,
     "The binary logarithm of its nominal entries, from 4 to 26; of an image that was read without one, a guess.", NULL},
    {"_guesses_lg_k", sketch_guesses_lg_k, NULL, "Whether its lg_k is a guess by an image, which doesn't record it.", NULL},
    {"_mode", sketch_mode, NULL, "The mode of a tuple sketch; of a theta sketch 'sum', which has no effect.", NULL},
    {"seed", sketch_seed, NULL, "The seed of its hashes, from 0 to 2^64 - 1.", NULL},
    {"theta", sketch_theta, NULL, "Its theta, from 1 to 2^63 - 1; hashes at or above it are dropped.", NULL},
    {"is_empty", sketch_is_empty, NULL,
     "Whether no update was accepted. A sketch that retains nothing may be nonempty.", NULL},
    {"is_exact", sketch_is_exact, NULL,
     "Whether no hash was dropped, so that the estimate is the number of distinct hashes.", NULL},
    {"estimate", sketch_estimate, NULL, "The estimated number of distinct keys, rounded to the nearest float.", NULL},
    {0}};

static PyType_Slot sketch_slots[] = {
    {Py_tp_doc, "A sketch of distinct keys: it retains the hashes of 63 bits that are below its theta."},
    {Py_tp_new, new_object},
    {Py_tp_dealloc, free_object},
    {Py_tp_methods, sketch_methods},
    {Py_tp_getset, sketch_getters},
    {Py_sq_length, sketch_length},
    {0, NULL}};
PyType_Spec sketch_spec = {"kaftanclay._native.Sketch", sizeof(Object), 0, Py_TPFLAGS_DEFAULT | Py_TPFLAGS_BASETYPE, sketch_slots};

/* ---- Sketches that take updates ---- */

/* The settings that a sketch is passed: lg_k, seed, resize factor, starting theta and mode. */
enum { SETTINGS_OF_SKETCH = 5 };

/* Reads the settings of a sketch; those that are null have their default. */
static int read_settings(PyObject *const *values, Settings *settings) {
    uint64_t lg_k = 12, seed = KC_DEFAULT_SEED, resize_factor = 8, theta = KC_MAX_THETA;
    uint8_t mode = KC_SUM;
    if (values[0] != NULL && number_of(values[0], "lg_k is from 4 to 26", UINT8_MAX, &lg_k)) return -1;
    if (values[1] != NULL && number_of(values[1], "a seed is from 0 to 2^64 - 1", UINT64_MAX, &seed)) return -1;
    if (values[2] != NULL && number_of(values[2], "a resize factor is 1, 2, 4 or 8", UINT32_MAX, &resize_factor)) return -1;
    if (values[3] != NULL && number_of(values[3], "a theta is from 1 to 2^63 - 1", UINT64_MAX, &theta)) return -1;
    if (values[4] != NULL && mode_of(values[4], &mode)) return -1;
    *settings = (Settings){(uint8_t)lg_k, seed, (uint32_t)resize_factor, theta, false, mode};
    return 0;
}

static int sketch_init(PyObject *self, PyObject *const *values) {
    Settings settings;
    if (read_settings(values, &settings) || make_object((Object *)self, &settings)) return -1;
    ((Object *)self)->settings = settings;
    return 0;
}

static int theta_init(PyObject *self, PyObject *given, PyObject *by_name) {
    static char *names[] = {"lg_k", "seed", "resize_factor", "starting_theta", NULL};
    PyObject *values[SETTINGS_OF_SKETCH] = {0};
    if (!PyArg_ParseTupleAndKeywords(given, by_name, "|OO$OO", names, &values[0], &values[1], &values[2], &values[3])) return -1;
    return sketch_init(self, values);
}

static int sums_init(PyObject *self, PyObject *given, PyObject *by_name) {
    static char *names[] = {"lg_k", "seed", "resize_factor", "starting_theta", "mode", NULL};
    PyObject *v[SETTINGS_OF_SKETCH] = {0};
    if (!PyArg_ParseTupleAndKeywords(given, by_name, "|OO$OOO", names, &v[0], &v[1], &v[2], &v[3], &v[4])) return -1;
    return sketch_init(self, v);
}

/* Makes it anew with its settings, but so that it begins at another theta than after a reset, and perhaps with a guess as its lg_k. */
static PyObject *sketch_begin(PyObject *self, PyObject *given) {
    PyObject *v[SETTINGS_OF_SKETCH];
    Settings settings;
    unsigned long long theta;
    int is_guess;
    if (!PyArg_ParseTuple(given, "OOOOOKp", &v[0], &v[1], &v[2], &v[3], &v[4], &theta, &is_guess)) return NULL;
    if (read_settings(v, &settings)) return NULL;
    settings.guesses_lg_k = is_guess;
    Settings first = settings;
    first.starting_theta = theta;
    if (make_object((Object *)self, &first)) return NULL;
    ((Object *)self)->settings = settings;
    return Py_NewRef(Py_None);
}

static PyObject *sketch_settings(PyObject *self, PyObject *unused) {
    const Settings *settings = &((Object *)self)->settings;
    (void)unused;
    if (require_made((Object *)self)) return NULL;
    return Py_BuildValue("(BKIK)", settings->lg_k, (unsigned long long)settings->seed, (unsigned)settings->resize_factor,
                         (unsigned long long)settings->starting_theta);
}

static PyObject *sketch_reset(PyObject *self, PyObject *unused) {
    Object *o = (Object *)self;
    (void)unused;
    if (require_made(o)) return NULL;
    return make_object(o, &o->settings) ? NULL : Py_NewRef(Py_None);
}

static PyObject *sketch_trim(PyObject *self, PyObject *unused) {
    Object *o = (Object *)self;
    kc_state state;
    kc_status status;
    (void)unused;
    if (state_of(self, &state)) return NULL;
    if (state.retained < MANY) {
        status = o->kind->trim(&o->handle);
    } else {
        if (begin(o)) return NULL;
        WITHOUT_LOCK(status, o->kind->trim(&o->handle));
        end(o);
    }
    return status == KC_OK ? Py_NewRef(Py_None) : refuse(status, NULL);
}

/* Becomes a copy of another sketch of its type. */
static PyObject *sketch_copy(PyObject *self, PyObject *other) {
    Object *o = (Object *)self, *from = (Object *)other;
    Handle made = {{0}};
    kc_status status;
    if (!PyObject_TypeCheck(other, o->kind == &theta_kind ? theta_type : sums_type))
        return PyErr_SetString(PyExc_TypeError, "a copy is made of a sketch of its kind"), NULL;
    if (require_made(from) || begin(from)) return NULL;
    WITHOUT_LOCK(status, o->kind->clone(&from->handle, &made));
    Settings settings = from->settings;
    end(from);
    if (status != KC_OK) return refuse(status, NULL);
    if (ready(o)) {
        o->kind->free(&made);
        return NULL;
    }
    put_object(o, &made);
    o->settings = settings;
    return Py_NewRef(Py_None);
}

static PyObject *update_theta(PyObject *self, PyObject *const *given, Py_ssize_t count, PyObject *by_name) {
    static const char *const names[] = {"key", NULL};
    PyObject *values[1] = {0};
    if (count == 1 && by_name == NULL) values[0] = given[0];
    else if (arguments("update", names, 1, 1, given, count, by_name, values)) return NULL;
    return add_key((Object *)self, values[0], 0) ? NULL : Py_NewRef(Py_None);
}

static PyObject *update_sums(PyObject *self, PyObject *const *given, Py_ssize_t count, PyObject *by_name) {
    static const char *const names[] = {"key", "value", NULL};
    PyObject *values[2] = {0};
    uint64_t value = 1;
    if (count == 2 && by_name == NULL) values[0] = given[0], values[1] = given[1];
    else if (arguments("update", names, 2, 1, given, count, by_name, values)) return NULL;
    if (values[1] != NULL && number_of(values[1], "a value is from 0 to 2^64 - 1", UINT64_MAX, &value)) return NULL;
    return add_key((Object *)self, values[0], value) ? NULL : Py_NewRef(Py_None);
}

/* Inserts hashes, which lie one after another in bytes, into a new sketch; the hash 0, which is never retained, makes a sketch
 * nonempty. */
static PyObject *insert_hashes(PyObject *self, PyObject *given) {
    Object *o = (Object *)self;
    const char *bytes;
    Py_ssize_t count;
    int is_empty;
    if (!PyArg_ParseTuple(given, "y#p", &bytes, &count, &is_empty)) return NULL;
    uint64_t *hashes = PyMem_Malloc((size_t)count + 8);
    if (hashes == NULL) return PyErr_NoMemory();
    memcpy(hashes, bytes, (size_t)count);
    kc_status status = KC_OK;
    if (begin(o) == 0) {
        WITHOUT_LOCK(status, kc_theta_update_hashes(&o->handle.theta, hashes, (size_t)count / 8));
        if (status == KC_OK && !is_empty) status = kc_theta_update_hash(&o->handle.theta, 0);
        end(o);
    }
    PyMem_Free(hashes);
    if (PyErr_Occurred()) return NULL;
    return status == KC_OK ? Py_NewRef(Py_None) : (refuse_call(o, status), NULL);
}

/* Inserts the entries of an image of this seed into a new sketch, as insert_hashes does. */
static PyObject *insert_image(PyObject *self, PyObject *given) {
    Object *o = (Object *)self;
    const char *bytes;
    Py_ssize_t length;
    int is_empty;
    uint64_t *entries = NULL, count = 0;
    kc_compact_sums sketch = {0};
    if (!PyArg_ParseTuple(given, "y#p", &bytes, &length, &is_empty) || begin(o)) return NULL;
    kc_status status = kc_compact_sums_read(&sketch, bytes, (size_t)length, o->settings.seed);
    if (status == KC_OK) status = read_entries(&sketch, &entries, &count);
    for (uint64_t at = 0; at < count && status == KC_OK; at++)
        status = kc_sums_add_hash(&o->handle.sums, entries[at], entries[count + at]);
    if (status == KC_OK && !is_empty) status = kc_sums_add_hash(&o->handle.sums, 0, 0);
    end(o);
    PyMem_Free(entries);
    kc_compact_sums_free(&sketch);
    return status == KC_OK ? Py_NewRef(Py_None) : (refuse_call(o, status), NULL);
}

/* The retained sums together, and theta. */
static PyObject *total_of_sums(PyObject *self, PyObject *unused) {
    Object *o = (Object *)self;
    kc_wide total;
    kc_state state;
    kc_status status;
    (void)unused;
    if (require_made(o) || begin(o)) return NULL;
    WITHOUT_LOCK(status, kc_sums_total(&o->handle.sums, &total));
    if (status == KC_OK) status = kc_sums_state(&o->handle.sums, &state);
    end(o);
    if (status != KC_OK) return refuse(status, NULL);
    return Py_BuildValue("(NK)", number_of_wide(total), (unsigned long long)state.theta);
}

#define METHODS_OF_UPDATABLE \
    {"trim", sketch_trim, METH_NOARGS, \
     "trim($self)\n--\n\n" \
     "If it retains more than 2^lg_k hashes, keeps the 2^lg_k least.\n\n" \
     "Its image then depends only on its settings and on the set of keys (of TupleSums, with their sums), not on the order\n" \
     "of the updates. Raises OutOfMemoryError; it is then unchanged."}, \
    {"reset", sketch_reset, METH_NOARGS, \
     "reset($self)\n--\n\nMakes it empty again, as when it was new. Raises OutOfMemoryError; it is then unchanged."}, \
    {"_begin", sketch_begin, METH_VARARGS, "Makes it with settings, so that it begins at the theta behind them, perhaps with a guessed lg_k."}, \
    {"_settings", sketch_settings, METH_NOARGS, "Its lg_k, seed, resize factor and starting theta."}, \
    {"_copy", sketch_copy, METH_O, "Becomes a copy of another sketch."}

/* Updates it with the lines that end in a piece of a text, an object with a buffer of bytes. */
static int add_piece(Object *o, kc_text *text, PyObject *piece) {
    Py_buffer view;
    kc_status status = KC_OK;
    if (PyObject_GetBuffer(piece, &view, PyBUF_SIMPLE)) return -1;
    int began = begin(o);
    if (began == 0) {
        WITHOUT_LOCK(status, kc_theta_update_text(&o->handle.theta, text, view.buf, (size_t)view.len));
        end(o);
    }
    PyBuffer_Release(&view);
    return began == 0 && status != KC_OK ? refuse_call(o, status) : began;
}

static int add_pieces(Object *o, kc_text *text, PyObject *iterator) {
    PyObject *piece;
    int status = 0;
    while (status == 0 && (piece = PyIter_Next(iterator)) != NULL) {
        status = add_piece(o, text, piece);
        Py_DECREF(piece);
    }
    if (status != 0 || PyErr_Occurred() || ready(o)) return -1;
    kc_status ended = kc_theta_end_text(&o->handle.theta, text);
    return ended == KC_OK ? PyErr_CheckSignals() : refuse_call(o, ended);
}

static PyObject *theta_update_pieces(PyObject *self, PyObject *pieces) {
    Object *o = (Object *)self;
    kc_text text = {0};
    if (require_made(o)) return NULL;
    PyObject *iterator = PyObject_GetIter(pieces);
    if (iterator == NULL) return NULL;
    kc_status made = kc_text_new(&text, o->settings.seed);
    int status = made == KC_OK ? add_pieces(o, &text, iterator) : refuse_call(o, made);
    kc_text_free(&text);
    Error error = put_aside();
    Py_DECREF(iterator);
    put_back(error);
    return status ? NULL : Py_NewRef(Py_None);
}

static PyMethodDef theta_methods[] = {
    METHOD("update", update_theta,
           "update($self, key)\n--\n\n"
           "Updates it with a key: a str by its UTF-8 bytes, bytes, or an int from -2^63 to 2^64 - 1 by its eight bytes.\n\n"
           "A bytearray and a memoryview of bytes are the key of their bytes. An int is never the same key as a str or bytes of\n"
           "its digits, and -1 is the same key as 2^64 - 1. Raises TypeError for a float and for a missing value such as None,\n"
           "InvalidArgumentError for an int out of range, UnicodeEncodeError for a str that has no UTF-8, and\n"
           "OutOfMemoryError; the sketch is then unchanged."),
    METHOD("update_many", theta_update_many,
           "update_many($self, keys, *, skipna=True)\n--\n\n"
           "Updates it with many keys, which `update` describes: of a list or any other iterable, or of an array.\n\n"
           "Arrays of whole numbers, such as those of numpy and array, and of fixed-width text of numpy are read without a\n"
           "Python object for each key; so are Series of pandas of such types, and objects with __arrow_c_array__ or\n"
           "__arrow_c_stream__. Datetimes in arrays are the whole numbers of their nanoseconds since 1970. Missing values (None,\n"
           "NaN, NaT, pandas.NA, and what an array masks or a column has as null) are skipped; with skipna=False they raise\n"
           "TypeError. Raises TypeError for a str, bytes and a memoryview of bytes, which are one key, for a DataFrame, and for\n"
           "an array of floats or of several dimensions; OSError if a stream of Arrow fails, and InvalidArgumentError if its\n"
           "structures are broken; and what `update` raises. Keys before the refused one may then have been inserted, and\n"
           "inserting them again changes nothing."),
    METHODS_OF_UPDATABLE,
    {"_update_pieces", theta_update_pieces, METH_O, "Updates it with the lines of a text, whose pieces an iterable has."},
    {"_insert", insert_hashes, METH_VARARGS, "Inserts hashes into a new sketch, and whether it is empty."},
    {0}};

static PyMethodDef sums_methods[] = {
    METHOD("update", update_sums,
           "update($self, key, value=1)\n--\n\n"
           "Adds a value, from 0 to 2^64 - 1, to the sum of a key, which `ThetaSketch.update` describes; with the mode 'min' or\n"
           "'max' the key keeps the least or the greatest of its values.\n\n"
           "Raises PolicyError if a sum would be 2^64 or more, InvalidArgumentError for a number out of range, TypeError for a\n"
           "float and for a missing value, and OutOfMemoryError; the sketch is then unchanged."),
    METHOD("update_many", sums_update_many,
           "update_many($self, keys, values=1, *, skipna=True)\n--\n\n"
           "Updates each of many keys with its value, as `update` does: `values` has as many as `keys`, or is one number for all.\n\n"
           "Keys are as in `ThetaSketch.update_many`; a missing key is skipped with its value, and with skipna=False raises\n"
           "TypeError. Arrays of keys with an array of values are read without a Python object for each. Raises what `update`\n"
           "raises, also for a missing value, and InvalidArgumentError if there are not as many values as keys. The pairs before\n"
           "the refused one have then been added, and no other; none, if the keys are an array and a value in a list is refused.\n"
           "The attribute `added` of the error is their number."),
    METHODS_OF_UPDATABLE,
    {"_insert", insert_image, METH_VARARGS, "Inserts the entries of an image into a new sketch, and whether it is empty."},
    {"_total", total_of_sums, METH_NOARGS, "The retained sums together, and theta."},
    {0}};

#define SETTINGS(name, more) name "(lg_k=12, seed=9001, *, resize_factor=8, starting_theta=9223372036854775807" more ")\n--\n\n"

static PyType_Slot theta_slots[] = {
    {Py_tp_doc, SETTINGS("Theta", "") "A theta sketch that takes updates."},
    {Py_tp_new, new_object}, {Py_tp_init, theta_init}, {Py_tp_methods, theta_methods}, {0, NULL}};
static PyType_Slot sums_slots[] = {
    {Py_tp_doc, SETTINGS("Sums", ", mode='sum'") "A tuple sketch of sums, least or greatest values that takes updates."},
    {Py_tp_new, new_object}, {Py_tp_init, sums_init}, {Py_tp_methods, sums_methods}, {0, NULL}};
PyType_Spec theta_spec = {"kaftanclay._native.Theta", sizeof(Object), 0, Py_TPFLAGS_DEFAULT | Py_TPFLAGS_BASETYPE, theta_slots};
PyType_Spec sums_spec = {"kaftanclay._native.Sums", sizeof(Object), 0, Py_TPFLAGS_DEFAULT | Py_TPFLAGS_BASETYPE, sums_slots};

/* ---- Compact sketches ---- */

/* Puts an image that the library wrote into a new compact sketch, with its state, seed and lg_k, whether that is a guess, and its mode. */
static PyObject *compact_keep(PyObject *self, PyObject *given) {
    Object *o = (Object *)self;
    PyObject *image, *values[SETTINGS_OF_SKETCH] = {0};
    unsigned long long retained, theta;
    int is_empty, is_guess;
    Settings settings;
    const char *const form = "S(KKp)OOpO";
    if (!PyArg_ParseTuple(given, form, &image, &retained, &theta, &is_empty, &values[1], &values[0], &is_guess, &values[4])) return NULL;
    if (read_settings(values, &settings)) return NULL;
    settings.guesses_lg_k = is_guess;
    if (settings.lg_k < 4 || settings.lg_k > 26) return refuse_range("lg_k is from 4 to 26", values[0]), NULL;
    PyObject *old = o->image;
    o->image = Py_NewRef(image);
    o->state = (kc_state){retained, theta, is_empty};
    o->settings = settings;
    Py_XDECREF(old);
    return Py_NewRef(Py_None);
}

static PyMethodDef compact_methods[] = {{"_keep", compact_keep, METH_VARARGS, "Becomes the sketch of an image."}, {0}};
static PyType_Slot compact_slots[] = {
    {Py_tp_doc, "A compact sketch, which never changes."}, {Py_tp_new, new_object}, {Py_tp_methods, compact_methods}, {0, NULL}};
PyType_Spec compact_theta_spec = {"kaftanclay._native.CompactTheta", sizeof(Object), 0,
                                  Py_TPFLAGS_DEFAULT | Py_TPFLAGS_BASETYPE, compact_slots};
PyType_Spec compact_sums_spec = {"kaftanclay._native.CompactSums", sizeof(Object), 0,
                                 Py_TPFLAGS_DEFAULT | Py_TPFLAGS_BASETYPE, compact_slots};
