/* Functions on images, and what calls write: images, states and texts. */
#include "native.h"

/* A state as Python has it. */
PyObject *state_as_tuple(const kc_state *state) {
    return Py_BuildValue("(KKO)", (unsigned long long)state->retained, (unsigned long long)state->theta, state->empty == 1 ? Py_True : Py_False);
}

/* A text that a call writes: at most 64 bytes. */
PyObject *short_text(kc_status status, const char *text, const uint64_t *length, PyObject *places) {
    if (status == KC_OK) return PyUnicode_FromStringAndSize(text, (Py_ssize_t)*length);
    if (status == KC_INVALID_ARGUMENT) refuse_range("the number of decimals is from 0 to 19", places);
    else refuse(status, NULL);
    return NULL;
}

/* What a call writes to a buffer of its own. It is called again if `room` bytes are too few. No code of Python runs here. */
kc_status write_output(Writer writer, void *what, size_t room, bool is_long, Output *output) {
    for (;;) {
        kc_status status;
        output->bytes = PyMem_Malloc(room);
        if (output->bytes == NULL) return KC_OUT_OF_MEMORY;
        if (is_long) WITHOUT_LOCK(status, writer(what, output->bytes, room, &output->length));
        else status = writer(what, output->bytes, room, &output->length);
        if (status == KC_OK) return status;
        PyMem_Free(output->bytes);
        output->bytes = NULL;
        if (status != KC_TOO_SMALL) return status;
        room = output->length;
    }
}

/* What was written, as bytes, or the error of the status. */
PyObject *bytes_of_output(kc_status status, Output *output) {
    if (status != KC_OK) return refuse(status, NULL);
    PyObject *bytes = PyBytes_FromStringAndSize(output->bytes, (Py_ssize_t)output->length);
    PyMem_Free(output->bytes);
    return bytes;
}

static PyObject *written(Writer writer, void *what, size_t room, bool is_long) {
    Output output;
    kc_status status = write_output(writer, what, room, is_long, &output);
    return bytes_of_output(status, &output);
}

/* The hashes and the sums of a compact sketch, as two arrays in one block. */
kc_status read_entries(kc_compact_sums *sketch, uint64_t **entries, uint64_t *count) {
    kc_state state;
    kc_status status = kc_compact_sums_state(sketch, &state);
    if (status != KC_OK) return status;
    *entries = PyMem_Malloc(16 * (size_t)state.retained + 16);
    if (*entries == NULL) return KC_OUT_OF_MEMORY;
    return kc_compact_sums_entries(sketch, *entries, *entries + state.retained, (size_t)state.retained, count);
}

static kc_status read_all(bool of_sums, Result *sketch, const char *image, size_t count, uint64_t seed, kc_finding *found) {
    return of_sums ? kc_compact_sums_read_whole(&sketch->sums, image, count, seed, found)
                   : kc_compact_read_whole(&sketch->theta, image, count, seed, found);
}

/* The sketch that bytes of others are, all of them. With KC_INVALID_DATA, why they are none is written. */
kc_status read_whole(bool of_sums, Result *sketch, const char *image, Py_ssize_t count, unsigned long long seed, kc_finding *found) {
    kc_status status;
    if (count < 8 * MANY) status = read_all(of_sums, sketch, image, (size_t)count, seed, found);
    else WITHOUT_LOCK(status, read_all(of_sums, sketch, image, (size_t)count, seed, found));
    return status;
}

void free_result(bool of_sums, Result *sketch) {
    if (of_sums) kc_compact_sums_free(&sketch->sums);
    else kc_compact_free(&sketch->theta);
}

kc_status state_of_result(bool of_sums, const Result *sketch, kc_state *state) {
    return of_sums ? kc_compact_sums_state(&sketch->sums, state) : kc_compact_state(&sketch->theta, state);
}

/* Sets the error of bytes that aren't one image, with what was found in them if the status is KC_INVALID_DATA. */
PyObject *refuse_bytes(kc_status status, const kc_finding *it) {
    char reason[200];
    if (status != KC_INVALID_DATA) return refuse(status, NULL);
    if (it->found == 0) return refuse(status, kc_flaw_text(it->flaw));
    PyOS_snprintf(reason, sizeof reason, "%s (found: %u)", kc_flaw_text(it->flaw), (unsigned)it->found);
    return refuse(status, reason);
}

typedef struct {
    const char *first, *second;
    Py_ssize_t first_count, second_count;
    unsigned long long seed;
} Images;

static kc_status intersect(void *what, void *out, size_t room, uint64_t *length) {
    Images *it = what;
    return kc_images_intersect(it->first, (size_t)it->first_count, it->second, (size_t)it->second_count, it->seed, out, room, length);
}

static kc_status subtract(void *what, void *out, size_t room, uint64_t *length) {
    Images *it = what;
    return kc_images_difference(it->first, (size_t)it->first_count, it->second, (size_t)it->second_count, it->seed, out, room, length);
}

static PyObject *combined(PyObject *given, Writer writer) {
    Images it;
    if (!PyArg_ParseTuple(given, "y#y#K", &it.first, &it.first_count, &it.second, &it.second_count, &it.seed)) return NULL;
    return written(writer, &it, (size_t)it.first_count + 24, it.first_count + it.second_count > 8 * MANY);
}

static PyObject *images_intersect(PyObject *module, PyObject *given) { return (void)module, combined(given, intersect); }

static PyObject *images_difference(PyObject *module, PyObject *given) { return (void)module, combined(given, subtract); }

static PyObject *image_state(PyObject *module, PyObject *given) {
    const char *image;
    Py_ssize_t count;
    unsigned long long seed;
    kc_state state;
    kc_status status;
    (void)module;
    if (!PyArg_ParseTuple(given, "y#K", &image, &count, &seed)) return NULL;
    if (count > 8 * MANY) WITHOUT_LOCK(status, kc_image_state(image, (size_t)count, seed, &state));
    else status = kc_image_state(image, (size_t)count, seed, &state);
    return status == KC_OK ? state_as_tuple(&state) : refuse(status, NULL);
}

static kc_status write_sums(void *what, void *out, size_t room, uint64_t *length) { return kc_compact_sums_image(what, out, room, length); }

static kc_status write_theta(void *what, void *out, size_t room, uint64_t *length) { return kc_compact_image(what, out, room, length); }

/* The image and the state of a compact sketch, which is freed. */
PyObject *result_of_sums(kc_compact_sums *made) {
    kc_state state;
    kc_status status = kc_compact_sums_state(made, &state);
    PyObject *image = status == KC_OK ? written(write_sums, made, 16 * (size_t)state.retained + 24, state.retained >= MANY)
                                      : refuse(status, NULL);
    kc_compact_sums_free(made);
    return image != NULL ? Py_BuildValue("(NN)", image, state_as_tuple(&state)) : NULL;
}

PyObject *result_of_compact(kc_compact *made) {
    kc_state state;
    kc_status status = kc_compact_state(made, &state);
    PyObject *image = status == KC_OK ? written(write_theta, made, 8 * (size_t)state.retained + 24, state.retained >= MANY)
                                      : refuse(status, NULL);
    kc_compact_free(made);
    return image != NULL ? Py_BuildValue("(NN)", image, state_as_tuple(&state)) : NULL;
}

/* Reads an image of sums. */
static kc_status read_sums(kc_compact_sums *sketch, const char *image, Py_ssize_t count, unsigned long long seed) {
    kc_status status;
    WITHOUT_LOCK(status, kc_compact_sums_read(sketch, image, (size_t)count, seed));
    return status;
}

static PyObject *sums_read(PyObject *module, PyObject *given) {
    const char *image;
    Py_ssize_t count;
    unsigned long long seed;
    Result sketch = {{0}};
    kc_finding found;
    (void)module;
    if (!PyArg_ParseTuple(given, "y#K", &image, &count, &seed)) return NULL;
    kc_status status = read_whole(true, &sketch, image, count, seed, &found);
    return status == KC_OK ? result_of_sums(&sketch.sums) : refuse_bytes(status, &found);
}

/* Makes a sketch ordered: its difference with the empty sketch is the sketch itself, ordered. */
static kc_status order(kc_compact *sketch, uint64_t seed) {
    const kc_state none = {0, KC_MAX_THETA, 1};
    uint32_t is_ordered;
    kc_compact empty = {0}, made = {0};
    kc_status status = kc_compact_is_ordered(sketch, &is_ordered);
    if (status != KC_OK || is_ordered == 1) return status;
    status = kc_compact_of_hashes(&empty, &none, 1, NULL, 0, seed);
    if (status == KC_OK) WITHOUT_LOCK(status, kc_difference(sketch, &empty, seed, &made));
    kc_compact_free(&empty);
    if (status == KC_OK) {
        kc_compact_free(sketch);
        *sketch = made;
    }
    return status;
}

static PyObject *theta_read(PyObject *module, PyObject *given) {
    const char *image;
    Py_ssize_t count;
    unsigned long long seed;
    Result sketch = {{0}};
    kc_finding found;
    (void)module;
    if (!PyArg_ParseTuple(given, "y#K", &image, &count, &seed)) return NULL;
    kc_status status = read_whole(false, &sketch, image, count, seed, &found);
    if (status != KC_OK) return refuse_bytes(status, &found);
    status = order(&sketch.theta, seed);
    if (status == KC_OK) return result_of_compact(&sketch.theta);
    kc_compact_free(&sketch.theta);
    return refuse(status, NULL);
}

static PyObject *sums_total(PyObject *module, PyObject *given) {
    const char *image;
    Py_ssize_t count;
    unsigned long long seed;
    kc_compact_sums sketch = {0};
    kc_wide total;
    (void)module;
    if (!PyArg_ParseTuple(given, "y#K", &image, &count, &seed)) return NULL;
    kc_status status = read_sums(&sketch, image, count, seed);
    if (status == KC_OK) status = kc_compact_sums_total(&sketch, &total);
    kc_compact_sums_free(&sketch);
    return status == KC_OK ? number_of_wide(total) : refuse(status, NULL);
}

static PyObject *list_of_entries(const uint64_t *entries, uint64_t count) {
    PyObject *list = PyList_New((Py_ssize_t)count);
    for (uint64_t at = 0; list != NULL && at < count; at++) {
        PyObject *pair = Py_BuildValue("(KK)", (unsigned long long)entries[at], (unsigned long long)entries[count + at]);
        if (pair == NULL || PyList_SetItem(list, (Py_ssize_t)at, pair)) Py_CLEAR(list);
    }
    return list;
}

static PyObject *sums_entries(PyObject *module, PyObject *given) {
    const char *image;
    Py_ssize_t length;
    unsigned long long seed;
    kc_compact_sums sketch = {0};
    uint64_t *entries = NULL, count = 0;
    (void)module;
    if (!PyArg_ParseTuple(given, "y#K", &image, &length, &seed)) return NULL;
    kc_status status = read_sums(&sketch, image, length, seed);
    if (status == KC_OK) status = read_entries(&sketch, &entries, &count);
    kc_compact_sums_free(&sketch);
    PyObject *list = status == KC_OK ? list_of_entries(entries, count) : refuse(status, NULL);
    PyMem_Free(entries);
    return list;
}

static PyObject *theta_hashes(PyObject *module, PyObject *given) {
    const char *image;
    Py_ssize_t length;
    unsigned long long seed;
    kc_compact sketch = {0};
    kc_state state = {0};
    uint64_t *hashes = NULL, count = 0;
    (void)module;
    if (!PyArg_ParseTuple(given, "y#K", &image, &length, &seed)) return NULL;
    kc_status status = kc_compact_read(&sketch, image, (size_t)length, seed);
    if (status == KC_OK) status = kc_compact_state(&sketch, &state);
    if (status == KC_OK) hashes = PyMem_Malloc(8 * (size_t)state.retained + 8);
    if (status == KC_OK) status = hashes != NULL ? kc_compact_hashes(&sketch, hashes, (size_t)state.retained, &count) : KC_OUT_OF_MEMORY;
    kc_compact_free(&sketch);
    PyObject *bytes = status == KC_OK ? PyBytes_FromStringAndSize((const char *)hashes, 8 * (Py_ssize_t)count) : refuse(status, NULL);
    PyMem_Free(hashes);
    return bytes;
}

static PyObject *sums_difference(PyObject *module, PyObject *given) {
    Images it;
    kc_compact_sums first = {0}, second = {0}, made = {0};
    (void)module;
    if (!PyArg_ParseTuple(given, "y#y#K", &it.first, &it.first_count, &it.second, &it.second_count, &it.seed)) return NULL;
    kc_status status = read_sums(&first, it.first, it.first_count, it.seed);
    if (status == KC_OK) status = read_sums(&second, it.second, it.second_count, it.seed);
    if (status == KC_OK) WITHOUT_LOCK(status, kc_sums_difference(&first, &second, it.seed, &made));
    kc_compact_sums_free(&first);
    kc_compact_sums_free(&second);
    return status == KC_OK ? result_of_sums(&made) : refuse(status, NULL);
}

static PyObject *estimate_numerator(PyObject *module, PyObject *given) {
    unsigned long long retained;
    kc_wide wide;
    (void)module;
    if (!PyArg_ParseTuple(given, "K", &retained)) return NULL;
    kc_status status = kc_estimate_numerator(retained, &wide);
    return status == KC_OK ? number_of_wide(wide) : refuse(status, NULL);
}

/* The two halves of a number of 128 bits. */
static int wide_of(PyObject *number, kc_wide *wide) {
    PyObject *bits = PyLong_FromLong(64), *high = bits != NULL ? PyNumber_Rshift(number, bits) : NULL;
    wide->low = PyLong_AsUnsignedLongLongMask(number);
    wide->high = high != NULL ? PyLong_AsUnsignedLongLong(high) : 0;
    Py_XDECREF(high);
    Py_XDECREF(bits);
    return PyErr_Occurred() ? -1 : 0;
}

static PyObject *total_text(PyObject *module, PyObject *given) {
    PyObject *number, *places;
    unsigned long long theta;
    uint64_t decimals, length;
    kc_wide total;
    char text[64];
    (void)module;
    if (!PyArg_ParseTuple(given, "O!KO", &PyLong_Type, &number, &theta, &places) || wide_of(number, &total)) return NULL;
    if (number_of(places, "the number of decimals is from 0 to 19", UINT32_MAX, &decimals)) return NULL;
    return short_text(kc_total_text(&total, theta, (uint32_t)decimals, text, sizeof text, &length), text, &length, places);
}

PyMethodDef functions[] = {
    {"images_intersect", images_intersect, METH_VARARGS, "The image of the intersection of the sketches of two images, of a seed."},
    {"images_difference", images_difference, METH_VARARGS, "The image of the difference of the sketches of two images, of a seed."},
    {"image_state", image_state, METH_VARARGS, "The state of the sketch of an image, of a seed."},
    {"theta_read", theta_read, METH_VARARGS, "The sketch that bytes are, of a seed: its ordered image and its state."},
    {"sums_read", sums_read, METH_VARARGS, "The sketch of sums that bytes are, of a seed: its image and its state."},
    {"sums_total", sums_total, METH_VARARGS, "The sums of an image of a seed together."},
    {"theta_hashes", theta_hashes, METH_VARARGS, "The hashes of an image of a seed, in its order: eight bytes each, in this machine's order."},
    {"sums_entries", sums_entries, METH_VARARGS, "The hashes and sums of an image of a seed, in its order."},
    {"sums_difference", sums_difference, METH_VARARGS, "The difference of two images of sums of a seed: its image and its state."},
    {"add_groups", add_groups, METH_VARARGS, "Adds keys to the sketches of their groups."},
    {"arrow_numbers", arrow_numbers, METH_O, "The whole numbers of capsules of Arrow, as the bytes of an array of 64 bits."},
    {"estimate_numerator", estimate_numerator, METH_VARARGS, "What is over theta in the estimate of so many retained hashes."},
    {"total_text", total_text, METH_VARARGS, "The estimate of a total, with its theta, with so many decimals."},
    {0}};
