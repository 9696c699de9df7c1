/* The types of unions and intersections, of both families. */
#include "native.h"

/* The calls of a kind of operator: its name, and that of the sketches it takes. */
#define CALLS_OF_MERGE(name, sketch) \
    static kc_status free_##name(Handle *h) { return kc_##name##_free(&h->of_##name); } \
    static kc_status add_to_##name(Handle *h, Handle *other) { return kc_##name##_add(&h->of_##name, &other->sketch); } \
    static kc_status add_compact_to_##name(Handle *h, Result *other) { return kc_##name##_add_compact(&h->of_##name, &other->sketch); } \
    static kc_status result_of_##name(Handle *h, Result *out) { return kc_##name##_result(&h->of_##name, &out->sketch); }
CALLS_OF_MERGE(union, theta)
CALLS_OF_MERGE(intersection, theta)
CALLS_OF_MERGE(sums_union, sums)
CALLS_OF_MERGE(sums_intersection, sums)

static kc_status make_union(Handle *h, const Settings *s) { return kc_union_new(&h->of_union, s->lg_k, s->seed); }

static kc_status make_sums_union(Handle *h, const Settings *s) {
    return kc_sums_union_new_by_mode(&h->of_sums_union, s->lg_k, s->seed, s->resize_factor, s->starting_theta, s->mode);
}

static kc_status make_intersection(Handle *h, const Settings *s) { return kc_intersection_new(&h->of_intersection, s->seed); }

static kc_status make_sums_intersection(Handle *h, const Settings *s) {
    return kc_sums_intersection_new_by_mode(&h->of_sums_intersection, s->seed, s->mode);
}

static kc_status reset_union(Handle *h) { return kc_union_reset(&h->of_union); }

static kc_status reset_sums_union(Handle *h) { return kc_sums_union_reset(&h->of_sums_union); }

#define KIND(name) .make = make_##name, .free = free_##name, .add = add_to_##name, .add_compact = add_compact_to_##name, .result = result_of_##name
const Kind union_kind = {KIND(union), .reset = reset_union};
const Kind intersection_kind = {KIND(intersection)};
const Kind sums_union_kind = {KIND(sums_union), .reset = reset_sums_union, .of_sums = true};
const Kind sums_intersection_kind = {KIND(sums_intersection), .of_sums = true};

static int merge_init(Object *o, PyObject *lg_k, PyObject *seed, PyObject *word) {
    uint64_t nominal = 12, found = KC_DEFAULT_SEED;
    uint8_t mode = KC_SUM;
    if (lg_k != NULL && number_of(lg_k, "lg_k is from 4 to 26", UINT8_MAX, &nominal)) return -1;
    if (seed != NULL && number_of(seed, "a seed is from 0 to 2^64 - 1", UINT64_MAX, &found)) return -1;
    if (word != NULL && mode_of(word, &mode)) return -1;
    Settings settings = {(uint8_t)nominal, found, 8, KC_MAX_THETA, lg_k == NULL, mode};
    if (make_object(o, &settings)) return -1;
    o->settings = settings;
    return 0;
}

static int union_init(PyObject *self, PyObject *given, PyObject *by_name) {
    static char *names[] = {"lg_k", "seed", NULL};
    PyObject *lg_k = NULL, *seed = NULL;
    if (!PyArg_ParseTupleAndKeywords(given, by_name, "|OO", names, &lg_k, &seed)) return -1;
    return merge_init((Object *)self, lg_k, seed, NULL);
}

static int sums_union_init(PyObject *self, PyObject *given, PyObject *by_name) {
    static char *names[] = {"lg_k", "seed", "mode", NULL};
    PyObject *lg_k = NULL, *seed = NULL, *mode = NULL;
    if (!PyArg_ParseTupleAndKeywords(given, by_name, "|OO$O", names, &lg_k, &seed, &mode)) return -1;
    return merge_init((Object *)self, lg_k, seed, mode);
}

static int intersection_init(PyObject *self, PyObject *given, PyObject *by_name) {
    static char *names[] = {"seed", NULL};
    PyObject *seed = NULL;
    if (!PyArg_ParseTupleAndKeywords(given, by_name, "|O", names, &seed)) return -1;
    return merge_init((Object *)self, NULL, seed, NULL);
}

static int sums_intersection_init(PyObject *self, PyObject *given, PyObject *by_name) {
    static char *names[] = {"seed", "mode", NULL};
    PyObject *seed = NULL, *mode = NULL;
    if (!PyArg_ParseTupleAndKeywords(given, by_name, "|O$O", names, &seed, &mode)) return -1;
    return merge_init((Object *)self, NULL, seed, mode);
}

static PyObject *merge_lg_k(PyObject *self, void *unused) {
    (void)unused;
    return require_made((Object *)self) ? NULL : PyLong_FromLong(((Object *)self)->settings.lg_k);
}

static PyObject *merge_seed(PyObject *self, void *unused) {
    (void)unused;
    return require_made((Object *)self) ? NULL : PyLong_FromUnsignedLongLong(((Object *)self)->settings.seed);
}

static PyObject *merge_mode(PyObject *self, void *unused) {
    (void)unused;
    return require_made((Object *)self) ? NULL : word_of(((Object *)self)->settings.mode);
}

/* Merges the sketch of an image of so many bytes. */
static int add_compact(Object *o, Result *sketch, Py_ssize_t count) {
    kc_status status;
    if (count < 8 * MANY) {
        if (ready(o)) return -1;
        status = o->kind->add_compact(&o->handle, sketch);
    } else {
        if (begin(o)) return -1;
        WITHOUT_LOCK(status, o->kind->add_compact(&o->handle, sketch));
        end(o);
    }
    if (status == KC_OK) return 0;
    refuse(status, NULL);
    return -1;
}

/* Sketches that wait to be merged into a union of theta sketches together. */
enum { SKETCHES_AT_ONCE = 4096, BYTES_AT_ONCE = 1 << 18 };
typedef struct {
    kc_batch batch;
    size_t sketches, bytes; /* how many wait, and about how many bytes they have */
} Waiting;

/* Merges the sketches that wait. Whatever comes of it, none waits afterwards. */
static int merge_waiting(Object *o, Waiting *waiting) {
    kc_status status;
    if (waiting->sketches == 0) return 0;
    waiting->sketches = waiting->bytes = 0;
    if (begin(o)) return -1;
    WITHOUT_LOCK(status, kc_union_add_batch(&o->handle.of_union, &waiting->batch));
    end(o);
    kc_batch_reset(&waiting->batch);
    if (status == KC_OK) return PyErr_CheckSignals();
    refuse(status, NULL);
    return -1;
}

/* One more sketch waits, after `status`; if there are many, they are merged. */
static int wait_with(Object *o, Waiting *waiting, kc_status status, size_t bytes) {
    if (status != KC_OK) {
        refuse(status, NULL);
        return -1;
    }
    waiting->sketches++;
    waiting->bytes += bytes;
    return waiting->sketches == SKETCHES_AT_ONCE || waiting->bytes >= BYTES_AT_ONCE ? merge_waiting(o, waiting) : 0;
}

/* A copy of the sketch of an image of so many bytes. */
static int put_compact(Object *o, Waiting *waiting, Result *sketch, Py_ssize_t count) {
    kc_status status;
    if (count < 8 * MANY) status = kc_batch_add_compact(&waiting->batch, &sketch->theta);
    else WITHOUT_LOCK(status, kc_batch_add_compact(&waiting->batch, &sketch->theta));
    return wait_with(o, waiting, status, (size_t)count);
}

/* A copy of a sketch that takes updates, which no other thread changes meanwhile. */
static int put_sketch(Object *o, Waiting *waiting, Object *sketch) {
    kc_status status;
    kc_state state = {0, 0, 0};
    if (begin(sketch)) return -1;
    WITHOUT_LOCK(status, kc_batch_add(&waiting->batch, &sketch->handle.theta));
    kc_theta_state(&sketch->handle.theta, &state);
    end(sketch);
    return wait_with(o, waiting, status, 8 * (size_t)state.retained);
}

/* A sketch that takes updates, which no other thread changes meanwhile. No thread that has a sketch waits for an operator. */
static int add_sketch(Object *o, Object *sketch) {
    kc_status status;
    if (begin_two(o, sketch)) return -1;
    WITHOUT_LOCK(status, o->kind->add(&o->handle, &sketch->handle));
    end(sketch);
    end(o);
    if (status == KC_OK) return 0;
    refuse(status, NULL);
    return -1;
}

static int require_seed(const Object *o, const Object *sketch) {
    if (o->settings.seed == sketch->settings.seed) return 0;
    char reason[160];
    PyOS_snprintf(reason, sizeof reason, "the sketches have different seeds, %llu and %llu; make them with one seed",
                  (unsigned long long)o->settings.seed, (unsigned long long)sketch->settings.seed);
    refuse(KC_INVALID_ARGUMENT, reason);
    return -1;
}

/* Warns, once, that a union to which nobody passed lg_k can't keep what a sketch retains. Returns -1 if the warning is an error. */
static int warn_of(Object *o, const kc_state *state) {
    unsigned long long most = 1ULL << o->settings.lg_k, retained = state->retained;
    if (retained <= most || o->has_warned) return 0;
    int status = PyErr_WarnFormat(
        sketch_warning, 1, "a union without lg_k keeps %llu hashes, and this sketch retains %llu, so the union drops some of them; pass lg_k",
        most, retained);
    o->has_warned = status == 0;
    return status;
}

/* Whether a union may have to warn: whoever passed lg_k chose what it keeps. */
static bool may_warn(const Object *o) { return o->kind->reset != NULL && o->settings.guesses_lg_k && !o->has_warned; }

/* Warns of a sketch whose own lg_k is greater, or unknown. */
static int warn_of_sketch(Object *o, Object *sketch) {
    kc_state state = sketch->state;
    if (!may_warn(o) || (sketch->settings.lg_k <= o->settings.lg_k && !sketch->settings.guesses_lg_k)) return 0;
    if (sketch->kind != NULL && (ready(sketch) || sketch->kind->state(&sketch->handle, &state) != KC_OK)) return -1;
    return warn_of(o, &state);
}

/* Warns of a sketch whose lg_k is unknown. */
static int warn_of_compact(Object *o, const Result *sketch) {
    kc_state state;
    return may_warn(o) && state_of_result(o->kind->of_sums, sketch, &state) == KC_OK ? warn_of(o, &state) : 0;
}

/* Merges the sketch that bytes are, or it waits. Of bytes of others it may warn. */
static int add_image(Object *o, Waiting *waiting, PyObject *bytes, bool of_others) {
    bool of_sums = o->kind->of_sums;
    Result sketch = {{0}};
    kc_finding found;
    char *image;
    Py_ssize_t count;
    if (PyBytes_AsStringAndSize(bytes, &image, &count)) return -1;
    kc_status read = read_whole(of_sums, &sketch, image, count, o->settings.seed, &found);
    if (read != KC_OK) {
        refuse_bytes(read, &found);
        return -1;
    }
    int status = of_others ? warn_of_compact(o, &sketch) : 0;
    if (status == 0) status = waiting != NULL ? put_compact(o, waiting, &sketch, count) : add_compact(o, &sketch, count);
    free_result(of_sums, &sketch);
    return status;
}

/* The same of bytes, or null with an error, whose reference is the function's own now. */
static int add_bytes(Object *o, Waiting *waiting, PyObject *bytes, bool of_others) {
    int status = bytes != NULL ? add_image(o, waiting, bytes, of_others) : -1;
    Py_XDECREF(bytes);
    return status;
}

static bool is_image(PyObject *it) { return PyBytes_Check(it) || PyByteArray_Check(it) || PyMemoryView_Check(it); }

static int refuse_image(PyObject *it) {
    PyObject *name = PyType_GetName(Py_TYPE(it));
    if (name != NULL) PyErr_Format(PyExc_TypeError, "an image is bytes, not %U", name);
    Py_XDECREF(name);
    return -1;
}

/* Merges a sketch or an image; or it waits, if `waiting` isn't null. */
static int add_any(Object *o, Waiting *waiting, PyObject *sketch) {
    Object *other = (Object *)sketch;
    bool is_updatable = PyObject_TypeCheck(sketch, o->kind->of_sums ? sums_type : theta_type);
    if (is_updatable || PyObject_TypeCheck(sketch, o->kind->of_sums ? compact_sums_type : compact_theta_type)) {
        if (require_made(other) || require_seed(o, other) || warn_of_sketch(o, other)) return -1;
        if (!is_updatable) return add_bytes(o, waiting, Py_NewRef(other->image), false);
        return waiting != NULL ? put_sketch(o, waiting, other) : add_sketch(o, other);
    }
    if (!is_image(sketch)) return refuse_image(sketch);
    return add_bytes(o, waiting, PyBytes_Check(sketch) ? Py_NewRef(sketch) : PyBytes_FromObject(sketch), true);
}

/* Merges those that still wait, even after an error: what comes before a refused sketch is merged. A refusal of the merge takes the
 * place of that error. */
static int merge_rest(Object *o, Waiting *waiting, int status) {
    Error error = put_aside();
    if (merge_waiting(o, waiting) == 0) {
        put_back(error);
        return status;
    }
    Py_XDECREF(error.type);
    Py_XDECREF(error.value);
    Py_XDECREF(error.traceback);
    return -1;
}

/* Adds the sketches and images of an iterator, each in turn; to a union of theta sketches, many together. */
static int add_each(Object *o, Waiting *waiting, PyObject *iterator) {
    PyObject *sketch;
    int status = 0;
    while (status == 0 && (sketch = PyIter_Next(iterator)) != NULL) {
        status = add_any(o, waiting, sketch);
        Py_DECREF(sketch);
    }
    return PyErr_Occurred() ? -1 : status;
}

static int add_many(Object *o, PyObject *iterator) {
    Waiting waiting = {{0}, 0, 0};
    if (o->kind != &union_kind) return add_each(o, NULL, iterator);
    kc_status made = kc_batch_new(&waiting.batch, o->settings.seed);
    if (made != KC_OK) {
        refuse(made, NULL);
        return -1;
    }
    int status = merge_rest(o, &waiting, add_each(o, &waiting, iterator));
    kc_batch_free(&waiting.batch);
    return status;
}

/* Adds a sketch or an image, or those of an iterable. */
static int add_all(Object *o, PyObject *given) {
    if (is_image(given) || PyObject_TypeCheck(given, sketch_type)) return add_any(o, NULL, given);
    PyObject *iterator = PyUnicode_Check(given) ? NULL : PyObject_GetIter(given);
    if (iterator == NULL) {
        if (PyErr_Occurred() && !PyErr_ExceptionMatches(PyExc_TypeError)) return -1;
        PyErr_Clear();
        return refuse_image(given);
    }
    int status = add_many(o, iterator);
    Error error = put_aside();
    Py_DECREF(iterator);
    put_back(error);
    return status;
}

static PyObject *merge_update(PyObject *self, PyObject *const *given, Py_ssize_t count, PyObject *by_name) {
    static const char *const names[] = {"sketch", NULL};
    PyObject *values[1] = {0};
    if (arguments("update", names, 1, 1, given, count, by_name, values) || require_made((Object *)self)) return NULL;
    return add_all((Object *)self, values[0]) ? NULL : Py_NewRef(Py_None);
}

/* The image and the state of its value. */
static PyObject *merge_result(PyObject *self, PyObject *unused) {
    Object *o = (Object *)self;
    Result made = {{0}};
    kc_status status;
    (void)unused;
    if (require_made(o) || begin(o)) return NULL;
    WITHOUT_LOCK(status, o->kind->result(&o->handle, &made));
    end(o);
    if (status != KC_OK) return refuse(status, status == KC_FAILED ? NULL : "an intersection has no value before its first sketch");
    return o->kind->of_sums ? result_of_sums(&made.sums) : result_of_compact(&made.theta);
}

static PyObject *union_reset(PyObject *self, PyObject *unused) {
    Object *o = (Object *)self;
    (void)unused;
    if (is_left_over(o)) return make_object(o, &o->settings) ? NULL : Py_NewRef(Py_None);
    if (require_made(o) || ready(o)) return NULL;
    kc_status status = o->kind->reset(&o->handle);
    return status == KC_OK ? Py_NewRef(Py_None) : refuse(status, NULL);
}

#define METHODS_OF_MERGE(more) \
    METHOD("update", merge_update, \
           "update($self, sketch)\n--\n\n" \
           "Merges a sketch, or the bytes of an image; or all of a list or another iterable of these. None of them changes.\n\n" \
           "Raises InvalidArgumentError for a sketch of another seed, InvalidDataError for bytes that are not one image of\n" \
           "this seed, TypeError for anything else, and OutOfMemoryError. If one of several is refused, exactly those before it\n" \
           "have been merged." more), \
    {"_result", merge_result, METH_NOARGS, "The image and the state of its value."}
#define SUMS_TEXT " PolicyError if the sum of a key would be 2^64 or more."
#define MANY_TEXT ""
#define UNION_TEXT " A union that has failed raises FailedError.\n\n" \
    "A union that was made without lg_k warns (SketchWarning), once, if a sketch of a greater or an unknown lg_k retains more\n" \
    "hashes than it keeps."
#define RESET \
    {"reset", union_reset, METH_NOARGS, "reset($self)\n--\n\nMakes it empty again, as when it was new, and ends a failure."}

static PyMethodDef union_methods[] = {METHODS_OF_MERGE(MANY_TEXT UNION_TEXT), RESET, {0}};
static PyMethodDef intersection_methods[] = {METHODS_OF_MERGE(""), {0}};
static PyMethodDef sums_union_methods[] = {METHODS_OF_MERGE(" Raises" SUMS_TEXT UNION_TEXT), RESET, {0}};
static PyMethodDef sums_intersection_methods[] = {METHODS_OF_MERGE(" Raises" SUMS_TEXT), {0}};
#define SEED {"seed", merge_seed, NULL, "The seed of its sketches.", NULL}
#define LG_K {"lg_k", merge_lg_k, NULL, "The binary logarithm of its nominal entries, from 4 to 26.", NULL}
#define MODE {"mode", merge_mode, NULL, "How it combines the summaries of a key: 'sum', 'min' or 'max'.", NULL}
static PyGetSetDef intersection_getters[] = {SEED, {0}}, union_getters[] = {LG_K, SEED, {0}};
static PyGetSetDef sums_intersection_getters[] = {SEED, MODE, {0}}, sums_union_getters[] = {LG_K, SEED, MODE, {0}};

#define TYPE(name, type, init, getters, text) \
    static PyType_Slot name##_slots[] = { \
        {Py_tp_doc, type text}, {Py_tp_new, new_object}, {Py_tp_dealloc, free_object}, {Py_tp_init, init}, {Py_tp_methods, name##_methods}, \
        {Py_tp_getset, getters}, {0, NULL}}; \
    PyType_Spec name##_spec = {"kaftanclay._native." type, sizeof(Object), 0, Py_TPFLAGS_DEFAULT | Py_TPFLAGS_BASETYPE, name##_slots};
#define UNION_DOC(more) "(lg_k=12, seed=9001" more ")\n--\n\nA union of any number of sketches, in any order."
#define INTERSECTION_DOC(more) "(seed=9001" more ")\n--\n\nAn intersection of any number of sketches, in any order."
#define MODE_DOC ", *, mode='sum'"
TYPE(union, "Union", union_init, union_getters, UNION_DOC(""))
TYPE(intersection, "Intersection", intersection_init, intersection_getters, INTERSECTION_DOC(""))
TYPE(sums_union, "SumsUnion", sums_union_init, sums_union_getters, UNION_DOC(MODE_DOC))
TYPE(sums_intersection, "SumsIntersection", sums_intersection_init, sums_intersection_getters, INTERSECTION_DOC(MODE_DOC))
