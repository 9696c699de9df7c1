/* Keys: what is hashed of one, and many of them from objects of Python. Arrays are in arrays.c. */
#include "native.h"
#include <string.h>

/* After as many keys, also missing ones, some milliseconds of work, other threads get a turn. */
#define KEYS_IN_TURN (64 * AT_A_CALL)

/* Sets the error that a function of the package makes for an object. */
int refuse_by(PyObject *function, PyObject *object) {
    PyObject *error = PyObject_CallFunctionObjArgs(function, object, NULL);
    if (error != NULL) {
        PyErr_SetObject((PyObject *)Py_TYPE(error), error);
        Py_DECREF(error);
    }
    return -1;
}

/* A bytearray or a memoryview. Its owner is a copy, which nothing changes. A memoryview of greater items is an array of keys. */
static int key_of_buffer(PyObject *object, Key *key) {
    if (PyMemoryView_Check(object)) {
        PyObject *size = PyObject_GetAttrString(object, "itemsize");
        long bytes = size != NULL ? PyLong_AsLong(size) : -1;
        Py_XDECREF(size);
        if (bytes < 0) return -1;
        if (bytes != 1) return refuse_by(refusal_of_key, object);
    }
    char *bytes;
    key->owner = PyBytes_FromObject(object);
    if (key->owner == NULL || PyBytes_AsStringAndSize(key->owner, &bytes, &key->count)) return -1;
    key->bytes = bytes;
    return 0;
}

/* A whole number, of 64 bits with or without a sign. */
static int key_of_number(PyObject *number, Key *key) {
    int overflow;
    long long found = PyLong_AsLongLongAndOverflow(number, &overflow);
    key->is_number = true;
    key->number = (uint64_t)found;
    if (overflow == 0) return found == -1 && PyErr_Occurred() ? -1 : 0;
    if (overflow > 0) {
        key->number = PyLong_AsUnsignedLongLong(number);
        if (key->number != UINT64_MAX || !PyErr_Occurred()) return 0;
        PyErr_Clear();
    }
    return refuse_range("a key that is a number is from -2^63 to 2^64 - 1", number);
}

/* Whether an object is a missing value, as the package says; -1 with an error. */
static int is_missing_object(PyObject *object) {
    PyObject *answer = PyObject_CallFunctionObjArgs(is_missing, object, NULL);
    int missing = answer != NULL ? PyObject_IsTrue(answer) : -1;
    Py_XDECREF(answer);
    return missing;
}

/* Remembers a missing value that never changes, such as pandas.NA, of which there may be many. */
static PyObject *last_missing;
static void remember_missing(PyObject *object) {
    PyObject *old = last_missing;
    last_missing = Py_NewRef(object);
    Py_XDECREF(old);
}

/* An object of another type: a number by __index__, a missing value, or no key. */
static int key_of_other(PyObject *object, Key *key) {
    if (object == Py_None || object == last_missing) return 1;
    if (PyFloat_Check(object)) {
        double value = PyFloat_AsDouble(object);
        if (value != value) return 1;
    }
    /* An array of no dimensions has an index, and may be masked. */
    int missing = PySequence_Check(object) ? is_missing_object(object) : 0;
    if (missing != 0) return missing;
    PyObject *number = PyNumber_Index(object);
    if (number != NULL) {
        int status = key_of_number(number, key);
        Py_DECREF(number);
        return status;
    }
    if (!PyErr_ExceptionMatches(PyExc_TypeError)) return -1;
    PyErr_Clear();
    missing = is_missing_object(object);
    if (missing > 0) remember_missing(object);
    return missing != 0 ? missing : refuse_by(refusal_of_key, object);
}

static int key_of_text(PyObject *text, Key *key) {
    key->bytes = PyUnicode_AsUTF8AndSize(text, &key->count);
    return key->bytes != NULL ? 0 : -1;
}

static int key_of_bytes(PyObject *object, Key *key) {
    char *bytes;
    if (PyBytes_AsStringAndSize(object, &bytes, &key->count)) return -1;
    key->bytes = bytes;
    return 0;
}

/* What a key is hashed by: the bytes stay valid while the object is there. Returns 1 for a missing value, and -1 with an error.
 * If the key has an owner, the caller drops it. A class that is derived from str, bytes or int is what it is derived from,
 * whatever its methods say. */
int key_of(PyObject *object, Key *key) {
    key->is_number = false;
    key->owner = NULL;
    if (Py_IS_TYPE(object, &PyUnicode_Type)) return key_of_text(object, key);
    if (Py_IS_TYPE(object, &PyLong_Type)) return key_of_number(object, key);
    if (PyBytes_Check(object)) return key_of_bytes(object, key);
    if (PyUnicode_Check(object)) return key_of_text(object, key);
    if (PyLong_Check(object)) return key_of_number(object, key);
    if (PyByteArray_Check(object) || PyMemoryView_Check(object)) return key_of_buffer(object, key);
    return key_of_other(object, key);
}

/* Sets the error of an update: an argument can be at fault only if there is no object. */
int refuse_call(Object *o, kc_status status) {
    if (require_made(o) == 0) refuse(status, NULL);
    return -1;
}

/* Adds a key, and to a sketch of sums its value. */
static int add(Object *o, const Key *key, uint64_t value) {
    kc_status status;
    if (ready(o)) return -1;
    if (key->is_number) {
        status = o->kind->add_u64(&o->handle, key->number, value);
    } else if (key->count < LONG_KEY) {
        status = o->kind->add_bytes(&o->handle, key->bytes, (size_t)key->count, value);
    } else {
        if (begin(o)) return -1;
        WITHOUT_LOCK(status, o->kind->add_bytes(&o->handle, key->bytes, (size_t)key->count, value));
        end(o);
    }
    return status == KC_OK ? 0 : refuse_call(o, status);
}

/* Adds one key. */
int add_key(Object *o, PyObject *object, uint64_t value) {
    Key key;
    int status = key_of(object, &key);
    if (status == 0) status = add(o, &key, value);
    else if (status > 0) status = refuse_by(refusal_of_key, object);
    Py_XDECREF(key.owner);
    return status;
}

/* Gives other threads a turn, and handlers of signals. */
static int take_turns(void) {
    Py_BEGIN_ALLOW_THREADS
    Py_END_ALLOW_THREADS
    return PyErr_CheckSignals();
}

/* Keys that wait for one call of the library: their bytes one after another, and where each ends. */
typedef struct {
    size_t keys, used, most, room; /* how many there are, and their bytes; and at most */
    uint64_t *ends;
    char *bytes;
} Batch;

/* Batches of so many keys and bytes, in one block; null with an error. */
static Batch *new_batches(size_t count, size_t most, size_t room) {
    size_t size = sizeof(Batch) + 8 * most + room;
    Batch *batches = count < PY_SSIZE_T_MAX / size ? PyMem_Malloc(count * size) : NULL;
    if (batches == NULL) return (Batch *)PyErr_NoMemory();
    uint64_t *ends = (uint64_t *)(batches + count);
    char *bytes = (char *)(ends + count * most);
    for (size_t at = 0; at < count; at++) batches[at] = (Batch){0, 0, most, room, ends + at * most, bytes + at * room};
    return batches;
}

static int insert_batch(Object *o, Batch *batch) {
    if (batch->keys == 0) return 0;
    if (ready(o)) return -1;
    kc_status status = kc_theta_update_strings(&o->handle.theta, batch->bytes, batch->used, batch->ends, batch->keys);
    if (status != KC_OK) return refuse_call(o, status);
    batch->keys = batch->used = 0;
    return 0;
}

static int put_key(Object *o, Batch *batch, const Key *key) {
    const char *bytes = key->is_number ? (const char *)&key->number : key->bytes;
    size_t count = key->is_number ? 8 : (size_t)key->count;
    if (batch->keys == batch->most || count > batch->room - batch->used) {
        if (insert_batch(o, batch)) return -1;
        if (count > batch->room) return add(o, key, 0);
    }
    memcpy(batch->bytes + batch->used, bytes, count);
    batch->used += count;
    batch->ends[batch->keys++] = batch->used;
    return 0;
}

/* What to do with an object among many, after `status` of key_of: 1 to skip it, else an error. */
static int unless_skipped(int status, bool skips, PyObject *object) {
    return status > 0 && !skips ? refuse_by(refusal_of_missing, object) : status;
}

/* Objects one after another: those of an iterator, or of an array of objects of numpy. */
typedef struct {
    PyObject *iterator; /* or null */
    Py_buffer view;     /* of the array, if there is no iterator */
    Py_ssize_t next;
} Source;

/* Whether the source is an array of objects, which is then in its view. */
static bool is_array_of_objects(PyObject *keys, Source *source) {
    if (!PyObject_CheckBuffer(keys)) return false;
    if (PyObject_GetBuffer(keys, &source->view, PyBUF_RECORDS_RO)) {
        PyErr_Clear();
        return false;
    }
    const Py_buffer *view = &source->view;
    if (view->ndim == 1 && view->format != NULL && strcmp(view->format, "O") == 0 && view->strides != NULL) return true;
    PyBuffer_Release(&source->view);
    return false;
}

static int open_source(PyObject *keys, Source *source) {
    source->next = 0;
    source->iterator = is_array_of_objects(keys, source) ? NULL : PyObject_GetIter(keys);
    return source->iterator == NULL && PyErr_Occurred() ? -1 : 0;
}

static void close_source(Source *source) {
    if (source->iterator == NULL) PyBuffer_Release(&source->view);
    Py_XDECREF(source->iterator);
}

/* The next object, as a reference of the caller's; null at the end, or with an error. */
static PyObject *next_object(Source *source) {
    const Py_buffer *view = &source->view;
    PyObject *object;
    if (source->iterator != NULL) return PyIter_Next(source->iterator);
    if (source->next == view->shape[0]) return NULL;
    memcpy(&object, (const char *)view->buf + view->strides[0] * source->next++, sizeof object);
    /* An item that was never set is None. */
    return Py_NewRef(object != NULL ? object : Py_None);
}

static int insert_each(Object *o, Batch *batch, Source *objects, bool skips) {
    size_t read = 0;
    PyObject *object;
    while ((object = next_object(objects)) != NULL) {
        Key key;
        int status = unless_skipped(key_of(object, &key), skips, object);
        if (status == 0) status = put_key(o, batch, &key);
        Py_XDECREF(key.owner);
        Py_DECREF(object);
        if (status >= 0 && ++read % KEYS_IN_TURN == 0) status = take_turns();
        if (status < 0) return -1;
    }
    return PyErr_Occurred() ? -1 : insert_batch(o, batch);
}

static int insert_objects(Object *o, PyObject *keys, bool skips) {
    Source objects;
    if (open_source(keys, &objects)) return -1;
    Batch *batch = new_batches(1, AT_A_CALL, ROOM);
    int status = batch != NULL ? insert_each(o, batch, &objects, skips) : -1;
    PyMem_Free(batch);
    close_source(&objects);
    return status;
}

/* Many keys, as `arranged` has them, and their values: an array or an iterable, or null if all have one value. */
typedef struct {
    int form; /* OBJECTS, ITEMS or COLUMNS */
    PyObject *keys, *values;
    uint64_t value;
    int skips; /* whether missing keys are skipped */
} Many;

/* Adds the items of an array, with the values of an array, or each with one value. */
static int add_array(Object *o, const Many *many, const Items *values, Py_ssize_t *added) {
    Py_buffer view;
    Items items;
    int status = -1;
    if (PyObject_GetBuffer(many->keys, &view, PyBUF_RECORDS_RO)) return -1;
    if (items_of(&view, &items) == 0) {
        if (values == NULL || items.count == values->count) status = add_items(o, &items, values, many->value, added);
        else refuse(KC_INVALID_ARGUMENT, "there are not as many values as keys");
    }
    PyBuffer_Release(&view);
    return status;
}

static int add_form(Object *o, const Many *many, const Items *values, Py_ssize_t *added) {
    if (many->form == COLUMNS) return add_columns(o, many->keys, values, many->value, many->skips, added);
    return add_array(o, many, values, added);
}

/* Adds the keys of an array, or of columns, with their values. `added` becomes how many were added to a sketch of sums. */
static int add_stored(Object *o, const Many *many, Py_ssize_t *added) {
    Py_buffer view;
    Items values;
    int status = -1;
    if (many->values == NULL) return add_form(o, many, NULL, added);
    if (PyObject_GetBuffer(many->values, &view, PyBUF_RECORDS_RO)) return -1;
    if (items_of(&view, &values) == 0) {
        if (values.form == 'u' || values.form == 'i') status = add_form(o, many, &values, added);
        else PyErr_SetString(PyExc_TypeError, "a value is a whole number, not text");
    }
    PyBuffer_Release(&view);
    return status;
}

/* Drops what `arranged` returned. A capsule of Arrow then calls whoever made it. */
static void drop_arrangement(PyObject *arrangement) {
    Error error = put_aside();
    Py_DECREF(arrangement);
    put_back(error);
}

static bool is_list(PyObject *keys) { return Py_IS_TYPE(keys, &PyList_Type) || Py_IS_TYPE(keys, &PyTuple_Type); }

PyObject *theta_update_many(PyObject *self, PyObject *const *given, Py_ssize_t count, PyObject *by_name) {
    static const char *const names[] = {"keys", "skipna", NULL};
    PyObject *values[2] = {0}, *present;
    Object *o = (Object *)self;
    if (arguments("update_many", names, 1, 1, given, count, by_name, values) || require_made(o)) return NULL;
    Many many = {.skips = values[1] != NULL ? PyObject_IsTrue(values[1]) : 1};
    int status = -1;
    Py_ssize_t added;
    if (many.skips < 0) return NULL;
    if (is_list(values[0])) {
        status = insert_objects(o, values[0], many.skips);
    } else {
        PyObject *arrangement = PyObject_CallFunctionObjArgs(arranged, values[0], many.skips ? Py_True : Py_False, NULL);
        if (arrangement == NULL) return NULL;
        if (PyArg_ParseTuple(arrangement, "iOO", &many.form, &many.keys, &present))
            status = many.form == OBJECTS ? insert_objects(o, many.keys, many.skips) : add_stored(o, &many, &added);
        drop_arrangement(arrangement);
    }
    return status ? NULL : Py_NewRef(Py_None);
}

/* Says in the error how many pairs were added before it. */
static void note_added(Py_ssize_t added) {
    Error error = put_aside();
    PyErr_NormalizeException(&error.type, &error.value, &error.traceback);
    PyObject *number = PyLong_FromSsize_t(added);
    if (number == NULL || error.value == NULL || PyObject_SetAttrString(error.value, "added", number)) PyErr_Clear();
    Py_XDECREF(number);
    put_back(error);
}

/* The value beside a key: the next one of `values`, or the same for all if there are none. That of a missing key isn't read. */
static int next_value(Source *values, bool is_read, uint64_t *value) {
    if (values == NULL) return 0;
    PyObject *object = next_object(values);
    if (object == NULL) {
        if (!PyErr_Occurred()) refuse(KC_INVALID_ARGUMENT, "there are fewer values than keys");
        return -1;
    }
    int status = is_read ? number_of(object, "a value is from 0 to 2^64 - 1", UINT64_MAX, value) : 0;
    Py_DECREF(object);
    return status;
}

/* Adds a key with its value; a missing key is skipped with its value. */
static int add_pair(Object *o, PyObject *object, Source *values, uint64_t value, bool skips) {
    Key key;
    int status = unless_skipped(key_of(object, &key), skips, object);
    if (status >= 0 && next_value(values, status == 0, &value)) status = -1;
    if (status == 0) status = add(o, &key, value);
    Py_XDECREF(key.owner);
    return status;
}

static int add_pairs(Object *o, Source *keys, Source *values, const Many *many, Py_ssize_t *added) {
    size_t read = 0;
    PyObject *object;
    int status = 0;
    while (status >= 0 && (object = next_object(keys)) != NULL) {
        status = add_pair(o, object, values, many->value, many->skips);
        Py_DECREF(object);
        *added += status == 0;
        if (status >= 0 && ++read % KEYS_IN_TURN == 0) status = take_turns();
    }
    if (status < 0 || PyErr_Occurred()) return -1;
    object = values != NULL ? next_object(values) : NULL;
    if (object != NULL) refuse(KC_INVALID_ARGUMENT, "there are more values than keys");
    Py_XDECREF(object);
    return PyErr_Occurred() ? -1 : 0;
}

static int add_objects(Object *o, const Many *many, Py_ssize_t *added) {
    Source objects, numbers;
    int status = -1;
    if (open_source(many->keys, &objects)) return -1;
    if (many->values == NULL) {
        status = add_pairs(o, &objects, NULL, many, added);
    } else if (open_source(many->values, &numbers) == 0) {
        status = add_pairs(o, &objects, &numbers, many, added);
        close_source(&numbers);
    }
    close_source(&objects);
    return status;
}

/* How keys and their values are read; with one value for all, 1 if none is passed. The caller drops it. */
static PyObject *arrangement_of_pairs(PyObject *const *values, Many *many) {
    PyObject *one = values[1] == NULL ? PyLong_FromLong(1) : Py_NewRef(values[1]), *arrangement = NULL;
    if (one != NULL) arrangement = PyObject_CallFunctionObjArgs(arranged_pairs, values[0], one, many->skips ? Py_True : Py_False, NULL);
    Py_XDECREF(one);
    return arrangement;
}

/* update_many of sums, with the arguments of the call. `added` begins as 0, and becomes how many pairs were added. */
static int add_many(Object *o, PyObject *const *given, Py_ssize_t count, PyObject *by_name, Py_ssize_t *added) {
    static const char *const names[] = {"keys", "values", "skipna", NULL};
    PyObject *values[3] = {0};
    if (arguments("update_many", names, 2, 1, given, count, by_name, values) || require_made(o)) return -1;
    Many many = {.skips = values[2] != NULL ? PyObject_IsTrue(values[2]) : 1};
    PyObject *arrangement = many.skips >= 0 ? arrangement_of_pairs(values, &many) : NULL;
    int status = -1;
    if (arrangement == NULL) return -1;
    if (PyArg_ParseTuple(arrangement, "iOO", &many.form, &many.keys, &many.values)) {
        bool is_one = PyLong_Check(many.values);
        if (!is_one || number_of(many.values, "a value is from 0 to 2^64 - 1", UINT64_MAX, &many.value) == 0) {
            if (is_one) many.values = NULL;
            status = many.form == OBJECTS ? add_objects(o, &many, added) : add_stored(o, &many, added);
        }
    }
    drop_arrangement(arrangement);
    return status;
}

PyObject *sums_update_many(PyObject *self, PyObject *const *given, Py_ssize_t count, PyObject *by_name) {
    Py_ssize_t added = 0;
    if (add_many((Object *)self, given, count, by_name, &added) == 0) return Py_NewRef(Py_None);
    note_added(added);
    return NULL;
}

/* ---- Groups ---- */

/* Sketches of one kind, and the keys that wait for each. */
typedef struct {
    PyObject *sketches; /* a tuple */
    size_t count;
    Batch *batches;     /* or null, of sketches of sums */
} Groups;

static Object *group_at(const Groups *groups, size_t at) { return (Object *)PyTuple_GetItem(groups->sketches, (Py_ssize_t)at); }

/* Tests that the sketches are of one kind and were made, and makes their batches: great ones only if they are few. */
static int open_groups(PyObject *sketches, Groups *groups) {
    *groups = (Groups){sketches, (size_t)PyTuple_Size(sketches), NULL};
    for (size_t at = 0; at < groups->count; at++) {
        PyObject *sketch = (PyObject *)group_at(groups, at);
        bool is_updatable = PyObject_TypeCheck(sketch, theta_type) || PyObject_TypeCheck(sketch, sums_type);
        if (!is_updatable || ((Object *)sketch)->kind != group_at(groups, 0)->kind)
            return PyErr_SetString(PyExc_TypeError, "groups have sketches of one kind that take updates"), -1;
        if (require_made((Object *)sketch)) return -1;
    }
    if (groups->count == 0 || group_at(groups, 0)->kind->of_sums) return 0;
    size_t most = groups->count <= 1 << 10 ? 64 : groups->count <= 1 << 16 ? 8 : 1;
    groups->batches = new_batches(groups->count, most, most > 1 ? 16 * most : 0);
    return groups->batches != NULL ? 0 : -1;
}

/* Adds a key to the sketch of its group; of no group, with a number below 0, it is left out. */
static int add_to_group(const Groups *groups, const Items *numbers, Py_ssize_t row, PyObject *object, Source *values, bool skips) {
    bool is_left_out = is_negative_at(numbers, row);
    uint64_t at = is_left_out ? 0 : number_at(numbers, row), value = 1;
    Key key = {0};
    if (!is_left_out && at >= groups->count) return refuse(KC_INVALID_ARGUMENT, "there are fewer groups than a key's number"), -1;
    int status = is_left_out ? 1 : unless_skipped(key_of(object, &key), skips, object);
    if (status >= 0 && next_value(values, status == 0, &value)) status = -1;
    if (status == 0) status = groups->batches != NULL ? put_key(group_at(groups, at), &groups->batches[at], &key) : add(group_at(groups, at), &key, value);
    Py_XDECREF(key.owner);
    return status;
}

static int add_each_to_groups(const Groups *groups, const Items *numbers, Source *keys, Source *values, bool skips) {
    PyObject *object;
    Py_ssize_t row = 0;
    int status = 0;
    while (status >= 0 && row < numbers->count && (object = next_object(keys)) != NULL) {
        status = add_to_group(groups, numbers, row, object, values, skips);
        Py_DECREF(object);
        if (status >= 0 && ++row % KEYS_IN_TURN == 0) status = take_turns();
    }
    if (status < 0 || PyErr_Occurred()) return -1;
    for (size_t at = 0; at < groups->count && groups->batches != NULL && status >= 0; at++)
        status = insert_batch(group_at(groups, at), &groups->batches[at]);
    return status < 0 ? -1 : 0;
}

/* add_groups(sketches, numbers, keys, values, skipna): adds each key of an iterable or an array of objects to the sketch of its
 * number, an item of an array; and its value, if there are values, not None. */
PyObject *add_groups(PyObject *module, PyObject *given) {
    PyObject *sketches, *numbers, *keys, *values;
    int skips, status = -1;
    Groups groups;
    Py_buffer view;
    Items items;
    Source sources[2];
    (void)module;
    if (!PyArg_ParseTuple(given, "O!OOOp", &PyTuple_Type, &sketches, &numbers, &keys, &values, &skips)) return NULL;
    if (open_groups(sketches, &groups) || PyObject_GetBuffer(numbers, &view, PyBUF_RECORDS_RO)) return NULL;
    if (items_of(&view, &items) == 0 && open_source(keys, &sources[0]) == 0) {
        if (values == Py_None) {
            status = add_each_to_groups(&groups, &items, &sources[0], NULL, skips);
        } else if (open_source(values, &sources[1]) == 0) {
            status = add_each_to_groups(&groups, &items, &sources[0], &sources[1], skips);
            close_source(&sources[1]);
        }
        close_source(&sources[0]);
    }
    PyBuffer_Release(&view);
    PyMem_Free(groups.batches);
    return status == 0 ? Py_NewRef(Py_None) : NULL;
}
