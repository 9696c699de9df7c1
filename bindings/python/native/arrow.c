/* Keys in columns of Arrow's C data interface, without an object of Python for each.
 *
 * Strings between offsets are passed to the library where they are. Its call tests that their ends ascend; that a buffer is as long as
 * its column says is up to whoever made it, as the interface has it. */
#include "native.h"
#include <stdlib.h>
#include <string.h>

/* The structures of the interface, as its specification lays them out. */
typedef struct Schema Schema;
typedef struct Array Array;
typedef struct Stream Stream;
struct Schema {
    const char *format, *name, *metadata;
    int64_t flags, n_children;
    Schema **children, *dictionary;
    void (*release)(Schema *);
    void *private_data;
};
struct Array {
    int64_t length, null_count, offset, n_buffers, n_children;
    const void **buffers;
    Array **children, *dictionary;
    void (*release)(Array *);
    void *private_data;
};
struct Stream {
    int (*get_schema)(Stream *, Schema *out);
    int (*get_next)(Stream *, Array *out);
    const char *(*get_last_error)(Stream *);
    void (*release)(Stream *);
    void *private_data;
};

/* ---- Columns ---- */

/* How the keys of a column are stored. */
enum { NONE = 'n', BITS = 'b', SIGNED = 'i', UNSIGNED = 'u', OFFSETS = 'o', LONG_OFFSETS = 'O', FIXED = 'w', VIEWS = 'v' };
typedef struct {
    char kind;
    int64_t size; /* the bytes of a number, or of each string of one size */
} Form;

/* A column without its dictionary. */
typedef struct {
    Form form;
    int64_t length, offset;                 /* its rows, and where the first one is in the buffers */
    const uint8_t *present;                 /* a bit for each row that isn't missing, or null if none is */
    const char *items, *bytes;              /* the buffer of numbers, offsets or views; that of strings, but of views */
    const void *const *pieces;              /* of views: the buffers of long strings, their sizes, and how many they are */
    const int64_t *piece_sizes;
    int64_t piece_count;
} Column;

/* Why a key is refused. */
enum { MISSING = 1, BAD_OFFSETS, BAD_VIEW, NO_BYTES, BAD_INDEX, NEGATIVE_VALUE, NO_VALUE };

/* Sets the error of a flaw; returns -1. */
static int refuse_flaw(int flaw) {
    static const char *const reasons[] = {
        [BAD_OFFSETS] = "the offsets of the Arrow array don't ascend",
        [BAD_VIEW] = "a view of the Arrow array is outside of its buffers",
        [NO_BYTES] = "the Arrow array lacks the buffer of its strings",
        [BAD_INDEX] = "an index of the Arrow array is outside of its dictionary",
        [NEGATIVE_VALUE] = "a value is from 0 to 2^64 - 1, not below 0",
        [NO_VALUE] = "there are fewer values than keys"};
    if (flaw == MISSING) return refuse_by(refusal_of_missing, Py_None);
    refuse(KC_INVALID_ARGUMENT, reasons[flaw]);
    return -1;
}

/* What to do instead of passing an array of a format that has no keys. */
static const char *advice_of(const char *format) {
    if (format[0] == '+') {
        if (format[1] == 's') return "it is a table; pass one of its columns";
        if (format[1] == 'r') return "decode its runs first";
        if (format[1] != 'u') return "its items are arrays; pass their values, one behind the other";
    }
    if (format[0] == 't') return "choose keys: cast it to int64 or to strings";
    if (format[0] != 0 && strchr("efgd", format[0]) != NULL) return "choose keys: cast it to whole numbers or to strings";
    return "pass an array of whole numbers, of strings or of bytes";
}

/* Sets the error of a type that has no keys. */
static int refuse_format(const char *format) {
    PyErr_Format(PyExc_TypeError, "an Arrow array of the format '%s' has no keys: %s", format, advice_of(format));
    return -1;
}

static int form_of(const char *format, Form *form) {
    static const struct { const char *format; Form form; } known[] = {
        {"n", {NONE, 0}}, {"b", {BITS, 0}}, {"c", {SIGNED, 1}}, {"C", {UNSIGNED, 1}}, {"s", {SIGNED, 2}}, {"S", {UNSIGNED, 2}},
        {"i", {SIGNED, 4}}, {"I", {UNSIGNED, 4}}, {"l", {SIGNED, 8}}, {"L", {UNSIGNED, 8}}, {"u", {OFFSETS, 4}}, {"z", {OFFSETS, 4}},
        {"U", {LONG_OFFSETS, 8}}, {"Z", {LONG_OFFSETS, 8}}, {"vu", {VIEWS, 16}}, {"vz", {VIEWS, 16}}};
    if (format == NULL) return refuse_format("");
    for (size_t at = 0; at < sizeof known / sizeof *known; at++) {
        if (strcmp(format, known[at].format) != 0) continue;
        *form = known[at].form;
        return 0;
    }
    char *end = NULL;
    long long size = strncmp(format, "w:", 2) == 0 ? strtoll(format + 2, &end, 10) : -1;
    if (size < 0 || size > INT32_MAX || end == format + 2 || *end != 0) return refuse_format(format);
    *form = (Form){FIXED, size};
    return 0;
}

static bool has_number(Form form) { return form.kind == BITS || form.kind == SIGNED || form.kind == UNSIGNED; }

static int refuse_array(const char *reason) {
    refuse(KC_INVALID_ARGUMENT, reason);
    return -1;
}

/* Describes the rows of an array, and tests that it has its buffers. */
static int column_of(const Array *array, Form form, Column *column) {
    bool is_views = form.kind == VIEWS, has_offsets = form.kind == OFFSETS || form.kind == LONG_OFFSETS;
    int64_t buffers = form.kind == NONE ? 0 : is_views || has_offsets ? 3 : 2, most = INT64_MAX / 16;
    if (array->length < 0 || array->offset < 0 || array->null_count < -1 || array->length > most || array->offset > most - array->length)
        return refuse_array("the length, the offset or the count of missing rows of the Arrow array is out of range");
    if (form.size > 0 && array->length + array->offset > INT64_MAX / form.size) return refuse_array("the Arrow array is too long");
    bool has_more = array->n_buffers > buffers && !is_views && form.kind != NONE;
    if (array->n_buffers < buffers || has_more || (buffers > 0 && array->buffers == NULL))
        return refuse_array("the Arrow array has too few or too many buffers for its format");
    *column = (Column){.form = form, .length = array->length, .offset = array->offset};
    if (form.kind == NONE || array->length == 0) return 0;
    column->present = array->null_count != 0 ? array->buffers[0] : NULL;
    if (array->null_count > 0 && column->present == NULL) return refuse_array("the Arrow array lacks the bitmap of its missing rows");
    column->items = array->buffers[1];
    column->bytes = has_offsets ? array->buffers[2] : form.kind == FIXED ? array->buffers[1] : NULL;
    if (column->items == NULL && !(form.kind == FIXED && form.size == 0)) return refuse_array("the Arrow array lacks a buffer");
    if (!is_views) return 0;
    column->pieces = array->buffers + 2;
    column->piece_sizes = array->buffers[array->n_buffers - 1];
    column->piece_count = array->n_buffers - 3;
    if (column->piece_count > 0 && column->piece_sizes == NULL) return refuse_array("the Arrow array lacks the sizes of its buffers");
    return 0;
}

static bool bit_at(const void *bits, int64_t at) { return ((const uint8_t *)bits)[at >> 3] >> (at & 7) & 1; }

static bool is_present(const Column *column, int64_t row) {
    return column->form.kind != NONE && (column->present == NULL || bit_at(column->present, column->offset + row));
}

/* The numbers of a column as the items of an array. */
static Items items_of_column(const Column *column) {
    Py_ssize_t size = column->form.size;
    return (Items){column->items + size * column->offset, column->length, size, size, column->form.kind};
}

/* Where a string begins, which is where the one before it ends. */
static int64_t offset_at(const Column *column, int64_t row) {
    int64_t at = column->offset + row, eight;
    int32_t four;
    switch (column->form.kind) {
    case OFFSETS: return memcpy(&four, column->items + 4 * at, 4), four;
    case LONG_OFFSETS: return memcpy(&eight, column->items + 8 * at, 8), eight;
    default: return column->form.size * at;
    }
}

/* The string of a view: its length, and then its bytes if they are at most 12, or their first four, their buffer and their offset. */
static int string_of_view(const Column *column, int64_t row, Key *key) {
    int32_t words[4];
    const char *view = column->items + 16 * (column->offset + row);
    memcpy(words, view, sizeof words);
    key->bytes = view + 4;
    key->count = words[0];
    if (words[0] >= 0 && words[0] <= 12) return 0;
    if (words[0] < 0 || words[2] < 0 || words[2] >= column->piece_count || words[3] < 0) return BAD_VIEW;
    if ((int64_t)words[3] + words[0] > column->piece_sizes[words[2]]) return BAD_VIEW;
    if (column->pieces[words[2]] == NULL) return NO_BYTES;
    key->bytes = (const char *)column->pieces[words[2]] + words[3];
    return 0;
}

/* The key of a row that isn't missing. Returns 0, or the flaw. */
static int key_of_row(const Column *column, int64_t row, Key *key) {
    key->is_number = has_number(column->form);
    if (column->form.kind == VIEWS) return string_of_view(column, row, key);
    if (column->form.kind == BITS) return key->number = bit_at(column->items, column->offset + row), 0;
    if (key->is_number) {
        Items items = items_of_column(column);
        return key->number = number_at(&items, row), 0;
    }
    int64_t from = offset_at(column, row), to = offset_at(column, row + 1);
    if (from < 0 || to < from) return BAD_OFFSETS;
    if (to > from && column->bytes == NULL) return NO_BYTES;
    key->bytes = to > from ? column->bytes + from : "";
    key->count = to - from;
    return 0;
}

/* ---- Work on a column ---- */

typedef struct {
    Work work;
    const Column *column, *dictionary; /* of the keys; the dictionary is null if they have none */
    const Items *values;               /* of all columns, from the one of the row `first_value` on; or null */
    Py_ssize_t first_value, added;
    uint64_t value;
    bool skips;
    uint64_t ends[AT_A_CALL];
    char bytes[ROOM];
} ColumnWork;

/* Inserts strings, a run of rows without a missing one in a call. */
static void insert_runs(Handle *handle, Work *work, Py_ssize_t to) {
    ColumnWork *own = (ColumnWork *)work;
    const Column *column = own->column;
    while (work->done < to && work->flaw == 0 && work->status == KC_OK) {
        Py_ssize_t count = 0, from = work->done, most = to - from < AT_A_CALL ? to - from : AT_A_CALL;
        int64_t begin = offset_at(column, from), end = begin;
        while (count < most && is_present(column, from + count)) {
            end = offset_at(column, from + count + 1);
            own->ends[count++] = (uint64_t)(end - begin);
        }
        if (count == 0) {
            if (own->skips) work->done++;
            else work->flaw = MISSING;
            continue;
        }
        if (begin < 0 || end < begin) work->flaw = BAD_OFFSETS;
        else if (end > begin && column->bytes == NULL) work->flaw = NO_BYTES;
        if (work->flaw != 0) return;
        const char *bytes = end > begin ? column->bytes + begin : "";
        work->status = kc_theta_update_strings(&handle->theta, bytes, (size_t)(end - begin), own->ends, (size_t)count);
        if (work->status == KC_OK) work->done += count;
        /* The only argument that can be at fault is an end. */
        if (work->status == KC_INVALID_ARGUMENT) work->status = KC_OK, work->flaw = BAD_OFFSETS;
    }
}

/* Puts keys of at most ROOM bytes one behind the other, and inserts them: those of views, of bits, and numbers beside missing ones. */
static void insert_copies(Handle *handle, Work *work, Py_ssize_t to) {
    ColumnWork *own = (ColumnWork *)work;
    while (work->done < to && work->flaw == 0 && work->status == KC_OK) {
        size_t used = 0, keys = 0;
        Py_ssize_t row = work->done;
        for (; row < to && keys < AT_A_CALL; row++) {
            Key key = {0};
            if (!is_present(own->column, row)) {
                if (own->skips) continue;
                work->flaw = MISSING;
                break;
            }
            work->flaw = key_of_row(own->column, row, &key);
            size_t count = key.is_number ? 8 : (size_t)key.count;
            if (work->flaw != 0 || count > ROOM - used) break;
            memcpy(own->bytes + used, key.is_number ? (const char *)&key.number : key.bytes, count);
            used += count;
            own->ends[keys++] = used;
        }
        work->status = kc_theta_update_strings(&handle->theta, own->bytes, used, own->ends, keys);
        if (work->status != KC_OK) return;
        bool is_too_long = row == work->done && work->flaw == 0;
        work->done = row;
        if (!is_too_long) continue;
        Key key;
        work->flaw = key_of_row(own->column, row, &key);
        if (work->flaw == 0) work->status = kc_theta_update_bytes(&handle->theta, key.bytes, (size_t)key.count);
        if (work->flaw == 0 && work->status == KC_OK) work->done++;
    }
}

/* The number of a row, which is an index of the dictionary. Returns 0, or the flaw. */
static int index_at(const ColumnWork *own, int64_t row, int64_t *index) {
    Items items = items_of_column(own->column);
    uint64_t found = number_at(&items, row);
    if (is_negative_at(&items, row) || found >= (uint64_t)own->dictionary->length) return BAD_INDEX;
    *index = (int64_t)found;
    return is_present(own->dictionary, *index) ? 0 : MISSING;
}

/* The key of a row, perhaps that of the dictionary. Returns 0, or the flaw. */
static int key_of_any(const ColumnWork *own, int64_t row, Key *key) {
    int64_t index;
    if (!is_present(own->column, row)) return MISSING;
    if (own->dictionary == NULL) return key_of_row(own->column, row, key);
    int flaw = index_at(own, row, &index);
    return flaw != 0 ? flaw : key_of_row(own->dictionary, index, key);
}

static int value_of_row(const ColumnWork *own, int64_t row, uint64_t *value) {
    int64_t at = own->first_value + row;
    *value = own->value;
    if (own->values == NULL) return 0;
    if (at >= own->values->count) return NO_VALUE;
    *value = number_at(own->values, at);
    return is_negative_at(own->values, at) ? NEGATIVE_VALUE : 0;
}

static void add_sums_of_rows(Handle *handle, Work *work, Py_ssize_t to) {
    ColumnWork *own = (ColumnWork *)work;
    for (; work->done < to; work->done++) {
        Key key = {0};
        uint64_t value;
        int flaw = key_of_any(own, work->done, &key);
        if (flaw == MISSING && own->skips) continue;
        if (flaw == 0) flaw = value_of_row(own, work->done, &value);
        work->flaw = flaw;
        if (flaw != 0) return;
        if (key.is_number) work->status = kc_sums_add_u64(&handle->sums, key.number, value);
        else work->status = kc_sums_add_bytes(&handle->sums, key.bytes, (size_t)key.count, value);
        if (work->status != KC_OK) return;
        own->added++;
    }
}

/* Sets the bits of the keys of the dictionary that rows have. Returns 0, or the flaw of a row. */
static int mark_used(const ColumnWork *own, uint8_t *used) {
    for (int64_t row = 0; row < own->column->length; row++) {
        int64_t index, at;
        int flaw = is_present(own->column, row) ? index_at(own, row, &index) : MISSING;
        if (flaw == MISSING && own->skips) continue;
        if (flaw != 0) return flaw;
        at = own->dictionary->offset + index;
        used[at >> 3] |= (uint8_t)(1 << (at & 7));
    }
    return 0;
}

/* Inserts the keys of a column into a theta sketch. Returns 0, -1 with an error, or a flaw. */
static int insert_column(Object *o, ColumnWork *own, const Column *column) {
    if (column->present == NULL && (column->form.kind == SIGNED || column->form.kind == UNSIGNED)) {
        Items items = items_of_column(column);
        return add_items(o, &items, NULL, 0, &own->added);
    }
    bool has_runs = column->form.kind == OFFSETS || column->form.kind == LONG_OFFSETS || column->form.kind == FIXED;
    own->column = column;
    own->work = (Work){.add = has_runs ? insert_runs : insert_copies, .count = column->length};
    return do_work(o, &own->work);
}

/* Inserts the keys of a dictionary that rows have, each once. Returns as insert_column. */
static int insert_used(Object *o, ColumnWork *own) {
    Column chosen = *own->dictionary;
    uint8_t *used = PyMem_Calloc((size_t)(chosen.offset + chosen.length) / 8 + 1, 1);
    int flaw;
    if (used == NULL) return PyErr_NoMemory(), -1;
    Py_BEGIN_ALLOW_THREADS
    flaw = mark_used(own, used);
    Py_END_ALLOW_THREADS
    chosen.present = used;
    own->skips = true;
    if (flaw == 0) flaw = insert_column(o, own, &chosen);
    PyMem_Free(used);
    return flaw;
}

static int add_column(Object *o, ColumnWork *own) {
    if (!o->kind->of_sums) return own->dictionary != NULL ? insert_used(o, own) : insert_column(o, own, own->column);
    own->work = (Work){.add = add_sums_of_rows, .count = own->column->length};
    return do_work(o, &own->work);
}

/* ---- Arrays and streams ---- */

/* What is done with each array. Returns -1 with an error. */
typedef int (*Taker)(const Schema *, const Array *, void *what);

/* The error of a stream. */
static int refuse_stream(Stream *stream, int status) {
    const char *reason = stream->get_last_error != NULL ? stream->get_last_error(stream) : NULL;
    PyObject *error = PyObject_CallFunction(PyExc_OSError, "is", status, reason != NULL ? reason : "the Arrow stream gave no reason");
    if (error != NULL) PyErr_SetObject((PyObject *)Py_TYPE(error), error);
    Py_XDECREF(error);
    return -1;
}

/* Takes the arrays of a stream. Its calls may wait for threads that need the interpreter's lock, so they don't have it. */
static int take_stream(Stream *stream, Taker take, void *what) {
    Schema schema = {0};
    int status, failed = 0;
    if (stream->release == NULL) return refuse_array("the Arrow stream was read already");
    WITHOUT_LOCK(status, stream->get_schema(stream, &schema));
    if (status != 0) return refuse_stream(stream, status);
    while (failed == 0) {
        Array array = {0};
        WITHOUT_LOCK(status, stream->get_next(stream, &array));
        if (status != 0) failed = refuse_stream(stream, status);
        if (status != 0 || array.release == NULL) break;
        failed = take(&schema, &array, what);
        Error error = put_aside();
        array.release(&array);
        put_back(error);
    }
    Error error = put_aside();
    if (schema.release != NULL) schema.release(&schema);
    put_back(error);
    return failed;
}

static int refuse_capsules(void) {
    PyErr_SetString(PyExc_TypeError, "__arrow_c_array__ or __arrow_c_stream__ returned no capsules of Arrow");
    return -1;
}

/* Takes the array of two capsules, or those of the stream of one. The capsules free them. */
static int take_each(PyObject *capsules, Taker take, void *what) {
    if (!PyTuple_Check(capsules)) return refuse_capsules();
    PyObject *first = PyTuple_Size(capsules) > 0 ? PyTuple_GetItem(capsules, 0) : NULL;
    if (PyTuple_Size(capsules) == 1 && PyCapsule_IsValid(first, "arrow_array_stream"))
        return take_stream(PyCapsule_GetPointer(first, "arrow_array_stream"), take, what);
    PyObject *second = PyTuple_Size(capsules) == 2 ? PyTuple_GetItem(capsules, 1) : NULL;
    if (second == NULL || !PyCapsule_IsValid(first, "arrow_schema") || !PyCapsule_IsValid(second, "arrow_array")) return refuse_capsules();
    const Schema *schema = PyCapsule_GetPointer(first, "arrow_schema");
    const Array *array = PyCapsule_GetPointer(second, "arrow_array");
    if (schema->release == NULL || array->release == NULL) return refuse_array("the Arrow array was read already");
    return take(schema, array, what);
}

/* The columns of an array and of its dictionary; the second is null if it has none. */
static int columns_of(const Schema *schema, const Array *array, Column columns[2], const Column **dictionary) {
    Form form;
    *dictionary = NULL;
    if (form_of(schema->format, &form) || column_of(array, form, &columns[0])) return -1;
    if (schema->dictionary == NULL) return 0;
    if (array->dictionary == NULL || (form.kind != SIGNED && form.kind != UNSIGNED))
        return refuse_array("the Arrow array has no indices of a dictionary");
    if (schema->dictionary->dictionary != NULL) return refuse_array("the dictionary of the Arrow array has a dictionary; pass its values");
    if (form_of(schema->dictionary->format, &form) || column_of(array->dictionary, form, &columns[1])) return -1;
    *dictionary = &columns[1];
    return 0;
}

/* Where the keys of arrays are added. */
typedef struct {
    Object *o;
    const Items *values;
    uint64_t value;
    Py_ssize_t rows, added;
    bool skips, is_stream;
} Adding;

static int add_array_of(const Schema *schema, const Array *array, void *what) {
    Adding *to = what;
    Column columns[2];
    const Column *dictionary;
    if (columns_of(schema, array, columns, &dictionary)) return -1;
    if (to->values != NULL && !to->is_stream && array->length != to->values->count)
        return refuse_array("there are not as many values as keys");
    ColumnWork *own = PyMem_Malloc(sizeof *own);
    if (own == NULL) return PyErr_NoMemory(), -1;
    own->column = columns;
    own->dictionary = dictionary;
    own->values = to->values;
    own->value = to->value;
    own->first_value = to->rows;
    own->skips = to->skips;
    own->added = 0;
    int flaw = add_column(to->o, own);
    if (flaw > 0) flaw = refuse_flaw(flaw);
    to->rows += array->length;
    to->added += own->added;
    PyMem_Free(own);
    return flaw;
}

/* Adds the keys of an array or a stream, and to a sketch of sums their values, or each with one value. `added` becomes how many were
 * added to a sketch of sums. */
int add_columns(Object *o, PyObject *capsules, const Items *values, uint64_t value, bool skips, Py_ssize_t *added) {
    bool is_stream = PyTuple_Check(capsules) && PyTuple_Size(capsules) == 1;
    Adding to = {.o = o, .values = values, .value = value, .skips = skips, .is_stream = is_stream};
    int status = take_each(capsules, add_array_of, &to);
    *added = to.added;
    if (status == 0 && values != NULL && to.rows < values->count) return refuse_array("there are more values than keys");
    return status;
}

/* ---- Values ---- */

/* Numbers that were read. */
typedef struct {
    uint64_t *numbers;
    size_t count;
} Numbers;

static int take_numbers(const Schema *schema, const Array *array, void *what) {
    Numbers *found = what;
    Column columns[2];
    const Column *dictionary;
    if (columns_of(schema, array, columns, &dictionary)) return -1;
    if (dictionary != NULL || !(columns->form.kind == SIGNED || columns->form.kind == UNSIGNED)) {
        PyErr_Format(PyExc_TypeError, "a value is a whole number; the values are an Arrow array of the format '%s'", schema->format);
        return -1;
    }
    uint64_t *numbers = PyMem_Realloc(found->numbers, 8 * (found->count + (size_t)columns->length) + 8);
    if (numbers == NULL) return PyErr_NoMemory(), -1;
    found->numbers = numbers;
    Items items = items_of_column(columns);
    for (int64_t row = 0; row < columns->length; row++) {
        if (!is_present(columns, row)) {
            PyErr_SetString(PyExc_TypeError, "a value is a whole number, and some of these are missing; fill them first");
            return -1;
        }
        if (is_negative_at(&items, row)) return refuse_flaw(NEGATIVE_VALUE);
        numbers[found->count++] = number_at(&items, row);
    }
    return 0;
}

/* The whole numbers from 0 of an array or a stream, as the bytes of an array of 64 bits. */
PyObject *arrow_numbers(PyObject *module, PyObject *capsules) {
    Numbers found = {NULL, 0};
    (void)module;
    PyObject *bytes = NULL;
    if (take_each(capsules, take_numbers, &found) == 0)
        bytes = PyBytes_FromStringAndSize((const char *)found.numbers, (Py_ssize_t)(8 * found.count));
    PyMem_Free(found.numbers);
    return bytes;
}
