/* The items of arrays as keys, without an object of Python for each. */
#include "native.h"
#include <string.h>

/* After as many items other threads get a turn on the object, and handlers of signals are called. */
#define ITEMS_IN_TURN (1 << 20)

static uint64_t ends_of_numbers[AT_A_CALL];

/* Where each of many numbers of eight bytes ends. */
void prepare_arrays(void) {
    for (size_t at = 0; at < AT_A_CALL; at++) ends_of_numbers[at] = 8 * (at + 1);
}

/* Describes the items of a view of one dimension, whose numbers have the machine's order of bytes. */
int items_of(const Py_buffer *view, Items *items) {
    const char *format = view->format != NULL ? view->format : "B";
    format += strspn(format, "@=<");
    format += strspn(format, "0123456789");
    bool is_number = view->itemsize == 1 || view->itemsize == 2 || view->itemsize == 4 || view->itemsize == 8;
    items->form = 0;
    if (is_number && strchr("BHILQN?", format[0]) != NULL) items->form = 'u';
    if (is_number && strchr("bhilqn", format[0]) != NULL) items->form = 'i';
    if (format[0] == 's') items->form = 'S';
    if (format[0] == 'w' && view->itemsize % 4 == 0) items->form = 'U';
    if (view->ndim != 1 || format[0] == 0 || format[1] != 0 || items->form == 0) {
        PyErr_Format(PyExc_TypeError, "an array of keys has one dimension, of whole numbers or text, not %d of the format '%s'",
                     view->ndim, view->format != NULL ? view->format : "B");
        return -1;
    }
    items->at = view->buf;
    /* An array of ctypes has no strides. */
    items->count = view->shape != NULL ? view->shape[0] : view->len / view->itemsize;
    items->step = view->strides != NULL ? view->strides[0] : view->itemsize;
    items->size = view->itemsize;
    return 0;
}

/* A number as 64 bits, with its sign in front if it has one. */
uint64_t number_at(const Items *items, Py_ssize_t at) {
    const char *from = items->at + at * items->step;
    bool has_sign = items->form == 'i';
    uint64_t eight;
    uint32_t four;
    uint16_t two;
    switch (items->size) {
    case 8: return memcpy(&eight, from, 8), eight;
    case 4: return memcpy(&four, from, 4), has_sign ? (uint64_t)(int64_t)(int32_t)four : four;
    case 2: return memcpy(&two, from, 2), has_sign ? (uint64_t)(int64_t)(int16_t)two : two;
    default: return has_sign ? (uint64_t)(int64_t)(int8_t)*from : (uint8_t)*from;
    }
}

/* Whether a number with a sign is below 0. */
bool is_negative_at(const Items *items, Py_ssize_t at) { return items->form == 'i' && number_at(items, at) >> 63 != 0; }

static uint32_t code_at(const char *text, Py_ssize_t at) {
    uint32_t code;
    memcpy(&code, text + 4 * at, 4);
    return code;
}

/* Writes a code point in UTF-8, and returns behind it; null if text has no such code point. */
static char *put_code(char *out, uint32_t code) {
    if (code < 0x80) {
        *out++ = (char)code;
        return out;
    }
    if (code > 0x10FFFF || (code >= 0xD800 && code < 0xE000)) return NULL;
    int more = code < 0x800 ? 1 : code < 0x10000 ? 2 : 3;
    *out++ = (char)((0xFF << (7 - more) & 0xFF) | code >> 6 * more);
    while (more-- > 0) *out++ = (char)(0x80 | (code >> 6 * more & 0x3F));
    return out;
}

/* How many code points or bytes a text has: zeros at its end fill up the item. */
static Py_ssize_t length_at(const Items *items, Py_ssize_t at) {
    const char *text = items->at + at * items->step;
    Py_ssize_t count = items->form == 'U' ? items->size / 4 : items->size;
    while (count > 0 && (items->form == 'U' ? code_at(text, count - 1) == 0 : text[count - 1] == 0)) count--;
    return count;
}

/* Writes the bytes of a text, at most the size of an item, and returns their number; -1 if they are no text. */
static Py_ssize_t text_at(const Items *items, Py_ssize_t at, char *out) {
    const char *text = items->at + at * items->step;
    Py_ssize_t count = length_at(items, at);
    if (items->form == 'S') {
        memcpy(out, text, (size_t)count);
        return count;
    }
    char *to = out;
    for (Py_ssize_t code = 0; code < count && to != NULL; code++) to = put_code(to, code_at(text, code));
    return to != NULL ? to - out : -1;
}

/* The error of an item that is no text. */
static void refuse_text(const Items *items, Py_ssize_t at) {
    int order = -1;
    PyObject *text = PyUnicode_DecodeUTF32(items->at + at * items->step, 4 * length_at(items, at), "surrogatepass", &order);
    PyObject *bytes = text != NULL ? PyUnicode_AsUTF8String(text) : NULL;
    if (bytes != NULL) PyErr_SetString(PyExc_ValueError, "an item of the array is no text");
    Py_XDECREF(bytes);
    Py_XDECREF(text);
}

/* Why an item is refused. */
enum { NO_TEXT = 1, NEGATIVE_VALUE };

/* Work on an array. */
typedef struct {
    Work work;
    const Items *items, *values;
    uint64_t value;
    size_t room;
    char *bytes; /* the bytes of texts, and of keys of sums */
    uint64_t ends[AT_A_CALL], amounts[AT_A_CALL];
} ArrayWork;

/* Inserts at most AT_A_CALL numbers, each by its eight bytes. */
kc_status insert_numbers(kc_theta *sketch, const void *numbers, size_t count) {
    return kc_theta_update_strings(sketch, numbers, 8 * count, ends_of_numbers, count);
}

static void insert_items(Handle *handle, Work *work, Py_ssize_t to) {
    ArrayWork *own = (ArrayWork *)work;
    const Items *items = own->items;
    bool is_dense = items->size == 8 && items->step == 8;
    while (work->done < to && work->status == KC_OK) {
        Py_ssize_t count = to - work->done < AT_A_CALL ? to - work->done : AT_A_CALL;
        const void *numbers = items->at + 8 * work->done;
        if (!is_dense) {
            for (Py_ssize_t at = 0; at < count; at++) own->ends[at] = number_at(items, work->done + at);
            numbers = own->ends;
        }
        work->status = insert_numbers(&handle->theta, numbers, (size_t)count);
        if (work->status == KC_OK) work->done += count;
    }
}

static void insert_texts(Handle *handle, Work *work, Py_ssize_t to) {
    ArrayWork *own = (ArrayWork *)work;
    while (work->done < to && work->status == KC_OK && work->flaw == 0) {
        size_t used = 0;
        Py_ssize_t count = 0;
        while (count < AT_A_CALL && work->done + count < to && (size_t)own->items->size <= own->room - used) {
            Py_ssize_t length = text_at(own->items, work->done + count, own->bytes + used);
            if (length < 0) work->flaw = NO_TEXT;
            if (length < 0) break;
            used += (size_t)length;
            own->ends[count++] = used;
        }
        work->status = kc_theta_update_strings(&handle->theta, own->bytes, used, own->ends, (size_t)count);
        if (work->status == KC_OK) work->done += count;
    }
}

/* Puts the next item into the call that is made ready, with its value. Returns whether it could. */
static bool put_item(ArrayWork *own, Py_ssize_t at, Py_ssize_t place, size_t *used) {
    const Items *items = own->items, *values = own->values;
    bool is_number = items->form == 'u' || items->form == 'i';
    uint64_t number = is_number ? number_at(items, at) : 0;
    Py_ssize_t length = is_number ? 8 : text_at(items, at, own->bytes + *used);
    if (values != NULL && is_negative_at(values, at)) own->work.flaw = NEGATIVE_VALUE;
    else if (length < 0) own->work.flaw = NO_TEXT;
    if (own->work.flaw != 0) return false;
    if (is_number) memcpy(own->bytes + *used, &number, 8);
    *used += (size_t)length;
    own->ends[place] = *used;
    own->amounts[place] = values != NULL ? number_at(values, at) : own->value;
    return true;
}

static void add_sums(Handle *handle, Work *work, Py_ssize_t to) {
    ArrayWork *own = (ArrayWork *)work;
    size_t most = own->items->form == 'u' || own->items->form == 'i' ? 8 : (size_t)own->items->size;
    while (work->done < to && work->status == KC_OK && work->flaw == 0) {
        size_t used = 0;
        Py_ssize_t count = 0;
        uint64_t added = 0;
        while (count < AT_A_CALL && work->done + count < to && most <= own->room - used) {
            if (!put_item(own, work->done + count, count, &used)) break;
            count++;
        }
        work->status = kc_sums_add_strings(&handle->sums, own->bytes, used, own->ends, (size_t)count, own->amounts, (size_t)count, &added);
        work->done += (Py_ssize_t)added;
    }
}

/* Does the work, in turns with other threads. Returns -1 with an error, or the flaw of the next key, of which there is no error yet. */
int do_work(Object *o, Work *work) {
    while (work->done < work->count) {
        Py_ssize_t to = work->count - work->done < ITEMS_IN_TURN ? work->count : work->done + ITEMS_IN_TURN;
        if (work->count < MANY) {
            if (ready(o)) return -1;
            work->add(&o->handle, work, to);
        } else {
            if (begin(o)) return -1;
            Py_BEGIN_ALLOW_THREADS
            work->add(&o->handle, work, to);
            Py_END_ALLOW_THREADS
            end(o);
        }
        if (work->status != KC_OK) return refuse_call(o, work->status);
        if (work->flaw != 0) return work->flaw;
        if (PyErr_CheckSignals()) return -1;
    }
    return 0;
}

/* Adds the items as keys, and to a sketch of sums their values, or each with one value. `added` becomes how many were added. */
int add_items(Object *o, const Items *items, const Items *values, uint64_t value, Py_ssize_t *added) {
    bool is_text = items->form == 'S' || items->form == 'U';
    size_t room = !is_text && !o->kind->of_sums ? 0 : items->size > ROOM ? (size_t)items->size : ROOM;
    ArrayWork *own = PyMem_Malloc(sizeof *own + room);
    if (own == NULL) {
        PyErr_NoMemory();
        return -1;
    }
    *own = (ArrayWork){.items = items, .values = values, .value = value, .room = room, .bytes = (char *)(own + 1)};
    own->work = (Work){.add = o->kind->of_sums ? add_sums : is_text ? insert_texts : insert_items, .count = items->count};
    int flaw = do_work(o, &own->work);
    if (flaw == NO_TEXT) refuse_text(items, own->work.done);
    if (flaw == NEGATIVE_VALUE) refuse(KC_INVALID_ARGUMENT, "a value is from 0 to 2^64 - 1, not below 0");
    *added = own->work.done;
    PyMem_Free(own);
    return flaw != 0 ? -1 : 0;
}
