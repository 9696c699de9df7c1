/* The compiled module kaftanclay._native: the objects of kaftanclay.h as types of Python.
 *
 * It passes arguments to the calls of the header, and their statuses on as errors. It computes nothing that a call returns.
 *
 * Threads. A short call keeps the interpreter's lock, so no other thread is in it meanwhile. A long one marks its objects as busy
 * and gives the interpreter's lock up; whoever finds an object busy waits for its turn (objects.c). */
#ifndef NATIVE_H
#define NATIVE_H
#define PY_SSIZE_T_CLEAN
#include <Python.h>
#include <kaftanclay.h>
#include <stdbool.h>

#if !defined(__BYTE_ORDER__) || __BYTE_ORDER__ != __ORDER_LITTLE_ENDIAN__ || UINTPTR_MAX != UINT64_MAX
#error "kaftanclay needs a machine of 64 bits with the lowest byte first"
#endif

enum {
    AT_A_CALL = 1024,    /* keys in a call of the library */
    ROOM = 1 << 15,      /* bytes of these */
    LONG_KEY = 1 << 16,  /* a key of as many bytes is hashed without the interpreter's lock */
    MANY = 1024          /* a call on as many entries or keys is a long one */
};

/* Any of the handles of the header. */
typedef union {
    kc_theta theta;
    kc_sums sums;
    kc_union of_union;
    kc_intersection of_intersection;
    kc_sums_union of_sums_union;
    kc_sums_intersection of_sums_intersection;
} Handle;

/* The handle of a result. */
typedef union {
    kc_compact theta;
    kc_compact_sums sums;
} Result;

/* What a sketch or an operator is made with. Unions have the first two, intersections only the seed, and those of sums the mode. */
typedef struct {
    uint8_t lg_k;
    uint64_t seed;
    uint32_t resize_factor;
    uint64_t starting_theta;
    bool guesses_lg_k; /* nobody passed lg_k: of a union it is the default, of a sketch a guess by an image, which doesn't record it */
    uint8_t mode;      /* of the family of tuple sketches: KC_SUM, KC_MIN or KC_MAX; else KC_SUM */
} Settings;

/* The calls of one kind of object. A call that a kind lacks is null. */
typedef struct {
    kc_status (*make)(Handle *, const Settings *);
    kc_status (*free)(Handle *);
    /* Of sketches that take updates. */
    kc_status (*state)(Handle *, kc_state *);
    kc_status (*image)(Handle *, void *, size_t, uint64_t *);
    kc_status (*trim)(Handle *);
    kc_status (*clone)(Handle *, Handle *);
    kc_status (*add_bytes)(Handle *, const void *, size_t, uint64_t value);
    kc_status (*add_u64)(Handle *, uint64_t, uint64_t value);
    size_t entry; /* about how many bytes an entry has in an image */
    /* Of unions and intersections. */
    kc_status (*add)(Handle *, Handle *sketch);
    kc_status (*add_compact)(Handle *, Result *sketch);
    kc_status (*reset)(Handle *);
    kc_status (*result)(Handle *, Result *);
    bool of_sums; /* of the family of tuple sketches, not of theta sketches */
} Kind;

extern const Kind theta_kind, sums_kind, union_kind, intersection_kind, sums_union_kind, sums_intersection_kind;

typedef struct Waiter Waiter;

typedef struct {
    PyObject_HEAD
    const Kind *kind;  /* null for a compact sketch */
    Handle handle;     /* without an object until it is made */
    Settings settings;
    PyObject *image;   /* of a compact sketch: its bytes, or null until it is made */
    kc_state state;    /* of a compact sketch */
    bool busy;         /* a thread is in a long call */
    bool has_warned;   /* a union has warned that it is too small */
    unsigned forks;    /* how many forks there were when it became busy */
    Waiter *first;     /* the threads that wait for it, if it is busy */
} Object;

/* The types, and the functions of the package that are called: module.c finds them when the module is loaded. */
extern PyTypeObject *sketch_type, *theta_type, *sums_type, *compact_theta_type, *compact_sums_type;
extern PyObject *error_of_status, *arranged, *arranged_pairs, *is_missing, *refusal_of_key, *refusal_of_missing, *sketch_warning;

/* errors.c */
typedef struct {
    PyObject *type, *value, *traceback;
} Error;
Error put_aside(void);
void put_back(Error error);
/* These return -1 or null, with an error set. */
PyObject *refuse(kc_status status, const char *reason);
int refuse_range(const char *range, PyObject *number);
int number_of(PyObject *value, const char *range, uint64_t most, uint64_t *out);
int mode_of(PyObject *word, uint8_t *mode);
PyObject *number_of_wide(kc_wide wide);
PyObject *word_of(uint8_t mode);
int arguments(const char *call, const char *const *names, Py_ssize_t positional, Py_ssize_t needed, PyObject *const *given,
              Py_ssize_t count, PyObject *by_name, PyObject **values);

/* objects.c */
int watch_forks(void);
bool is_left_over(const Object *o);
int wait_for(Object *o);
int begin(Object *o);
int begin_two(Object *first, Object *second);
void end(Object *o);
int require_made(Object *o);
int make_object(Object *o, const Settings *settings);
void put_object(Object *o, Handle *made);
PyObject *new_object(PyTypeObject *type, PyObject *arguments, PyObject *by_name);
void free_object(PyObject *self);

/* 0 once no other thread is in a call on the object, for a short call. It stays so until the interpreter's lock is given up. */
static inline int ready(Object *o) { return o->busy ? wait_for(o) : 0; }

/* Runs `call`, which gives a status, without the interpreter's lock. */
#define WITHOUT_LOCK(status, call) \
    do { Py_BEGIN_ALLOW_THREADS (status) = (call); Py_END_ALLOW_THREADS } while (0)

/* keys.c */

/* How many keys are read, as the package's function `arranged` says: as objects of Python, as the items of an array, or as the columns
 * of Arrow. */
enum { OBJECTS, ITEMS, COLUMNS };

typedef struct {
    bool is_number;
    uint64_t number;
    const char *bytes; /* of the key itself, or of `owner` */
    Py_ssize_t count;
    PyObject *owner;   /* null, or what has to be dropped after use */
} Key;
int key_of(PyObject *object, Key *key);
int add_key(Object *o, PyObject *object, uint64_t value);
int refuse_call(Object *o, kc_status status);
int refuse_by(PyObject *function, PyObject *object);
PyObject *theta_update_many(PyObject *self, PyObject *const *given, Py_ssize_t count, PyObject *by_name);
PyObject *sums_update_many(PyObject *self, PyObject *const *given, Py_ssize_t count, PyObject *by_name);
PyObject *add_groups(PyObject *module, PyObject *given);

/* arrays.c: the items of an array, read without the interpreter's lock. */

/* Work on many keys, some at a time. The next key is refused if there is a flaw, or if the library refused it. */
typedef struct Work Work;
struct Work {
    void (*add)(Handle *, Work *, Py_ssize_t to); /* adds keys, up to that one */
    Py_ssize_t count, done;                       /* all keys, and those that were added or skipped */
    kc_status status;
    int flaw;                                     /* 0, or why a key is refused, as its reader numbers the reasons */
};
int do_work(Object *o, Work *work);

typedef struct {
    const char *at;
    Py_ssize_t count, step, size; /* how many items, and the bytes from one to the next and of each */
    char form;                    /* 'u' or 'i': a number without or with a sign; 'S' or 'U': text of bytes or of code points */
} Items;
int items_of(const Py_buffer *view, Items *items);
uint64_t number_at(const Items *items, Py_ssize_t at);
bool is_negative_at(const Items *items, Py_ssize_t at);
kc_status insert_numbers(kc_theta *sketch, const void *numbers, size_t count);
int add_items(Object *o, const Items *items, const Items *values, uint64_t value, Py_ssize_t *added);
void prepare_arrays(void);

/* arrow.c: the columns of Arrow's C data interface. */
int add_columns(Object *o, PyObject *capsules, const Items *values, uint64_t value, bool skips, Py_ssize_t *added);
PyObject *arrow_numbers(PyObject *module, PyObject *capsules);

/* sketches.c, merges.c: what the types have. */
extern PyType_Spec sketch_spec, theta_spec, sums_spec, compact_theta_spec, compact_sums_spec;
extern PyType_Spec union_spec, intersection_spec, sums_union_spec, sums_intersection_spec;

/* images.c */
extern PyMethodDef functions[];
typedef kc_status (*Writer)(void *what, void *out, size_t room, uint64_t *length);
typedef struct {
    char *bytes;
    uint64_t length;
} Output;
kc_status write_output(Writer writer, void *what, size_t room, bool is_long, Output *output);
PyObject *bytes_of_output(kc_status status, Output *output);
kc_status read_whole(bool of_sums, Result *sketch, const char *image, Py_ssize_t count, unsigned long long seed, kc_finding *found);
void free_result(bool of_sums, Result *sketch);
kc_status state_of_result(bool of_sums, const Result *sketch, kc_state *state);
PyObject *refuse_bytes(kc_status status, const kc_finding *it);
PyObject *result_of_compact(kc_compact *made);
PyObject *result_of_sums(kc_compact_sums *made);
PyObject *state_as_tuple(const kc_state *state);
PyObject *short_text(kc_status status, const char *text, const uint64_t *length, PyObject *places);
kc_status read_entries(kc_compact_sums *sketch, uint64_t **entries, uint64_t *count);

/* A module's function or a method that takes its arguments by position and by name. */
#define METHOD(name, function, text) {name, (PyCFunction)(void (*)(void))(function), METH_FASTCALL | METH_KEYWORDS, text}
#endif
