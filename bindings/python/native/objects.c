/* Objects: how they are made, used by one thread at a time, and freed; also in a child process after a fork.
 *
 * All of this happens with the interpreter's lock, which alone guards what is here. A thread in a long call has given that lock
 * up; its object is busy. Threads that want the object wait in a queue, each by a lock of its own, and get it in their order.
 *
 * A fork copies only the thread that calls it. A long call of another thread isn't continued in the child: its object may be
 * half changed, and nobody will end the call. So the child waits for nothing that was busy at the fork, and refuses it. */
#include "native.h"
#include <pthread.h>

static unsigned forks; /* how many forks led to this process */

static void count_fork(void) { forks++; }

/* Counts the forks from now on, in the children. */
int watch_forks(void) {
    static bool watches;
    if (!watches && pthread_atfork(NULL, NULL, count_fork) != 0) {
        PyErr_NoMemory();
        return -1;
    }
    watches = true;
    return 0;
}

/* Whether another thread was in a call on the object when the process forked. */
bool is_left_over(const Object *o) { return o->busy && o->forks != forks; }

/* Takes out the object that another thread was using at the fork. It may be half changed, so it isn't freed. */
static void drop_left_over(Object *o) {
    static const Handle nothing;
    if (!is_left_over(o)) return;
    o->handle = nothing;
    o->busy = false;
    o->first = NULL;
}

/* A thread that waits for an object. */
struct Waiter {
    PyThread_type_lock lock; /* locked until it is its turn */
    Waiter *next;
};

/* Waits for its turn on an object that is busy, which then stays busy, for the caller. Returns false if memory is refused. */
static bool wait_in_queue(Object *o) {
    Waiter self = {PyThread_allocate_lock(), NULL}, **last = &o->first;
    if (self.lock == NULL) return false;
    PyThread_acquire_lock(self.lock, WAIT_LOCK);
    while (*last != NULL) last = &(*last)->next;
    *last = &self;
    Py_BEGIN_ALLOW_THREADS
    PyThread_acquire_lock(self.lock, WAIT_LOCK);
    Py_END_ALLOW_THREADS
    PyThread_release_lock(self.lock);
    PyThread_free_lock(self.lock);
    return true;
}

/* Makes the object busy, without an error of Python if it can't. */
static kc_status enter(Object *o) {
    if (is_left_over(o)) return KC_FAILED;
    if (o->busy) return wait_in_queue(o) ? KC_OK : KC_OUT_OF_MEMORY;
    o->busy = true;
    o->forks = forks;
    return KC_OK;
}

static int refuse_left_over(kc_status status) {
    refuse(status, "another thread was in a call on this object when the process forked; reset it, or make another");
    return -1;
}

/* Makes the object busy, for a call without the interpreter's lock; `end` ends it. No code of Python may run in between, since it
 * may use the same object: so no object of Python is made that the garbage collector knows, and no error. */
int begin(Object *o) {
    kc_status status = enter(o);
    return status == KC_OK ? 0 : refuse_left_over(status);
}

/* Makes an operator busy, and then a sketch. */
int begin_two(Object *first, Object *second) {
    kc_status status = enter(first);
    if (status != KC_OK) return refuse_left_over(status);
    status = enter(second);
    if (status == KC_OK) return 0;
    end(first);
    return refuse_left_over(status);
}

/* The call has ended: the object is the next one's, if a thread waits. */
void end(Object *o) {
    Waiter *next = o->first;
    o->busy = next != NULL;
    if (next == NULL) return;
    o->first = next->next;
    PyThread_release_lock(next->lock);
}

/* Waits for its turn on an object that is busy. Whoever is next doesn't run before the caller gives up the interpreter's lock. */
int wait_for(Object *o) {
    if (begin(o)) return -1;
    end(o);
    return 0;
}

/* Refuses an object that was never made: a class that is derived from its type didn't call __init__. */
int require_made(Object *o) {
    bool is_made = o->kind != NULL ? o->handle.theta.object != NULL : o->image != NULL;
    if (is_made) return 0;
    PyErr_Format(PyExc_RuntimeError, "this %R was not made: its __init__ was not called", (PyObject *)Py_TYPE((PyObject *)o));
    return -1;
}

/* Puts the object that a call has made into an object that isn't busy, and frees the one that was there. */
void put_object(Object *o, Handle *made) {
    Handle old = o->handle;
    o->handle = *made;
    o->kind->free(&old);
}

/* Sets the error of settings that the library refused. */
static void refuse_settings(const Object *o, const Settings *s, kc_status status) {
    char reason[400];
    unsigned long long seed = s->seed, theta = s->starting_theta;
    if (o->kind->state != NULL)
        PyOS_snprintf(reason, sizeof reason,
                      "lg_k is from 4 to 26, a resize factor 1, 2, 4 or 8, a theta from 1 to 2^63 - 1, and the hash of a seed isn't 0;"
                      " here are lg_k %u, resize factor %u, theta %llu, seed %llu", s->lg_k, s->resize_factor, theta, seed);
    else if (o->kind->reset != NULL)
        PyOS_snprintf(reason, sizeof reason, "lg_k is from 4 to 26, and the hash of a seed isn't 0; here are lg_k %u, seed %llu",
                      s->lg_k, seed);
    else
        PyOS_snprintf(reason, sizeof reason, "the hash of the seed %llu is 0; pass another", seed);
    refuse(status, reason);
}

/* Makes an object of these settings anew. If that is refused, the one that was there stays. */
int make_object(Object *o, const Settings *settings) {
    Handle made = {{0}};
    kc_status status = o->kind->make(&made, settings);
    if (status != KC_OK) {
        refuse_settings(o, settings, status);
        return -1;
    }
    drop_left_over(o);
    if (ready(o)) {
        o->kind->free(&made);
        return -1;
    }
    put_object(o, &made);
    return 0;
}

/* tp_dealloc. An object that another thread used at a fork isn't freed in the child: it may be half changed. */
void free_object(PyObject *self) {
    Object *o = (Object *)self;
    PyTypeObject *type = Py_TYPE(self);
    if (o->kind != NULL && !o->busy) o->kind->free(&o->handle);
    Py_CLEAR(o->image);
    freefunc free_memory = (freefunc)PyType_GetSlot(type, Py_tp_free);
    free_memory(self);
    Py_DECREF(type);
}
