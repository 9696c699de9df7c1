/* The destructor of the capsules of arrow_producer.py: it releases a structure that nobody has released. An error that is set
 * stays. */
void *PyCapsule_GetPointer(void *capsule, const char *name);
const char *PyCapsule_GetName(void *capsule);
void *PyCapsule_GetContext(void *capsule);
void PyErr_Fetch(void **type, void **value, void **traceback);
void PyErr_Restore(void *type, void *value, void *traceback);

/* Called with the address of a structure that no capsule has any more. */
void (*dropped)(void *at);

/* The context of a capsule is the place of the release in its structure. */
void destroy(void *capsule) {
    void *type, *value, *traceback, *at = PyCapsule_GetPointer(capsule, PyCapsule_GetName(capsule));
    void (**release)(void *) = PyCapsule_GetContext(capsule);
    PyErr_Fetch(&type, &value, &traceback);
    if (*release) (*release)(at);
    dropped(at);
    PyErr_Restore(type, value, traceback);
}
