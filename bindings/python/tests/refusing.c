/* Loaded before Python (LD_PRELOAD), this refuses one request for memory: refuse(N) refuses the Nth one after it. */
#include <stddef.h>

void *__libc_malloc(size_t);
void *__libc_calloc(size_t, size_t);
void *__libc_realloc(void *, size_t);

static long left, refused;

/* Returns whether the request of the last call was refused, and refuses another one; of 0 none. */
long refuse(long nth) {
    long was = refused;
    left = nth;
    refused = 0;
    return was;
}

static int is_refused(void) {
    if (left == 0 || --left != 0) return 0;
    refused = 1;
    return 1;
}

void *malloc(size_t size) { return is_refused() ? NULL : __libc_malloc(size); }
void *calloc(size_t count, size_t size) { return is_refused() ? NULL : __libc_calloc(count, size); }
void *realloc(void *block, size_t size) { return is_refused() ? NULL : __libc_realloc(block, size); }
