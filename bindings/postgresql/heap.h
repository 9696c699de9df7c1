/* The memory of the library for C is PostgreSQL's: in the copy of it that is linked here, malloc, realloc and free have other names, and
 * those are defined in heap.c over memory contexts.
 *
 * So what a transition state retains is in the context of its aggregate. PostgreSQL frees it with that context, also after an error or
 * a cancelled query, and counts it for work_mem. No call raises an error or is interrupted inside the library: memory that is refused is
 * a null pointer there, and then a status. */
#ifndef THETA_SKETCH_HEAP_H
#define THETA_SKETCH_HEAP_H
#include "postgres.h"

/* The context that the next calls of the library request memory from. */
extern MemoryContext theta_sketch_heap __attribute__((visibility("hidden")));
#endif
