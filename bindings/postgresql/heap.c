/* See heap.h. A block begins with a head of 16 bytes, behind up to 8 bytes more: the library wants blocks that are aligned to 16, and
 * PostgreSQL aligns to 8. */
#include "heap.h"
#include "utils/memutils.h"

#define HIDDEN __attribute__((visibility("hidden")))

typedef struct {
    void *chunk; /* what PostgreSQL returned */
    Size size;   /* what the library requested */
} Head;

MemoryContext theta_sketch_heap;

HIDDEN void *theta_sketch_malloc(size_t size);
HIDDEN void *theta_sketch_realloc(void *block, size_t size);
HIDDEN void theta_sketch_free(void *block);

static Head *head_of(void *block) { return (Head *)block - 1; }

void *theta_sketch_malloc(size_t size) {
    if (size > MaxAllocHugeSize - sizeof(Head) - 8) return NULL;
    char *chunk = MemoryContextAllocExtended(theta_sketch_heap, size + sizeof(Head) + 8, MCXT_ALLOC_HUGE | MCXT_ALLOC_NO_OOM);
    if (chunk == NULL) return NULL;
    void *block = (void *)TYPEALIGN(16, chunk + sizeof(Head));
    *head_of(block) = (Head){chunk, size};
    return block;
}

void theta_sketch_free(void *block) {
    if (block != NULL) pfree(head_of(block)->chunk);
}

void *theta_sketch_realloc(void *block, size_t size) {
    void *larger = theta_sketch_malloc(size);
    if (larger == NULL || block == NULL) return larger;
    memcpy(larger, block, Min(size, head_of(block)->size));
    theta_sketch_free(block);
    return larger;
}
