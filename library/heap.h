/* heap.h: what the core asks of a heap. */
#ifndef HEAP_H
#define HEAP_H

#include <stdbool.h>
#include <stddef.h>

/* A block, or that there is none. */
struct tried {
    bool ok;
    void *block;
};

/* A block of `size` bytes, aligned to `align`, which divides 16. */
struct tried rattle_alloc(size_t size, size_t align);

/* The block with `size` bytes, of which those that both sizes have are kept. */
struct tried rattle_realloc(void *block, size_t kept, size_t size, size_t align);

void rattle_dealloc(void *block);

#endif
