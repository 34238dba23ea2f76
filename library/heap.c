/* heap.c: what the library asks of a heap, by malloc, realloc and free. All three are of one allocator, which aligns each block to 16, as those of Linux do. */
#include "heap.h"

#include <stdlib.h>

/* What stands for a block where there is none: it is never read, written or freed. */
static char nothing[16] __attribute__((aligned(16)));

static struct tried tried_of(void *block)
{
    return (struct tried){block != NULL, block != NULL ? block : nothing};
}

struct tried rattle_alloc(size_t size, size_t align)
{
    return tried_of(malloc(size != 0 ? size : align));
}

struct tried rattle_realloc(void *block, size_t kept, size_t size, size_t align)
{
    (void)kept;
    return tried_of(realloc(block, size != 0 ? size : align));
}

void rattle_dealloc(void *block)
{
    free(block);
}
