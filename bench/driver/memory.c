#include "memory.h"
#include <errno.h>

long requests, refused_at, held;
size_t bytes_asked;

void *__libc_malloc(size_t);
void *__libc_calloc(size_t, size_t);
void *__libc_realloc(void *, size_t);
void *__libc_memalign(size_t, size_t);
void __libc_free(void *);

static int refuses(size_t size)
{
    bytes_asked += size;
    return ++requests == refused_at;
}
void *own_memory(size_t size) { return __libc_calloc(1, size); }
void *malloc(size_t size)
{
    if (refuses(size))
        return NULL;
    held++;
    return __libc_malloc(size);
}
void *calloc(size_t count, size_t size)
{
    if (refuses(count * size))
        return NULL;
    held++;
    return __libc_calloc(count, size);
}
void *realloc(void *block, size_t size)
{
    if (refuses(size))
        return NULL;
    if (!block)
        held++;
    return __libc_realloc(block, size);
}
void *memalign(size_t align, size_t size)
{
    if (refuses(size))
        return NULL;
    held++;
    return __libc_memalign(align, size);
}
void *aligned_alloc(size_t align, size_t size) { return memalign(align, size); }
int posix_memalign(void **block, size_t align, size_t size)
{
    *block = memalign(align, size);
    return *block ? 0 : ENOMEM;
}
void free(void *block)
{
    if (block)
        held--;
    __libc_free(block);
}
