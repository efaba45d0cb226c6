/* The heap of the library, over malloc and free: each block is wiped before it is freed. `make lib HEAP=plain` uses the
 * heap of the Rattle kit in its place, which does not wipe. The 16 bytes before a block hold its size, since
 * rattle_dealloc does not receive it. */
#include "../c/fe2o3_sasl.h"

#include <stdbool.h>
#include <stdlib.h>
#include <string.h>

#define HEADER 16

/* Whether there is memory, and where: what the proved code expects of these functions. */
struct tried {
    bool ok;
    uint8_t *block;
};

struct tried rattle_alloc(size_t size, size_t align);
struct tried rattle_realloc(uint8_t *block, size_t kept, size_t size, size_t align);
void rattle_dealloc(uint8_t *block);

/* (an address for a block that there is not) */
static uint8_t nothing[HEADER];

/* New memory. `align` divides 16, as the header does. */
struct tried rattle_alloc(size_t size, size_t align)
{
    struct tried tried = {false, nothing};
    uint8_t *block;
    if (size == 0)
        size = align;
    block = size > SIZE_MAX - HEADER ? NULL : malloc(HEADER + size);
    if (block != NULL) {
        memcpy(block, &size, sizeof size);
        tried.ok = true;
        tried.block = block + HEADER;
    }
    return tried;
}

void rattle_dealloc(uint8_t *block)
{
    size_t size;
    memcpy(&size, block - HEADER, sizeof size);
    fe2o3_wipe(block, size);
    free(block - HEADER);
}

/* A block of another size that begins with the first `kept` bytes of this one. If there is no memory, this one stays.
 * It always moves, since realloc would free the old bytes without wiping them. */
struct tried rattle_realloc(uint8_t *block, size_t kept, size_t size, size_t align)
{
    struct tried tried = rattle_alloc(size, align);
    if (tried.ok) {
        memcpy(tried.block, block, kept);
        rattle_dealloc(block);
    }
    return tried;
}
