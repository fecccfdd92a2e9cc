/*
 * The three functions of a heap that the library calls, over the C library's. A monitor may write
 * them over a heap of its own: a block is aligned to 16 bytes, and at a refusal `ok` is false.
 */
#include <stdbool.h>
#include <stddef.h>
#include <stdlib.h>

struct block {
    bool ok;
    void *at;
};

static char refused;

static struct block block_at(void *at)
{
    struct block block = {at != NULL, at != NULL ? at : &refused};
    return block;
}

/* A block of `size` bytes; one of `align` bytes where `size` is 0. */
struct block rattle_alloc(size_t size, size_t align)
{
    return block_at(malloc(size != 0 ? size : align));
}

/* The block at another size, with what both have. `used` bytes of it are in use. */
struct block rattle_realloc(void *at, size_t used, size_t size, size_t align)
{
    (void)used;
    return block_at(realloc(at, size != 0 ? size : align));
}

void rattle_dealloc(void *at)
{
    free(at);
}
