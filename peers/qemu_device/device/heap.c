/*
 * The heap that the library calls, over that of QEMU: a block is aligned to 16 bytes, and at a
 * refusal `ok` is false.
 *
 * SPDX-License-Identifier: MIT OR Apache-2.0
 */
#include "qemu/osdep.h"

struct block {
    bool ok;
    void *at;
};

struct block rattle_alloc(size_t size, size_t align);
struct block rattle_realloc(void *at, size_t used, size_t size, size_t align);
void rattle_dealloc(void *at);

static char refused;

static struct block block_at(void *at)
{
    return (struct block) { at != NULL, at != NULL ? at : &refused };
}

/* A block of `size` bytes; one of `align` bytes where `size` is 0. */
struct block rattle_alloc(size_t size, size_t align)
{
    return block_at(g_try_malloc(size != 0 ? size : align));
}

/* The block at another size, with what both have. */
struct block rattle_realloc(void *at, size_t used, size_t size, size_t align)
{
    return block_at(g_try_realloc(at, size != 0 ? size : align));
}

void rattle_dealloc(void *at)
{
    g_free(at);
}
