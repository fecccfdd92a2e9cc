/*
 * The heap that the library calls, and the functions of memory. Blocks are taken off the end of one
 * stretch, with lengths that are powers of two. One that was given back goes into a list of its length.
 */
#include "hypervisor.h"

enum { HEAP_LENGTH = 32 << 20, SMALLEST = 5, CLASSES = 26 };

struct block {
    bool ok;
    void *at;
};

/* Before each block: which list it goes to, and the next of that list. */
struct head {
    uint64_t class;
    struct head *next;
};

static uint8_t heap[HEAP_LENGTH] __attribute__((aligned(16)));
static struct head *free_ones[CLASSES];
size_t heap_used;

struct block rattle_alloc(size_t size, size_t align)
{
    struct block none = {false, heap};
    uint64_t class = SMALLEST;
    struct head *head;

    (void)align; /* at most 16 */
    while (class < CLASSES && ((size_t)1 << class) - sizeof *head < size)
        class++;
    if (class == CLASSES)
        return none;
    head = free_ones[class];
    if (head) {
        free_ones[class] = head->next;
    } else {
        if ((size_t)1 << class > HEAP_LENGTH - heap_used)
            return none;
        head = (struct head *)(heap + heap_used);
        heap_used += (size_t)1 << class;
        head->class = class;
    }
    return (struct block){true, head + 1};
}

void rattle_dealloc(void *at)
{
    struct head *head = (struct head *)at - 1;

    head->next = free_ones[head->class];
    free_ones[head->class] = head;
}

void *memcpy(void *to, const void *from, size_t length);

struct block rattle_realloc(void *at, size_t used, size_t size, size_t align)
{
    struct head *head = (struct head *)at - 1;
    struct block block = {true, at};

    if (size <= ((size_t)1 << head->class) - sizeof *head)
        return block;
    block = rattle_alloc(size, align);
    if (block.ok) {
        memcpy(block.at, at, used);
        rattle_dealloc(at);
    }
    return block;
}

/* run.sh sees to it that the compiler makes no call of these functions out of their own loops. */
typedef uint64_t word __attribute__((aligned(1), may_alias));

void *memcpy(void *to, const void *from, size_t length)
{
    uint8_t *t = to;
    const uint8_t *f = from;

    for (; length >= 8; length -= 8, t += 8, f += 8)
        *(word *)t = *(const word *)f;
    while (length--)
        *t++ = *f++;
    return to;
}

void *memmove(void *to, const void *from, size_t length)
{
    uint8_t *t = to;
    const uint8_t *f = from;

    if (t <= f || t >= f + length)
        return memcpy(to, from, length);
    while (length--)
        t[length] = f[length];
    return to;
}

void *memset(void *to, int value, size_t length)
{
    uint8_t *t = to;
    uint64_t eight = (uint8_t)value * 0x0101010101010101;

    for (; length >= 8; length -= 8, t += 8)
        *(word *)t = eight;
    while (length--)
        *t++ = (uint8_t)value;
    return to;
}
