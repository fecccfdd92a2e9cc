/*
 * The heap of the page's module, for wasm64: the three functions that the library calls, and two for
 * the page. A block has 16 * 2^k bytes behind a head of 16, and freed blocks wait in a list for each
 * k. Memory grows from the module's end on, and is never given back to the browser; no C library.
 */
typedef unsigned long size_t;

enum { CLASSES = 44, HEAD = 16, PAGE = 65536 };

/* What the library is answered: `ok` is 0 at a refusal, and `at` is never null. */
struct block {
    size_t ok;
    void *at;
};

/* What stands before a block. */
struct head {
    size_t class;
    struct head *next;
};

extern unsigned char __heap_base;

static struct head *freed[CLASSES];
static size_t end;

static size_t size_of(size_t class)
{
    return (size_t)16 << class;
}

static size_t class_of(size_t size)
{
    size_t class = 0;

    while (class < CLASSES && size_of(class) < size)
        class++;
    return class;
}

/* Whether memory reaches to an address, once it has grown if it must. */
static int reaches(size_t to)
{
    size_t has = __builtin_wasm_memory_size(0) * PAGE;

    return to <= has || __builtin_wasm_memory_grow(0, (to - has + PAGE - 1) / PAGE) != (size_t)-1;
}

static void *take(size_t size)
{
    size_t class = class_of(size);
    struct head *head;

    if (class == CLASSES)
        return 0;
    head = freed[class];
    if (head != 0) {
        freed[class] = head->next;
        return head + 1;
    }
    if (end == 0)
        end = ((size_t)&__heap_base + 15) & ~(size_t)15;
    if (!reaches(end + HEAD + size_of(class)))
        return 0;
    head = (struct head *)end;
    head->class = class;
    end += HEAD + size_of(class);
    return head + 1;
}

static struct block block_at(void *at)
{
    struct block block = {at != 0, at != 0 ? at : &end};

    return block;
}

/* A block of `size` bytes; one of `align` bytes, at most 16, where `size` is 0. */
struct block rattle_alloc(size_t size, size_t align)
{
    return block_at(take(size != 0 ? size : align));
}

void rattle_dealloc(void *at)
{
    struct head *head = (struct head *)at - 1;

    head->next = freed[head->class];
    freed[head->class] = head;
}

/* The block at another size, with what both have. `used` bytes of it are in use. */
struct block rattle_realloc(void *at, size_t used, size_t size, size_t align)
{
    struct head *head = (struct head *)at - 1;
    void *to;

    if (size != 0 && size <= size_of(head->class))
        return block_at(at);
    to = take(size != 0 ? size : align);
    if (to != 0) {
        __builtin_memcpy(to, at, used < size ? used : size);
        rattle_dealloc(at);
    }
    return block_at(to);
}

/* A block for the page, or null. */
__attribute__((export_name("page_alloc"))) void *page_alloc(size_t size)
{
    return take(size);
}

/* All blocks are gone: a call of the library keeps none. */
__attribute__((export_name("page_reset"))) void page_reset(void)
{
    size_t class;

    end = 0;
    for (class = 0; class < CLASSES; class++)
        freed[class] = 0;
}

/* The compiler may call these for a copy or a fill that it doesn't write itself. */
void *memset(void *to, int byte, size_t count)
{
    unsigned char *at = to;

    while (count-- > 0)
        *at++ = (unsigned char)byte;
    return to;
}

void *memcpy(void *to, const void *from, size_t count)
{
    unsigned char *at = to;
    const unsigned char *next = from;

    while (count-- > 0)
        *at++ = *next++;
    return to;
}

void *memmove(void *to, const void *from, size_t count)
{
    unsigned char *at = to;
    const unsigned char *next = from;

    if (at <= next)
        return memcpy(to, from, count);
    while (count-- > 0)
        at[count] = next[count];
    return to;
}

int memcmp(const void *left, const void *right, size_t count)
{
    const unsigned char *a = left, *b = right;

    for (; count > 0; count--, a++, b++)
        if (*a != *b)
            return *a < *b ? -1 : 1;
    return 0;
}
