/* The heap of the library as WebAssembly, where no C library stands below it. A block has a power of two of bytes, its head among them, and
   one that is freed is kept for the next one of its size. */
typedef unsigned long size;
typedef struct head { size class; struct head *next; } head;

enum { LEAST_CLASS = 5, CLASSES = 48, PAGE_BITS = 16 };
static const size PAGE = (size)1 << PAGE_BITS;
static head *freed[CLASSES];
static size top;
extern unsigned char __heap_base;

/* The class of the smallest block that holds so many bytes; CLASSES if there is none. */
static size class_of(size bytes)
{
    size class = LEAST_CLASS;
    while (class < CLASSES && ((size)1 << class) - sizeof(head) < bytes)
        class++;
    return class;
}

/* Whether the memory reaches this place, once it has grown. */
static _Bool reaches(size end)
{
    size have = (size)__builtin_wasm_memory_size(0) << PAGE_BITS;
    return end <= have || __builtin_wasm_memory_grow(0, (end - have + PAGE - 1) >> PAGE_BITS) != (size)-1;
}

void *malloc(size bytes)
{
    size class = class_of(bytes);
    if (class == CLASSES)
        return 0;
    head *block = freed[class];
    if (block) {
        freed[class] = block->next;
        return block + 1;
    }
    if (!top)
        top = ((size)&__heap_base + sizeof(head) - 1) & ~(sizeof(head) - 1);
    if (!reaches(top + ((size)1 << class)))
        return 0;
    block = (head *)top;
    top += (size)1 << class;
    block->class = class;
    return block + 1;
}

void free(void *at)
{
    if (!at)
        return;
    head *block = (head *)at - 1;
    block->next = freed[block->class];
    freed[block->class] = block;
}

void *memcpy(void *restrict to, const void *restrict from, size bytes)
{
    unsigned char *one = to;
    const unsigned char *other = from;
    while (bytes--)
        *one++ = *other++;
    return to;
}

void *memmove(void *to, const void *from, size bytes)
{
    unsigned char *one = to;
    const unsigned char *other = from;
    if (one < other)
        return memcpy(to, from, bytes);
    while (bytes--)
        one[bytes] = other[bytes];
    return to;
}

void *memset(void *to, int byte, size bytes)
{
    unsigned char *one = to;
    while (bytes--)
        *one++ = (unsigned char)byte;
    return to;
}

void *realloc(void *at, size bytes)
{
    if (!at)
        return malloc(bytes);
    head *block = (head *)at - 1;
    if (class_of(bytes) <= block->class)
        return at;
    void *other = malloc(bytes);
    if (other) {
        memcpy(other, at, ((size)1 << block->class) - sizeof(head));
        free(at);
    }
    return other;
}
