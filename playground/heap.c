/* The heap of a WebAssembly module with 64-bit memory, for the three calls by which the library asks for memory. Nothing of it is proved: a host in C owes
 * the same of malloc, realloc and free. Blocks stand in classes, four sizes for each power of two, from 32 bytes on. The 16 bytes before a block name its
 * class. What is freed is used again for the same class. The whole memory goes with the instance. */
typedef unsigned long size_t;

/* What the library's code takes as two words: whether there is a block, and where. */
struct tried {
    size_t ok;
    void *p;
};

enum { CLASSES = 160, HEAD = 16, PAGE_BITS = 16, LEAST_PAGES = 64, MOST_BITS = 40 };

static struct block {
    size_t class;
    struct block *next;
} *freed[CLASSES];

extern unsigned char __heap_base;
static size_t top, end;
static char nothing[16] __attribute__((aligned(16)));

static size_t class_of(size_t n) {
    if (n < 32) n = 32;
    size_t power = 63 - (size_t)__builtin_clzl(n - 1);
    size_t part = (n - 1 - ((size_t)1 << power)) >> (power - 2);
    return (power - 4) * 4 + part;
}

/* How many bytes a block of a class has behind its head. */
static size_t size_of(size_t class) {
    size_t power = class / 4 + 4, part = class % 4;
    return ((size_t)1 << power) + (part + 1) * ((size_t)1 << (power - 2));
}

static int grow(size_t size) {
    size_t pages = (size - (end - top) + 0xffff) >> PAGE_BITS;
    size_t more = pages < LEAST_PAGES ? LEAST_PAGES : pages;
    if (__builtin_wasm_memory_grow(0, more) == (size_t)-1) {
        more = pages;
        if (__builtin_wasm_memory_grow(0, more) == (size_t)-1) return 0;
    }
    end += more << PAGE_BITS;
    return 1;
}

static void *take(size_t n) {
    if (n >> MOST_BITS) return 0;
    size_t class = class_of(n);
    struct block *it = freed[class];
    if (it) {
        freed[class] = it->next;
        return (char *)it + HEAD;
    }
    size_t size = (size_of(class) + HEAD + 15) & ~(size_t)15;
    if (!top) {
        top = ((size_t)&__heap_base + 15) & ~(size_t)15;
        end = __builtin_wasm_memory_size(0) << PAGE_BITS;
    }
    if (size > end - top && !grow(size)) return 0;
    it = (struct block *)top;
    top += size;
    it->class = class;
    return (char *)it + HEAD;
}

static struct block *block_of(void *p) { return (struct block *)((char *)p - HEAD); }

static void give(void *p) {
    struct block *it = block_of(p);
    it->next = freed[it->class];
    freed[it->class] = it;
}

struct tried rattle_alloc(size_t n, size_t a) {
    void *p = take(n ? n : a);
    return (struct tried){p != 0, p ? p : nothing};
}

struct tried rattle_realloc(void *p, size_t kept, size_t n, size_t a) {
    size_t size = n ? n : a;
    if (size <= size_of(block_of(p)->class)) return (struct tried){1, p};
    void *q = take(size);
    if (!q) return (struct tried){0, nothing};
    __builtin_memcpy(q, p, kept < n ? kept : n);
    give(p);
    return (struct tried){1, q};
}

void rattle_dealloc(void *p) { give(p); }

/* For the page: room for the bytes of a call. */
void *play_room(size_t n) { return take(n); }
