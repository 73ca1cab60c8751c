// The heap of the WebAssembly module: what libc/c/heap.c defines over malloc elsewhere.
// Blocks of 2^k bytes by free lists, k from 5 to 40, of which 16 bytes are the head.
typedef unsigned long u64;
typedef struct { u64 ok; void *p; } Tried;
extern unsigned char __heap_base;
typedef struct Block { u64 size_class; struct Block *next; } Block;
static Block *free_lists[48];
static u64 top, end;

static u64 class_of(u64 n) {
    u64 k = 5;
    while (((u64)1 << k) < n + sizeof(Block)) k++;
    return k;
}

static void *take(u64 n) {
    if (n >> 40) return 0;
    u64 k = class_of(n);
    Block *b = free_lists[k];
    if (b) {
        free_lists[k] = b->next;
        return b + 1;
    }
    if (!top) {
        top = ((u64)&__heap_base + 15) & ~(u64)15;
        end = __builtin_wasm_memory_size(0) << 16;
    }
    u64 size = (u64)1 << k;
    if (end - top < size) {
        u64 pages = (size - (end - top) + 65535) >> 16;
        u64 more = pages > 16 ? pages : 16;
        u64 was = __builtin_wasm_memory_grow(0, more);
        if ((unsigned)was == ~0u) {
            more = pages;
            was = __builtin_wasm_memory_grow(0, more);
            if ((unsigned)was == ~0u) return 0;
        }
        if (was << 16 != end) top = was << 16;
        end = (was + more) << 16;
    }
    b = (Block *)top;
    top += size;
    b->size_class = k;
    return b + 1;
}

static void give(void *p) {
    if (!p) return;
    Block *b = (Block *)p - 1;
    b->next = free_lists[b->size_class];
    free_lists[b->size_class] = b;
}

Tried rattle_alloc(u64 n, u64 a) {
    void *p = take(n);
    return (Tried){p != 0, p};
}

Tried rattle_realloc(void *p, u64 kept, u64 n, u64 a) {
    Block *b = (Block *)p - 1;
    if (p && n + sizeof(Block) <= (u64)1 << b->size_class) return (Tried){1, p};
    void *q = take(n);
    if (!q) return (Tried){0, p};
    __builtin_memcpy(q, p, kept < n ? kept : n);
    give(p);
    return (Tried){1, q};
}

void rattle_dealloc(void *p) {
    give(p);
}

// The host's own room for bytes that go in and come out.
__attribute__((export_name("host_alloc"))) void *host_alloc(u64 n) { return take(n); }
__attribute__((export_name("host_free"))) void host_free(void *p) { give(p); }
