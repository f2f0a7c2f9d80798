// The heap of the engine, over WebAssembly's linear memory. Not proved. For one thread.
// A block has 2^k bytes, k from 5, of which the first 16 are its head. Blocks that were given back are kept in a list for each k.
typedef unsigned long usize;
typedef struct { usize ok; void *p; } Tried;
typedef struct { usize k, pad; } Head;
extern unsigned char __heap_base;
static usize top;
static void *given[64];

// A block of 2^k bytes that was given back.
static void *taken(usize k) {
    void *p = given[k];
    given[k] = *(void **)p;
    return p;
}

static void give(void *p) {
    usize k = ((Head *)p - 1)->k;
    *(void **)p = given[k];
    given[k] = p;
}

// The first 2^k bytes of a larger block that was given back, or null. Its other halves are given back.
static void *part(usize k) {
    usize larger = k;
    while (larger < 63 && !given[larger]) larger++;
    if (!given[larger]) return 0;
    Head *head = (Head *)taken(larger) - 1;
    while (larger > k) {
        Head *half = (Head *)((unsigned char *)head + ((usize)1 << --larger));
        half->k = larger;
        give(half + 1);
    }
    head->k = k;
    return head + 1;
}

// A block with room for n bytes, at a multiple of 16, or null.
static void *take(usize n) {
    usize k = 5;
    if (n >> 40) return 0;
    while (((usize)1 << k) < n + sizeof(Head)) k++;
    if (given[k]) return taken(k);
    usize size = (usize)1 << k;
    if (!top) top = ((usize)&__heap_base + 15) & ~(usize)15;
    usize end = __builtin_wasm_memory_size(0) << 16;
    if (top + size > end) {
        // (what a grow answers is not the same with a memory of 32 bits, so the new size is asked for)
        __builtin_wasm_memory_grow(0, (top + size - end + 65535) >> 16);
        if (top + size > __builtin_wasm_memory_size(0) << 16) return part(k);
    }
    Head *head = (Head *)top;
    top += size;
    head->k = k;
    return head + 1;
}

static Tried tried(void *p) {
    Tried t = { p != 0, p ? p : (void *)16 };
    return t;
}

// What the proved code asks for: n bytes, of an alignment a of at most 16.
Tried rattle_alloc(usize n, usize a) { return tried(take(n ? n : a)); }

Tried rattle_realloc(void *p, usize kept, usize n, usize a) {
    if (!(n >> 40) && n + sizeof(Head) <= (usize)1 << ((Head *)p - 1)->k) return tried(p);
    void *q = take(n ? n : a);
    if (q) {
        __builtin_memcpy(q, p, kept);
        give(p);
    }
    return tried(q);
}

void rattle_dealloc(void *p) { give(p); }

// Room for what the page gives and takes, or null.
void *host_alloc(usize n) { return take(n); }
void host_free(void *p) { give(p); }
