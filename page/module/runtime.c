// The heap of the module: what malloc, realloc and free are to the kit's own c/heap.c. No proof
// covers this file.
//
// Blocks come in sizes of four steps a doubling, each size with a list of free blocks. A block has
// 16 bytes before it, which hold its size's number. New small blocks are cut from slabs of a
// mebibyte, new large ones from the top of the memory, which memory.grow moves up: so a large block
// that grows, as the tree of a state does, is most often the last one, and grows where it is.
typedef __UINT64_TYPE__ u64;
typedef __UINT32_TYPE__ u32;
typedef __SIZE_TYPE__ size_t;

extern unsigned char __heap_base;

#define PAGE 65536ull
#define SLAB (1ull << 20)
#define SMALL (SLAB / 16)
#define SIZES 256
#define MOST (1ull << 40)

typedef struct Head { u64 number; struct Head *next; } Head;
typedef struct { u64 top, end; } Run;

static Head *free_lists[SIZES];
static Run slab, memory;

// 16, 32, 48, 64, 80, 96, 112, 128, 160, ..
static u64 number_of(u64 n) {
    if (n <= 64) return n ? (n + 15) / 16 - 1 : 0;
    u64 m = n - 1, bits = 63 - __builtin_clzll(m);       // 2^bits <= n - 1
    return (bits - 6) * 4 + 4 + ((m >> (bits - 2)) & 3);
}

static u64 size_of(u64 number) {
    if (number < 4) return (number + 1) * 16;
    u64 bits = (number - 4) / 4 + 6, step = (number - 4) % 4;
    return (1ull << bits) + (step + 1) * (1ull << (bits - 2));
}

// Whether the memory goes up to a place. It grows by an eighth more than it must, where that can be
// had, so that grows are few.
static int reach(u64 wanted) {
    if (wanted <= memory.end) return 1;
    u64 pages = (wanted - memory.end + PAGE - 1) / PAGE, spare = memory.end / PAGE / 8;
    u64 some = pages < spare ? spare : pages;
    if (some < 16) some = 16;
    if (__builtin_wasm_memory_grow(0, some) == (size_t)-1) {
        some = pages;
        if (__builtin_wasm_memory_grow(0, some) == (size_t)-1) return 0;
    }
    memory.end += some * PAGE;
    return 1;
}

// Cuts so many bytes from the top of the memory; 0 where there are none.
static u64 cut(u64 bytes) {
    if (!memory.top) {
        memory.top = ((u64)&__heap_base + 15) & ~15ull;
        memory.end = __builtin_wasm_memory_size(0) * PAGE;
    }
    if (!reach(memory.top + bytes)) return 0;
    u64 at = memory.top;
    memory.top += bytes;
    return at;
}

// A new block, of a slab where it is small.
static Head *fresh(u64 number) {
    u64 bytes = size_of(number) + sizeof(Head), at;
    if (bytes <= SMALL) {
        if (slab.end - slab.top < bytes) {
            u64 next = cut(SLAB);
            if (!next) return 0;
            slab.top = next;
            slab.end = next + SLAB;
        }
        at = slab.top;
        slab.top += bytes;
    } else {
        at = cut(bytes);
        if (!at) return 0;
    }
    Head *block = (Head *)at;
    block->number = number;
    return block;
}

// Where a block's bytes are the last of the memory, and not of a slab.
static int is_last(Head *block) {
    u64 size = size_of(block->number);
    return size + sizeof(Head) > SMALL && (u64)(block + 1) + size == memory.top;
}

void *heap_alloc(u64 n) {
    if (n > MOST) return 0;
    u64 number = number_of(n);
    Head *block = free_lists[number];
    if (block) free_lists[number] = block->next;
    else block = fresh(number);
    return block ? block + 1 : 0;
}

void heap_free(void *p) {
    if (!p) return;
    Head *block = (Head *)p - 1;
    if (is_last(block)) {
        memory.top = (u64)block;
        return;
    }
    block->next = free_lists[block->number];
    free_lists[block->number] = block;
}

void *heap_realloc(void *p, u64 n) {
    if (!p) return heap_alloc(n);
    if (n > MOST) return 0;
    Head *block = (Head *)p - 1;
    u64 have = size_of(block->number), number = number_of(n);
    if (number == block->number || (number < block->number && number + 8 > block->number)) return p;
    if (is_last(block) && size_of(number) + sizeof(Head) > SMALL) {
        u64 wanted = (u64)p + size_of(number);
        if (!reach(wanted)) return 0;
        memory.top = wanted;
        block->number = number;
        return p;
    }
    void *q = heap_alloc(n);
    if (!q) return 0;
    __builtin_memcpy(q, p, have < n ? have : n);
    heap_free(p);
    return q;
}

// What the compiler takes from its runtime: a product and shifts of numbers of 128 bits.
typedef unsigned __int128 u128;
typedef union { u128 whole; struct { u64 low, high; } halves; } Halves;

u128 __multi3(u128 a, u128 b) {
    Halves x = { .whole = a }, y = { .whole = b }, r;
    u64 a0 = (u32)x.halves.low, a1 = x.halves.low >> 32;
    u64 b0 = (u32)y.halves.low, b1 = y.halves.low >> 32;
    u64 t = a0 * b0, low = (u32)t;
    t = a1 * b0 + (t >> 32);
    u64 mid = (u32)t, high = t >> 32;
    t = a0 * b1 + mid;
    r.halves.low = (t << 32) | low;
    r.halves.high = a1 * b1 + high + (t >> 32);
    r.halves.high += x.halves.high * y.halves.low + x.halves.low * y.halves.high;
    return r.whole;
}

u128 __ashlti3(u128 a, int n) {
    Halves x = { .whole = a }, r;
    n &= 127;
    if (n == 0) return a;
    if (n >= 64) r.halves.high = x.halves.low << (n - 64), r.halves.low = 0;
    else {
        r.halves.low = x.halves.low << n;
        r.halves.high = x.halves.high << n | x.halves.low >> (64 - n);
    }
    return r.whole;
}

u128 __lshrti3(u128 a, int n) {
    Halves x = { .whole = a }, r;
    n &= 127;
    if (n == 0) return a;
    if (n >= 64) r.halves.low = x.halves.high >> (n - 64), r.halves.high = 0;
    else {
        r.halves.high = x.halves.high >> n;
        r.halves.low = x.halves.low >> n | x.halves.high << (64 - n);
    }
    return r.whole;
}
