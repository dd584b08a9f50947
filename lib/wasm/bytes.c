/* Moves of bytes and a product of 128 bits, which the compiler calls for by name; and the memory that the heap grows. */
#include "heap.h"

typedef unsigned long long uint64_t;

void *memcpy(void *to, const void *from, size_t count) {
    __builtin_memcpy(to, from, count);
    return to;
}

void *memmove(void *to, const void *from, size_t count) {
    __builtin_memmove(to, from, count);
    return to;
}

void *memset(void *to, int byte, size_t count) {
    __builtin_memset(to, byte, count);
    return to;
}

int memcmp(const void *one, const void *other, size_t count) {
    const unsigned char *a = one, *b = other;
    for (size_t i = 0; i < count; i++)
        if (a[i] != b[i])
            return a[i] < b[i] ? -1 : 1;
    return 0;
}

struct wide {
    uint64_t low, high;
};

/* By four products of halves. */
struct wide __multi3(uint64_t a, uint64_t a_high, uint64_t b, uint64_t b_high) {
    uint64_t half = 0xffffffff;
    uint64_t low = (a & half) * (b & half);
    uint64_t one = (a >> 32) * (b & half) + (low >> 32);
    uint64_t two = (a & half) * (b >> 32) + (one & half);
    return (struct wide){
        (two << 32) | (low & half),
        (a >> 32) * (b >> 32) + (one >> 32) + (two >> 32) + a * b_high + a_high * b,
    };
}

size_t memory_pages(void) { return __builtin_wasm_memory_size(0); }
int memory_grow(size_t pages) { return __builtin_wasm_memory_grow(0, pages) != (size_t)-1; }

/* Room for what a caller hands in, or nothing where there is no memory; and given back, as what a call leaves behind is. */
void *luffaknife_room(size_t size) {
    struct room room = rattle_alloc(size, 16);
    return room.is_there ? (void *)room.bytes : NULL;
}

void luffaknife_give_back(void *bytes) { rattle_dealloc(bytes); }
