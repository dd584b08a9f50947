/* The heap of the library as WebAssembly, and what it wants of memory; a test gives it memory of its own. */
#ifndef LUFFAKNIFE_HEAP_H
#define LUFFAKNIFE_HEAP_H

#ifdef __wasm__
typedef __SIZE_TYPE__ size_t;
#define NULL ((void *)0)
#else
#include <stddef.h>
#endif

#define MEMORY_PAGE ((size_t)65536)

/* What an allocation answers: 1 and the bytes, or 0. */
struct room {
    size_t is_there;
    size_t bytes;
};

struct room rattle_alloc(size_t size, size_t align);
struct room rattle_realloc(void *bytes, size_t old, size_t size, size_t align);
void rattle_dealloc(void *bytes);

/* How many pages of memory there are; and so many more, or 0 where there are none. The heap begins behind those that there are. */
size_t memory_pages(void);
int memory_grow(size_t pages);

void *memcpy(void *to, const void *from, size_t count);

#endif
