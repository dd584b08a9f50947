/* The heap of lib/wasm/ beside a model, over memory of its own: random calls, whose blocks hold their bytes and don't meet; and what is
   given back is used again before memory grows.
   usage: heap SEED CALLS */
#define _GNU_SOURCE
#include "../../lib/wasm/heap.h"

#include <stdint.h>
#include <stdio.h>
#include <stdlib.h>
#include <string.h>
#include <sys/mman.h>

#define MOST_PAGES ((size_t)1 << 14)
#define BLOCKS 512

static unsigned char *memory;
static size_t pages = 2, most_pages = MOST_PAGES;

/* The heap takes addresses that begin where its memory does. */
size_t memory_pages(void) { return (size_t)memory / MEMORY_PAGE + pages; }
int memory_grow(size_t more) {
    if (more > most_pages - pages)
        return 0;
    pages += more;
    return 1;
}

static uint64_t state;
static uint64_t drawn(uint64_t below) {
    state ^= state << 13;
    state ^= state >> 7;
    state ^= state << 17;
    return state % below;
}

static struct {
    unsigned char *bytes;
    size_t size;
    unsigned char fill;
} blocks[BLOCKS];

static void fail(const char *why) {
    printf("failed: %s\n", why);
    exit(1);
}

static void look(size_t i) {
    for (size_t k = 0; k < blocks[i].size; k++)
        if (blocks[i].bytes[k] != blocks[i].fill)
            fail("a block doesn't hold its bytes");
}

static void keep(size_t i, struct room room, size_t size) {
    if (!room.is_there)
        fail("there is memory");
    blocks[i].bytes = (unsigned char *)room.bytes;
    blocks[i].size = size;
    blocks[i].fill = (unsigned char)drawn(256);
    if (room.bytes % 16)
        fail("a block doesn't lie on a step of 16 bytes");
    if (blocks[i].bytes < memory + 2 * MEMORY_PAGE || blocks[i].bytes + size > memory + pages * MEMORY_PAGE)
        fail("a block lies outside of memory");
    for (size_t k = 0; k < BLOCKS; k++)
        if (k != i && blocks[k].bytes && blocks[k].bytes < blocks[i].bytes + size && blocks[i].bytes < blocks[k].bytes + blocks[k].size)
            fail("two blocks meet");
    memset(blocks[i].bytes, blocks[i].fill, size);
}

static size_t some_size(void) { return drawn(10) ? drawn(600) + 1 : drawn(200000) + 1; }

static void take(size_t i) {
    size_t size = some_size();
    keep(i, rattle_alloc(size, 8), size);
}

static void resize(size_t i) {
    size_t size = some_size(), both = size < blocks[i].size ? size : blocks[i].size;
    unsigned char fill = blocks[i].fill;
    struct room room = rattle_realloc(blocks[i].bytes, blocks[i].size, size, 8);
    for (size_t k = 0; room.is_there && k < both; k++)
        if (((unsigned char *)room.bytes)[k] != fill)
            fail("a block that is resized loses bytes");
    keep(i, room, size);
}

static void give(size_t i) {
    look(i);
    rattle_dealloc(blocks[i].bytes);
    blocks[i].bytes = NULL;
    blocks[i].size = 0;
}

/* Where all is given back, one block takes all that there is without growing. */
static void give_all(void) {
    for (size_t i = 0; i < BLOCKS; i++)
        if (blocks[i].bytes)
            give(i);
    size_t had = pages, all = (pages - 2) * MEMORY_PAGE - 16;
    struct room room = rattle_alloc(all, 8);
    if (!room.is_there || pages != had)
        fail("what was given back isn't one block");
    rattle_dealloc((void *)room.bytes);
}

/* A vector that grows alone stays where it is, and takes no more than it has. */
static void grow_alone(void) {
    size_t size = (pages - 2) * MEMORY_PAGE;
    struct room room = rattle_alloc(size, 8);
    size_t first = room.bytes;
    for (int i = 0; i < 8; i++, size += size / 2)
        room = rattle_realloc((void *)room.bytes, size, size + size / 2, 8);
    if (room.bytes != first)
        fail("a last block moves");
    if (pages * MEMORY_PAGE > size + 4 * MEMORY_PAGE)
        fail("a last block takes more than it has");
    rattle_dealloc((void *)room.bytes);
}

int main(int count, char **words) {
    state = count > 1 ? strtoull(words[1], NULL, 10) * 2654435761u + 1 : 1;
    size_t calls = count > 2 ? strtoull(words[2], NULL, 10) : 100000;
    memory = mmap(NULL, MOST_PAGES * MEMORY_PAGE + MEMORY_PAGE, PROT_READ | PROT_WRITE, MAP_PRIVATE | MAP_ANONYMOUS | MAP_NORESERVE, -1, 0);
    if (memory == MAP_FAILED)
        return 2;
    memory = (unsigned char *)(((size_t)memory + MEMORY_PAGE - 1) & ~(MEMORY_PAGE - 1));
    for (size_t call = 0; call < calls; call++) {
        size_t i = drawn(BLOCKS);
        if (!blocks[i].bytes)
            take(i);
        else if (drawn(3))
            give(i);
        else
            resize(i);
        if (call % 20000 == 19999)
            give_all();
    }
    give_all();
    if (pages > 1024)
        fail("memory grows on and on");
    grow_alone();
    most_pages = pages;
    if (rattle_alloc((size_t)1 << 40, 8).is_there || rattle_alloc((size_t)1 << 62, 8).is_there)
        fail("there is more than all memory");
    printf("the heap holds: %zu calls\n", calls);
    return 0;
}
