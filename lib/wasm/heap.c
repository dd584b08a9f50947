/* The heap of the proved library as WebAssembly.

   Blocks lie side by side up to the end of memory, each behind its own size and that of the block before it, in steps of 16 bytes. Free
   ones are never neighbours, and hang in a list a power of two. Memory grows only where no free block has room, by what the last lacks. */
#include "heap.h"

#define STEP 16
#define HEAD (2 * sizeof(size_t))
#define LEAST (HEAD + 2 * sizeof(void *))
#define LISTS 64
/* How many blocks of a list are looked at, at most. */
#define LOOKS 32

typedef struct block {
    size_t size;               /* of the whole block, one more where it is taken */
    size_t before;             /* the size of the block before it; 0 of the first one */
    struct block *next, *last; /* in its list, of a free one */
} block;
static block *lists[LISTS];
static size_t end, last_size;

static size_t size_of(const block *b) { return b->size & ~(size_t)1; }
static block *behind(const block *b) { return (block *)((size_t)b + size_of(b)); }
static int is_last(const block *b) { return (size_t)behind(b) == end; }
static block **list_of(size_t size) { return &lists[LISTS - 1 - __builtin_clzll(size)]; }

static void set(block *b, size_t size, int is_taken) {
    b->size = size | (size_t)is_taken;
    *(is_last(b) ? &last_size : &behind(b)->before) = size;
}

static void take_out(block *b) {
    *(b->last ? &b->last->next : list_of(size_of(b))) = b->next;
    if (b->next)
        b->next->last = b->last;
}

/* Makes a block free, with the free ones beside it. */
static void give(block *b) {
    size_t size = size_of(b);
    block *next = behind(b), *before = (block *)((size_t)b - b->before);
    if (!is_last(b) && !(next->size & 1)) {
        take_out(next);
        size += size_of(next);
    }
    if (b->before && !(before->size & 1)) {
        take_out(before);
        size += size_of(before);
        b = before;
    }
    set(b, size, 0);
    block **list = list_of(size);
    *b = (block){b->size, b->before, *list, NULL};
    if (*list)
        (*list)->last = b;
    *list = b;
}

/* Takes so much of a block that is in no list, and makes the rest free. */
static void *cut(block *b, size_t size) {
    size_t rest = size_of(b) - size;
    if (rest < LEAST) {
        set(b, size_of(b), 1);
    } else {
        b->size = size | 1;
        behind(b)->before = size;
        set(behind(b), rest, 1);
        give(behind(b));
    }
    return (char *)b + HEAD;
}

/* Grows memory until the last block is free and has so many bytes; that block, or nothing where there is no memory. */
static block *grow(size_t size) {
    if (!end)
        end = memory_pages() * MEMORY_PAGE;
    block *last = (block *)(end - last_size);
    size_t has = last_size && !(last->size & 1) ? last_size : 0;
    if (has < size) {
        size_t more = (size - has + MEMORY_PAGE - 1) / MEMORY_PAGE * MEMORY_PAGE;
        if (!memory_grow(more / MEMORY_PAGE))
            return NULL;
        last = (block *)end;
        last->before = last_size;
        end += more;
        set(last, more, 1);
        give(last);
    }
    return (block *)(end - last_size);
}

/* The free block of so many bytes that lies lowest, of those that are looked at: what lies higher stays untouched. */
static block *find(size_t size) {
    block *best = NULL;
    for (block **list = list_of(size); list < lists + LISTS; list++) {
        block *b = *list;
        for (int looks = 0; b && looks < LOOKS; looks++, b = b->next)
            if (size_of(b) >= size && (!best || b < best))
                best = b;
    }
    return best ? best : grow(size);
}

/* How large a block is that has room for so many bytes; 0 where none can be. */
static size_t rounded(size_t size) {
    if (size >> 46)
        return 0;
    size = (size + HEAD + STEP - 1) / STEP * STEP;
    return size < LEAST ? LEAST : size;
}

static void *take(size_t wanted) {
    size_t size = rounded(wanted);
    block *b = size ? find(size) : NULL;
    if (!b)
        return NULL;
    take_out(b);
    return cut(b, size);
}

/* The same block with another size where what is behind it has room, or can grow; else a copy. */
static void *resize(block *b, size_t wanted) {
    size_t size = rounded(wanted), has = size_of(b);
    block *next = is_last(b) ? NULL : behind(b);
    size_t room = next && !(next->size & 1) ? size_of(next) : 0;
    int is_at_end = !next || (room && is_last(next));
    if (size > has + room && is_at_end && (next = grow(size - has)))
        room = size_of(next);
    if (size && size <= has + room) {
        if (room) {
            take_out(next);
            set(b, has + room, 1);
        }
        return cut(b, size);
    }
    void *copy = take(wanted);
    if (copy) {
        memcpy(copy, (char *)b + HEAD, has - HEAD);
        give(b);
    }
    return copy;
}

static struct room answer(void *bytes) { return (struct room){bytes != NULL, (size_t)(bytes ? bytes : &lists)}; }
struct room rattle_alloc(size_t size, size_t align) { return answer(take(size ? size : align)); }
struct room rattle_realloc(void *bytes, size_t old, size_t size, size_t align) {
    (void)old;
    return answer(resize((block *)((char *)bytes - HEAD), size ? size : align));
}
void rattle_dealloc(void *bytes) { give((block *)((char *)bytes - HEAD)); }
