/* Room for the engines of one flavour: it stands in for malloc, realloc and free of the library
 * alone (the Makefile renames them in it). A thread may register in a signal handler, which may
 * have come in the midst of malloc, so room is the system's. It is asked for under the layer's
 * lock, and stays: an engine of the layer is never closed.
 *
 * It owes what include/rcu.h asks: the three "are of one allocator, and align a block to 16 where
 * that divides its size", and "make no call on the handles of the call that they serve". */
#ifndef _GNU_SOURCE
#define _GNU_SOURCE
#endif
#include <stddef.h>
#include <stdint.h>
#include <string.h>
#include <sys/mman.h>

enum { ALIGNMENT = 16, HEAD = sizeof(size_t), CHUNK = 1 << 18 };

/* A block's size stands before it. Of one that was given back the first word leads to the next. */
static char *next, *end; /* of the chunk: the next head, which ends at a multiple of ALIGNMENT */
static void *unused;

/* In the child of a fork, as another thread may have been in the midst of a change: the parent's
 * chunks stay as they are, and the child takes room of its own. */
void renew_room(void) {
    next = end = 0;
    unused = 0;
}

static size_t *size_of(void *block) {
    return (size_t *)block - 1;
}

static size_t rounded(size_t size, size_t to) {
    return (size + to - 1) / to * to;
}

/* Under the layer's lock, as all calls on an engine that take or give back room. */
void room_free(void *at) {
    void **block = at;
    if (!at) return;
    *block = unused;
    unused = block;
}

/* From here on, with its head, if it is large enough to serve a later opening. */
static int give_rest(char *from, size_t size) {
    if (size < 4 * ALIGNMENT) return 0;
    *size_of(from + HEAD) = size - HEAD;
    room_free(from + HEAD);
    return 1;
}

static int add_chunk(size_t size) {
    size_t whole = rounded(ALIGNMENT + size, CHUNK);
    /* mmap(2) takes no lock of the C library's, which the thread may hold in a signal handler. */
    void *chunk = mmap(0, whole, PROT_READ | PROT_WRITE, MAP_PRIVATE | MAP_ANONYMOUS, -1, 0);
    if (chunk == MAP_FAILED) return 0;
    give_rest(next, (size_t)(end - next) / ALIGNMENT * ALIGNMENT);
    next = (char *)chunk + ALIGNMENT - HEAD;
    end = (char *)chunk + whole;
    return 1;
}

/* What a block has beyond the size is another one. */
static void cut(char *block, size_t size) {
    if (give_rest(block + size, *size_of(block) - size)) *size_of(block) = size;
}

/* First fit. A thread that registers pays for the search, and no section does. */
static void *take_unused(size_t size) {
    for (void **before = &unused, **it = unused; it; before = it, it = *it) {
        if (*size_of(it) < size) continue;
        *before = *it;
        cut((char *)it, size);
        return it;
    }
    return 0;
}

/* The last block grows where it is: a list that grows by and by leaves no blocks behind. */
static int grow(char *block, size_t size) {
    size_t more = size - *size_of(block);
    if (block + *size_of(block) != next || (size_t)(end - next) < more) return 0;
    *size_of(block) = size;
    next += more;
    return 1;
}

/* A block ends at a multiple of ALIGNMENT, so the next one begins at one behind its head. */
static size_t fitting(size_t size) {
    return rounded(HEAD + (size ? size : 1), ALIGNMENT) - HEAD;
}

/* Null if the system has no more. The engine answers that by a fault, and stays as it was. */
void *room_malloc(size_t size) {
    if (size > SIZE_MAX / 2) return 0; /* what is added to it below must not wrap around */
    size = fitting(size);
    char *block = take_unused(size);
    if (block) return block;
    size_t needed = HEAD + size;
    if ((size_t)(end - next) < needed && !add_chunk(needed)) return 0;
    block = next + HEAD;
    *size_of(block) = size;
    next += needed;
    return block;
}

void *room_realloc(void *at, size_t size) {
    if (!at) return room_malloc(size);
    if (size <= *size_of(at)) return at;
    if (size <= SIZE_MAX / 2 && grow(at, fitting(size))) return at;
    void *more = room_malloc(size);
    if (!more) return 0; /* as realloc(3): the old block stays */
    memcpy(more, at, *size_of(at));
    room_free(at);
    return more;
}
