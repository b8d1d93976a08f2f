/* The program's memory: what the toolchain has in C for the GNU C library on x86-64, and for nothing else. Small blocks come from
   lists of free blocks in front of malloc, without which musl makes edits slower than the GNU C library does (bench/static.md). */

#include <stddef.h>
#include <stdlib.h>
#include <string.h>

#define UNIT 16
#define SIZES 2048
#define CHUNK (262144 - 64)

/* A block has a unit before its bytes, which keeps its size in units, this one included, or 0 if malloc keeps it. */
typedef struct Block {
    _Alignas(UNIT) size_t units;
    /* of a free block; the bytes of any other begin here */
    _Alignas(UNIT) struct Block *next;
} Block;

static Block *free_blocks[SIZES];
static char *uncut, *uncut_end;

/* What the program expects of a request. Without memory `at` is no block, but it is not null either. */
typedef struct {
    size_t is_met;
    void *at;
} Tried;

/* So many units hold so many bytes; those of no bytes hold `next`. */
static size_t units_for(size_t size) { return size == 0 ? 2 : 1 + size / UNIT + (size % UNIT != 0); }

static Block *block_of(void *bytes) { return (Block *)((char *)bytes - UNIT); }

/* Cuts a block off a chunk, since malloc for each would be slow. What is left of a chunk that is too short stays unused. */
static Block *cut(size_t units) {
    if (units * UNIT > (size_t)(uncut_end - uncut)) {
        char *chunk = malloc(CHUNK);
        if (chunk == NULL) return NULL;
        uncut = chunk;
        uncut_end = chunk + CHUNK;
    }
    Block *block = (Block *)uncut;
    uncut += units * UNIT;
    return block;
}

static Tried tried(Block *block, size_t units) {
    static char nothing;
    if (block == NULL) return (Tried){0, &nothing};
    block->units = units;
    return (Tried){1, &block->next};
}

/* An alignment divides 16, as which malloc aligns. */
Tried rattle_alloc(size_t size, size_t alignment) {
    (void)alignment;
    size_t units = units_for(size);
    if (units >= SIZES) return tried(malloc(units * UNIT), 0);
    Block *block = free_blocks[units];
    if (block == NULL) return tried(cut(units), units);
    free_blocks[units] = block->next;
    return tried(block, units);
}

void rattle_dealloc(void *bytes) {
    Block *block = block_of(bytes);
    if (block->units == 0) {
        free(block);
    } else {
        block->next = free_blocks[block->units];
        free_blocks[block->units] = block;
    }
}

/* The first bytes, so many as are kept, fit the old block and the new one. */
Tried rattle_realloc(void *bytes, size_t kept, size_t size, size_t alignment) {
    Block *block = block_of(bytes);
    size_t units = units_for(size);
    if (block->units == 0 && units >= SIZES) return tried(realloc(block, units * UNIT), 0);
    if (block->units == units) return tried(block, units);
    Tried moved = rattle_alloc(size, alignment);
    if (moved.is_met) {
        memcpy(moved.at, bytes, kept);
        rattle_dealloc(bytes);
    }
    return moved;
}
