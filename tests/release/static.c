/* Tries the heap and the memmove of tools/heap.c and tools/static.c: each byte of many blocks and texts is compared with what it
   must be. */

#include <stddef.h>
#include <stdint.h>
#include <stdio.h>
#include <stdlib.h>
#include <string.h>

typedef struct {
    size_t is_met;
    void *at;
} Tried;

Tried rattle_alloc(size_t size, size_t alignment);
Tried rattle_realloc(void *block, size_t kept, size_t size, size_t alignment);
void rattle_dealloc(void *block);

static void fail(const char *what) {
    puts(what);
    exit(1);
}

static uint64_t state = 88172645463325252;

static uint64_t random_number(void) {
    state ^= state << 13;
    state ^= state >> 7;
    state ^= state << 17;
    return state;
}

/* ---- the heap: blocks of 0 bytes to 256 KiB, each full of one byte */

#define BLOCKS 2000
#define REQUESTS 100000

static struct {
    unsigned char *at;
    size_t size;
    unsigned char byte;
} blocks[BLOCKS];

/* Most are short. */
static size_t some_size(void) { return random_number() % ((size_t)1 << random_number() % 19); }

static void look(size_t number, size_t size) {
    if ((uintptr_t)blocks[number].at % 16 != 0) fail("a block is not aligned");
    for (size_t at = 0; at < size; at++) {
        if (blocks[number].at[at] != blocks[number].byte) fail("a block has another byte");
    }
}

static void fill(size_t number, Tried tried, size_t size) {
    if (!tried.is_met) fail("there is no memory");
    blocks[number].at = tried.at;
    blocks[number].size = size;
    memset(tried.at, blocks[number].byte, size);
}

static void grow_or_shrink(size_t number, size_t size) {
    size_t kept = size < blocks[number].size ? size : blocks[number].size;
    Tried tried = rattle_realloc(blocks[number].at, kept, size, 1);
    blocks[number].at = tried.at;
    look(number, kept);
    fill(number, tried, size);
}

static void try_heap(void) {
    for (int request = 0; request < REQUESTS; request++) {
        size_t number = random_number() % BLOCKS, size = some_size();
        if (blocks[number].at == NULL) {
            blocks[number].byte = (unsigned char)random_number();
            fill(number, rattle_alloc(size, 1), size);
        } else if (random_number() % 2 == 0) {
            grow_or_shrink(number, size);
        } else {
            look(number, blocks[number].size);
            rattle_dealloc(blocks[number].at);
            blocks[number].at = NULL;
        }
    }
}

/* A request that cannot be met is refused, and the block stays. */
static void try_too_much(void) {
    size_t much = (size_t)1 << 62;
    blocks[0].byte = 7;
    fill(0, rattle_alloc(100, 1), 100);
    Tried refused = rattle_alloc(much, 1);
    if (refused.is_met || refused.at == NULL) fail("too much memory is not refused");
    refused = rattle_realloc(blocks[0].at, 100, much, 1);
    if (refused.is_met || refused.at == NULL) fail("too much memory for an old block is not refused");
    look(0, 100);
}

/* ---- memmove: short texts, apart and over each other */

#define TEXT 512

static void try_memmove(void) {
    static unsigned char text[TEXT], wanted[TEXT];
    void *(*volatile move)(void *, const void *, size_t) = memmove;
    for (size_t size = 0; size < 160; size += size < 70 ? 1 : 13) {
        for (size_t to = 0; to < 200; to += to < 20 ? 1 : 7) {
            for (size_t from = 0; from < 200; from += from < 20 ? 1 : 7) {
                for (size_t at = 0; at < TEXT; at++) text[at] = wanted[at] = (unsigned char)(at * 37 + size);
                for (size_t at = 0; at < size; at++) wanted[to + at] = (unsigned char)((from + at) * 37 + size);
                move(text + to, text + from, size);
                for (size_t at = 0; at < TEXT; at++) {
                    if (text[at] != wanted[at]) fail("memmove moves other bytes");
                }
            }
        }
    }
}

int main(void) {
    try_heap();
    try_too_much();
    try_memmove();
    return 0;
}
