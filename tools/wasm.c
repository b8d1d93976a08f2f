/* What the program needs beside it as a WebAssembly module, which has no C library: memory for `heap.c`. `static` links it with the
   program. */

#include <stddef.h>
#include <stdint.h>

/* ---- memory, which only grows: blocks whose sizes are powers of two, and a list of free ones for each size */

#define PAGE 65536
#define POWERS 32

/* Before each block stands its power, or in a free one the next. */
typedef union Head {
    size_t power;
    union Head *next;
    char room[16];
} Head;

extern char __heap_base;

static Head *free_heads[POWERS];
static uintptr_t unused = (uintptr_t)&__heap_base;

static Head *grow(size_t size) {
    uintptr_t start = (unused + 15) & ~(uintptr_t)15, end = __builtin_wasm_memory_size(0) * PAGE;
    if (start + size > end && __builtin_wasm_memory_grow(0, (start + size - end + PAGE - 1) / PAGE) == (size_t)-1) return NULL;
    unused = start + size;
    return (Head *)start;
}

void *malloc(size_t size) {
    if (size >= (size_t)1 << (POWERS - 1)) return NULL;
    size_t power = 64 - (size_t)__builtin_clzll(size + sizeof(Head) - 1);
    Head *head = free_heads[power];
    if (head != NULL) {
        free_heads[power] = head->next;
    } else {
        head = grow((size_t)1 << power);
    }
    if (head == NULL) return NULL;
    head->power = power;
    return head + 1;
}

void free(void *block) {
    Head *head = (Head *)block - 1;
    size_t power = head->power;
    head->next = free_heads[power];
    free_heads[power] = head;
}

void *realloc(void *block, size_t size) {
    size_t old = ((size_t)1 << ((Head *)block)[-1].power) - sizeof(Head);
    if (size <= old) return block;
    void *moved = malloc(size);
    if (moved != NULL) {
        __builtin_memcpy(moved, block, old);
        free(block);
    }
    return moved;
}

/* ---- signals */

/* The program has the system ignore a signal at its start; a module gets none. */
void *__sysv_signal(int number, void *answer) {
    (void)number;
    return answer;
}
