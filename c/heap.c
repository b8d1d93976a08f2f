/* The library's memory on processors for which the toolchain has no C code: what it has for x86-64, over malloc, realloc and free. */

#include <stddef.h>
#include <stdlib.h>

/* What the library expects of a request. Without memory `at` is no block, but it is not null either. */
typedef struct {
    size_t is_met;
    void *at;
} Tried;

static Tried tried(void *at) {
    static char nothing;
    return at == NULL ? (Tried){0, &nothing} : (Tried){1, at};
}

/* An alignment divides 16, as which malloc aligns. A block of no bytes has as many as its alignment. */
Tried rattle_alloc(size_t size, size_t alignment) { return tried(malloc(size == 0 ? alignment : size)); }

void rattle_dealloc(void *bytes) { free(bytes); }

Tried rattle_realloc(void *bytes, size_t kept, size_t size, size_t alignment) {
    (void)kept;
    return tried(realloc(bytes, size == 0 ? alignment : size));
}
