/* Loaded before the C library, refuses requests for memory. The environment says which:

   REFUSED=n    the n-th, counted from 1
   FROM=n       the n-th and each one after it

   A request that is refused puts a byte into the descriptor that MARK names. No header is used, so that a compiler without
   a C library will do. */

#define NEXT ((void *)-1L)
#define OUT_OF_MEMORY 12

typedef unsigned long size_t;

extern void *dlsym(void *library, const char *name);
extern char *getenv(const char *name);
extern long atol(const char *text);
extern int *__errno_location(void);
extern long write(int descriptor, const void *bytes, size_t count);

/* The number that the environment has under this name, or -1. */
static long number(const char *name) {
    const char *text = getenv(name);
    return text ? atol(text) : -1;
}

/* Whether this request, which is the next one, is refused. */
static int is_refused(void) {
    static long requests = 0, refused = 0, from = 0, mark = -1;
    if (requests == 0) {
        refused = number("REFUSED");
        from = number("FROM");
        mark = number("MARK");
    }
    requests += 1;
    if (requests != refused && (from < 0 || requests < from)) return 0;
    if (mark >= 0) write((int)mark, "x", 1);
    *__errno_location() = OUT_OF_MEMORY;
    return 1;
}

void *malloc(size_t size) {
    static void *(*allocate)(size_t);
    if (!allocate) allocate = (void *(*)(size_t))dlsym(NEXT, "malloc");
    return is_refused() ? 0 : allocate(size);
}

void *realloc(void *old, size_t size) {
    static void *(*reallocate)(void *, size_t);
    if (!reallocate) reallocate = (void *(*)(void *, size_t))dlsym(NEXT, "realloc");
    return is_refused() ? 0 : reallocate(old, size);
}
