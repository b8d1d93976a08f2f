/* Makes calls while the nth request for memory is refused, for each n in turn: each call then says that memory ran out, or does
 * without; the file stays a file that a call left; and all memory is given back. It is linked so that its own malloc, calloc,
 * realloc and free come before those of the C library. It prints what goes wrong, and then `N passed, M failed`. */
#include "bibkeep.h"

#include <stdio.h>
#include <stdlib.h>
#include <string.h>

void *__real_malloc(size_t);
void *__real_calloc(size_t, size_t);
void *__real_realloc(void *, size_t);
void __real_free(void *);

static long left = -1; /* how many requests are met before one is refused; -1 for all */
static long blocks;    /* how many blocks are in use */

static int is_refused(void) { return left >= 0 && left-- == 0; }

void *__wrap_malloc(size_t size) {
    void *at = is_refused() ? NULL : __real_malloc(size);
    blocks += at != NULL;
    return at;
}

void *__wrap_calloc(size_t count, size_t size) {
    void *at = is_refused() ? NULL : __real_calloc(count, size);
    blocks += at != NULL;
    return at;
}

void *__wrap_realloc(void *old, size_t size) {
    void *at = is_refused() ? NULL : __real_realloc(old, size);
    blocks += at != NULL && old == NULL;
    return at;
}

void __wrap_free(void *at) {
    blocks -= at != NULL;
    __real_free(at);
}

static const char FILE_TEXT[] = "@string{m = \"x\"}\n@misc{a, t = m, crossref = {b}}\n@misc{b, y = 1}\n";

static bibkeep_bytes text(const char *s) { return (bibkeep_bytes){s, strlen(s)}; }

static int edits(bibkeep *h) {
    bibkeep_bytes words[4] = {text("set"), text("a"), text("y"), text("{2}")};
    return bibkeep_edit(h, words, 4, NULL);
}

/* Does all that a caller may do. Returns 0, BIBKEEP_MEMORY, or the line of a call that answered anything else. */
static int calls(void) {
    bibkeep *h;
    bibkeep_bytes file, journal, kept[2] = {{NULL, 0}, {NULL, 0}}, star = text("*");
    bibkeep_answer answer;
    int result, is_short = 0;
#define EXPECT(call, wanted) \
    do { \
        result = (call); \
        if (result == BIBKEEP_MEMORY) \
            is_short = 1; \
        else if (result != (wanted)) { \
            bibkeep_free(h); \
            return 10000 + __LINE__; \
        } \
    } while (0)
    if ((result = bibkeep_new(&h)) != 0)
        return h == NULL ? result : 10000 + __LINE__;
    EXPECT(bibkeep_open(h, text(FILE_TEXT), NULL, NULL), 0);
    if (is_short) { /* no session was opened: there is none */
        int none = bibkeep_file(h, &file, NULL) == BIBKEEP_MISUSE;
        bibkeep_free(h);
        return none ? BIBKEEP_MEMORY : 10000 + __LINE__;
    }
    EXPECT(edits(h), 0);
    EXPECT(bibkeep_edit_joined(h, "set\0b\0y\0002", 9, 4, NULL), 0);
    EXPECT(bibkeep_begin(h, text("two"), NULL), 0);
    EXPECT(bibkeep_script(h, text("set\tb\ty\t3\nrename-key\tb\tc\n"), NULL), 0);
    if (!is_short || bibkeep_undo(h, 1, NULL) == 55)
        EXPECT(bibkeep_end(h, NULL), 0);
    EXPECT(bibkeep_keys(h, &file, NULL), 0);
    EXPECT(bibkeep_entry(h, text("a"), 1, &file, NULL), 0);
    EXPECT(bibkeep_save(h, &file, &journal, NULL), 0);
    if (result == 0) {
        bibkeep *other;
        if ((result = bibkeep_new(&other)) == 0) {
            EXPECT(bibkeep_open(other, file, &journal, NULL), 0);
            bibkeep_free(other);
        } else
            is_short = 1;
    }
    EXPECT(bibkeep_run(h, text("labels"), &star, 1, &(bibkeep_options){.depth = 1}, text(FILE_TEXT), NULL, kept[0], &answer, NULL), 0);
    EXPECT(bibkeep_run(h, text("edit"), NULL, 0, NULL, text(FILE_TEXT), NULL, text("set\ta\ty\t1\n"), &answer, NULL), 0);
    bibkeep_named files[2] = {{text("a"), text(FILE_TEXT)}, {text("b"), text("@misc{d}")}};
    EXPECT(bibkeep_run_files(h, text("labels"), &star, 1, &(bibkeep_options){.depth = 1}, files, 2, &answer, NULL), 0);
    EXPECT(bibkeep_run_files(h, text("lint"), NULL, 0, NULL, files, 2, &answer, NULL), 0);
    /* all steps there are can be undone, and lead back to the first file */
    size_t steps = bibkeep_undo_count(h);
    EXPECT(bibkeep_undo(h, steps, NULL), 0);
    if (result == 0) {
        EXPECT(bibkeep_file(h, &file, NULL), 0);
        if (result == 0 && (file.size != strlen(FILE_TEXT) || memcmp(file.data, FILE_TEXT, file.size) != 0)) {
            bibkeep_free(h);
            return 10000 + __LINE__;
        }
    }
    bibkeep_free(h);
    return is_short ? BIBKEEP_MEMORY : 0;
}

int main(void) {
    int passed = 0, failed = 0;
    for (long n = 0;; n++) {
        left = n;
        blocks = 0;
        int result = calls();
        int was_refused = left < 0;
        left = -1;
        int is_good = blocks == 0 && (result == 0 || (result == BIBKEEP_MEMORY && was_refused));
        if (is_good)
            passed++;
        else {
            failed++;
            printf("request %ld refused: %s %d, %ld blocks in use\n", n, result > 10000 ? "refused.c:" : "result", result > 10000 ? result - 10000 : result, blocks);
        }
        if (!was_refused)
            break;
    }
    printf("%d passed, %d failed\n", passed, failed);
    return failed != 0;
}
