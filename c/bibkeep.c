/*
 * The C interface over the exports of the crate bib_c. It joins words, copies texts out, and keeps what it gives out until the
 * next call. It keeps the conditions of the exports: a handle leads to a state from bib_c_new to bib_c_free, no slice is a null
 * pointer, and a bool is 0 or 1. It decides nothing about files.
 */
#include "bibkeep.h"

#include <stdbool.h>
#include <stdint.h>
#include <stdio.h>
#include <stdlib.h>
#include <string.h>

/* ---- the exports of crates/bib_c: a slice is a pointer and a length, and a Global is passed as nothing ---- */

typedef struct {
    void *at;
} core_handle;

typedef struct {
    uint16_t number;
    bool has_place;
    size_t place, done, line;
} core_report;

typedef struct {
    uint32_t n;
    uint8_t depth;
    bool print, new_journal, no_journal, all_or_nothing, dropped, at, strict, latex, raw, skipped, plain,
        bibtex;
} core_options;

bool bib_c_new(core_handle *);
void bib_c_free(core_handle *);
void bib_c_open(core_handle *, const uint8_t *file, size_t, bool has_journal, const uint8_t *journal, size_t, core_report *);
void bib_c_close(core_handle *);
void bib_c_forget(core_handle *);
void bib_c_edit(core_handle *, const uint8_t *words, size_t, const size_t *lens, size_t, core_report *);
void bib_c_script(core_handle *, const uint8_t *script, size_t, core_report *);
void bib_c_begin(core_handle *, const uint8_t *label, size_t, core_report *);
void bib_c_end(core_handle *, core_report *);
void bib_c_undo(core_handle *, size_t times, core_report *);
void bib_c_redo(core_handle *, size_t times, core_report *);
size_t bib_c_undo_count(core_handle *);
size_t bib_c_redo_count(core_handle *);
void bib_c_file(core_handle *, core_report *);
void bib_c_save(core_handle *, core_report *);
void bib_c_keys(core_handle *, core_report *);
void bib_c_entry(core_handle *, const uint8_t *key, size_t, uint8_t depth, core_report *);
uint8_t bib_c_run(core_handle *, const uint8_t *name, size_t, const uint8_t *words, size_t, const size_t *lens, size_t,
                  const uint8_t *aux, size_t, const size_t *aux_lens, size_t, const core_options *, const uint8_t *file, size_t,
                  bool has_journal, const uint8_t *journal, size_t, const uint8_t *input, size_t);
uint8_t bib_c_run_files(core_handle *, const uint8_t *name, size_t, const uint8_t *words, size_t, const size_t *lens, size_t,
                        const uint8_t *aux, size_t, const size_t *aux_lens, size_t, const core_options *, const uint8_t *names,
                        size_t, const size_t *name_lens, size_t, const uint8_t *files, size_t, const size_t *file_lens, size_t);
bool bib_c_text_len(core_handle *, uint32_t which, size_t *len);
bool bib_c_text_copy(core_handle *, uint32_t which, uint8_t *to, size_t);

enum { OUTPUT, MESSAGE, FILE_TEXT, JOURNAL, TEXTS };

struct bibkeep {
    core_handle core;
    char *texts[TEXTS]; /* what the last call gave out */
};

/* A slice is never a null pointer, even if it is empty. */
static const uint8_t no_bytes[1];

static const bibkeep_bytes nothing = {NULL, 0};

static const uint8_t *at(bibkeep_bytes bytes) { return bytes.size ? (const uint8_t *)bytes.data : no_bytes; }

/* ---- versions and errors ---- */

const char *bibkeep_version(void) { return BIBKEEP_VERSION; }

const char *bibkeep_error_name(int number) {
    switch (number) {
    case 1: return "Unended";
    case 2: return "ExpectedName";
    case 3: return "ExpectedEquals";
    case 4: return "ExpectedCommaOrClose";
    case 5: return "ExpectedValue";
    case 6: return "UnbalancedBrace";
    case 7: return "KeyTooLong";
    case 8: return "TextTooLong";
    case 9: return "FileTooLong";
    case 10: return "Memory";
    case 11: return "NoSuchEntry";
    case 12: return "BadSplice";
    case 13: return "NoSuchFault";
    case 14: return "NotPlain";
    case 15: return "TooDeep";
    case 21: return "TooManyCommas";
    case 22: return "UnbalancedName";
    case 23: return "BadTemplate";
    case 24: return "NotUtf8";
    case 31: return "BadKey";
    case 32: return "BadName";
    case 33: return "BadValue";
    case 34: return "BadPosition";
    case 35: return "NotFound";
    case 36: return "Ambiguous";
    case 37: return "KeyInUse";
    case 38: return "NameInUse";
    case 39: return "Referred";
    case 40: return "WouldMerge";
    case 41: return "JournalFull";
    case 46: return "NoScript";
    case 51: return "NothingToUndo";
    case 52: return "NothingToRedo";
    case 53: return "BadJournal";
    case 54: return "JournalMismatch";
    case 55: return "StepOpen";
    case 56: return "NoOpenStep";
    case 61: return "NoStart";
    case 62: return "NoEnd";
    case 63: return "EmptyType";
    case 64: return "UnbalancedText";
    case 65: return "SkippedLine";
    case 71: return "BadScript";
    case BIBKEEP_MISUSE: return "Misuse";
    default: return "";
    }
}

void bibkeep_error_text(const bibkeep_error *error, char *to, size_t size) {
    char line[32] = "", place[32] = "";
    if (error->line)
        snprintf(line, sizeof line, "line %zu: ", error->line);
    if (error->has_offset)
        snprintf(place, sizeof place, " at %zu", error->offset);
    if (size)
        snprintf(to, size, "%s%d %s%s", line, error->number, bibkeep_error_name(error->number), place);
}

static int tell(bibkeep_error *error, core_report report) {
    if (error)
        *error = (bibkeep_error){report.number, report.has_place, report.place, report.line, report.done};
    return report.number;
}

static core_report refusal(int number) { return (core_report){(uint16_t)number, false, 0, 0, 0}; }

/* ---- what is given out ---- */

static void forget(bibkeep *handle) {
    for (int which = 0; which < TEXTS; which++) {
        free(handle->texts[which]);
        handle->texts[which] = NULL;
    }
}

/* Copies a text out of the core, and says whether the core has it. It fails only if memory runs out. */
static int take(bibkeep *handle, int which, bibkeep_bytes *out, int *is_there) {
    size_t len;
    *out = nothing;
    *is_there = bib_c_text_len(&handle->core, (uint32_t)which, &len);
    if (!*is_there || len == 0)
        return BIBKEEP_OK;
    char *copy = malloc(len);
    if (!copy)
        return BIBKEEP_MEMORY;
    bib_c_text_copy(&handle->core, (uint32_t)which, (uint8_t *)copy, len);
    handle->texts[which] = copy;
    *out = (bibkeep_bytes){copy, len};
    return BIBKEEP_OK;
}

/* Gives out a text that the core made, and the journal if it is asked for. Afterwards the core has none. */
static int give(bibkeep *handle, core_report report, int which, bibkeep_bytes *out, bibkeep_bytes *journal,
                bibkeep_error *error) {
    int is_there;
    *out = nothing;
    if (journal)
        *journal = nothing;
    if (report.number == 0 && (take(handle, which, out, &is_there) || (journal && take(handle, JOURNAL, journal, &is_there)))) {
        report = refusal(BIBKEEP_MEMORY);
        *out = nothing;
        forget(handle);
    }
    bib_c_forget(&handle->core);
    return tell(error, report);
}

/* ---- handles ---- */

int bibkeep_new(bibkeep **out) {
    *out = NULL;
    bibkeep *handle = calloc(1, sizeof *handle);
    if (!handle)
        return BIBKEEP_MEMORY;
    if (!bib_c_new(&handle->core)) {
        free(handle);
        return BIBKEEP_MEMORY;
    }
    *out = handle;
    return BIBKEEP_OK;
}

void bibkeep_free(bibkeep *handle) {
    if (!handle)
        return;
    forget(handle);
    bib_c_free(&handle->core);
    free(handle);
}

/* ---- words ---- */

/* Words one after another, and the length of each. */
typedef struct {
    uint8_t *text;
    size_t size;
    size_t *lens;
    size_t count;
} flat_words;

static void add_word(flat_words *flat, bibkeep_bytes word) {
    if (word.size)
        memcpy(flat->text + flat->size, word.data, word.size);
    flat->size += word.size;
    flat->lens[flat->count++] = word.size;
}

static void unflatten(flat_words *flat) {
    free(flat->text);
    free(flat->lens);
    *flat = (flat_words){NULL, 0, NULL, 0};
}

/* Makes room for words of this size together. It fails only if memory runs out. */
static int make_room(flat_words *flat, size_t size, size_t count) {
    if (count > SIZE_MAX / sizeof(size_t) - 1)
        return BIBKEEP_MEMORY;
    *flat = (flat_words){malloc(size + 1), 0, malloc((count + 1) * sizeof(size_t)), 0};
    if (flat->text && flat->lens)
        return BIBKEEP_OK;
    unflatten(flat);
    return BIBKEEP_MEMORY;
}

/* Joins the words, after a first one if there is one. It fails only if memory runs out. */
static int flatten(flat_words *flat, const bibkeep_bytes *first, const bibkeep_bytes *words, size_t count) {
    size_t size = first ? first->size : 0;
    for (size_t i = 0; i < count; i++) {
        if (words[i].size > SIZE_MAX / 2 - size)
            return BIBKEEP_MEMORY;
        size += words[i].size;
    }
    if (make_room(flat, size, count))
        return BIBKEEP_MEMORY;
    if (first)
        add_word(flat, *first);
    for (size_t i = 0; i < count; i++)
        add_word(flat, words[i]);
    return BIBKEEP_OK;
}

/* How many words a text has with a NUL between two of them. */
static size_t count_joined(const char *words, size_t size) {
    size_t count = 1;
    for (size_t i = 0; i < size; i++)
        count += words[i] == 0;
    return count;
}

/* Takes such a text apart. It fails only if memory runs out. */
static int split(flat_words *flat, const char *words, size_t size, size_t count) {
    if (make_room(flat, size, count))
        return BIBKEEP_MEMORY;
    for (size_t from = 0, at = 0; flat->count < count; from = ++at) {
        while (at < size && words[at] != 0)
            at++;
        add_word(flat, (bibkeep_bytes){words + from, at - from});
    }
    return BIBKEEP_OK;
}

/* ---- sessions ---- */

int bibkeep_open(bibkeep *handle, bibkeep_bytes file, const bibkeep_bytes *journal, bibkeep_error *error) {
    core_report report = {0};
    bibkeep_bytes text = journal ? *journal : nothing;
    forget(handle);
    bib_c_open(&handle->core, at(file), file.size, journal != NULL, at(text), text.size, &report);
    return tell(error, report);
}

void bibkeep_close(bibkeep *handle) {
    forget(handle);
    bib_c_close(&handle->core);
}

int bibkeep_edit(bibkeep *handle, const bibkeep_bytes *words, size_t count, bibkeep_error *error) {
    core_report report = {0};
    flat_words flat;
    forget(handle);
    if (flatten(&flat, NULL, words, count))
        return tell(error, refusal(BIBKEEP_MEMORY));
    bib_c_edit(&handle->core, flat.text, flat.size, flat.lens, flat.count, &report);
    unflatten(&flat);
    return tell(error, report);
}

int bibkeep_edit_joined(bibkeep *handle, const char *words, int size, int count, bibkeep_error *error) {
    core_report report = {0};
    flat_words flat;
    forget(handle);
    if (size < 0 || count < 0 || (size_t)count != count_joined(words, (size_t)size))
        return tell(error, refusal(BIBKEEP_MISUSE));
    if (split(&flat, size ? words : "", (size_t)size, (size_t)count))
        return tell(error, refusal(BIBKEEP_MEMORY));
    bib_c_edit(&handle->core, flat.text, flat.size, flat.lens, flat.count, &report);
    unflatten(&flat);
    return tell(error, report);
}

int bibkeep_script(bibkeep *handle, bibkeep_bytes script, bibkeep_error *error) {
    core_report report = {0};
    forget(handle);
    bib_c_script(&handle->core, at(script), script.size, &report);
    return tell(error, report);
}

int bibkeep_begin(bibkeep *handle, bibkeep_bytes label, bibkeep_error *error) {
    core_report report = {0};
    forget(handle);
    bib_c_begin(&handle->core, at(label), label.size, &report);
    return tell(error, report);
}

int bibkeep_end(bibkeep *handle, bibkeep_error *error) {
    core_report report = {0};
    forget(handle);
    bib_c_end(&handle->core, &report);
    return tell(error, report);
}

int bibkeep_undo(bibkeep *handle, size_t count, bibkeep_error *error) {
    core_report report = {0};
    forget(handle);
    bib_c_undo(&handle->core, count, &report);
    return tell(error, report);
}

int bibkeep_redo(bibkeep *handle, size_t count, bibkeep_error *error) {
    core_report report = {0};
    forget(handle);
    bib_c_redo(&handle->core, count, &report);
    return tell(error, report);
}

size_t bibkeep_undo_count(bibkeep *handle) { return bib_c_undo_count(&handle->core); }

size_t bibkeep_redo_count(bibkeep *handle) { return bib_c_redo_count(&handle->core); }

int bibkeep_file(bibkeep *handle, bibkeep_bytes *file, bibkeep_error *error) {
    core_report report = {0};
    forget(handle);
    bib_c_file(&handle->core, &report);
    return give(handle, report, FILE_TEXT, file, NULL, error);
}

int bibkeep_save(bibkeep *handle, bibkeep_bytes *file, bibkeep_bytes *journal, bibkeep_error *error) {
    core_report report = {0};
    forget(handle);
    bib_c_save(&handle->core, &report);
    return give(handle, report, FILE_TEXT, file, journal, error);
}

int bibkeep_keys(bibkeep *handle, bibkeep_bytes *keys, bibkeep_error *error) {
    core_report report = {0};
    forget(handle);
    bib_c_keys(&handle->core, &report);
    return give(handle, report, OUTPUT, keys, NULL, error);
}

int bibkeep_entry(bibkeep *handle, bibkeep_bytes key, int depth, bibkeep_bytes *json, bibkeep_error *error) {
    core_report report = {0};
    forget(handle);
    bib_c_entry(&handle->core, at(key), key.size, depth < 0 || depth > 255 ? 0 : (uint8_t)depth, &report);
    return give(handle, report, OUTPUT, json, NULL, error);
}

/* ---- commands ---- */

/* Whether the text goes on with this word; if so, moves past it. */
static bool follows(const char **from, const char *end, const char *word) {
    size_t len = strlen(word);
    if ((size_t)(end - *from) < len || memcmp(*from, word, len) != 0)
        return false;
    *from += len;
    return true;
}

/* Reads a number, and moves past it. It says whether there is one. */
static bool read_number(const char **from, const char *end, size_t *number) {
    const char *start = *from;
    *number = 0;
    while (*from < end && **from >= '0' && **from <= '9')
        *number = *number * 10 + (size_t)(*(*from)++ - '0');
    return *from > start;
}

/* The fault that a command's message names: `bibkeep: [line LINE: ]NUMBER NAME[ at OFFSET]`. lint has status 1 and no message
 * if it finds something, which is no fault. */
static core_report fault_of(bibkeep_bytes message, int status) {
    const char *from = message.data, *end = message.data + message.size;
    core_report report = {0};
    size_t number;
    if (status == 4)
        return refusal(BIBKEEP_MEMORY);
    if (status != 0 && status != 1)
        return refusal(BIBKEEP_MISUSE);
    if (status == 0 || message.size == 0 || !follows(&from, end, "bibkeep: "))
        return report;
    if (follows(&from, end, "line ") && (!read_number(&from, end, &report.line) || !follows(&from, end, ": ")))
        return report;
    if (!read_number(&from, end, &number) || number > 99)
        return report;
    report.number = (uint16_t)number;
    if (follows(&from, end, " ") && follows(&from, end, bibkeep_error_name((int)number)) && follows(&from, end, " at "))
        report.has_place = read_number(&from, end, &report.place);
    return report;
}

static const bibkeep_answer no_answer = {4, {NULL, 0}, {NULL, 0}, 0, {NULL, 0}, 0, {NULL, 0}};

static core_options core_of(const bibkeep_options *given) {
    return (core_options){given->number,           (uint8_t)given->depth,      given->print != 0,
                          given->new_journal != 0, given->no_journal != 0,     given->all_or_nothing != 0,
                          given->dropped != 0,     given->at != 0,             given->strict != 0,
                          given->latex != 0,       given->raw != 0,             given->skipped != 0,
                          given->plain != 0,       given->bibtex != 0};
}

/* Gives out what a command gave, and tells what came of it. */
static int answered(bibkeep *handle, bibkeep_answer *answer, bibkeep_error *error) {
    int is_there;
    if (take(handle, OUTPUT, &answer->output, &is_there) || take(handle, MESSAGE, &answer->message, &is_there) ||
        take(handle, FILE_TEXT, &answer->file, &answer->has_file) ||
        take(handle, JOURNAL, &answer->journal, &answer->has_journal)) {
        forget(handle);
        *answer = no_answer;
    }
    bib_c_forget(&handle->core);
    return tell(error, fault_of(answer->message, answer->status));
}

static const bibkeep_options no_options;

int bibkeep_run(bibkeep *handle, bibkeep_bytes command, const bibkeep_bytes *args, size_t count,
                const bibkeep_options *options, bibkeep_bytes file, const bibkeep_bytes *journal, bibkeep_bytes input,
                bibkeep_answer *answer, bibkeep_error *error) {
    static const bibkeep_bytes path = {"-", 1};
    const bibkeep_options *given = options ? options : &no_options;
    bibkeep_bytes text = journal ? *journal : nothing;
    flat_words words, aux;
    *answer = no_answer;
    forget(handle);
    if (given->depth > 255) {
        answer->status = 2;
        return tell(error, refusal(BIBKEEP_MISUSE));
    }
    /* explain takes no file, and so no name of one */
    bool has_path = !(command.size == 7 && memcmp(command.data, "explain", 7) == 0);
    if (flatten(&words, has_path ? &path : NULL, args, count))
        return tell(error, refusal(BIBKEEP_MEMORY));
    if (flatten(&aux, NULL, given->aux, given->aux_count)) {
        unflatten(&words);
        return tell(error, refusal(BIBKEEP_MEMORY));
    }
    core_options core = core_of(given);
    answer->status = bib_c_run(&handle->core, at(command), command.size, words.text, words.size, words.lens, words.count, aux.text,
                               aux.size, aux.lens, aux.count, &core, at(file), file.size, journal != NULL, at(text), text.size,
                               at(input), input.size);
    unflatten(&words);
    unflatten(&aux);
    return answered(handle, answer, error);
}

/* The names of files, or their bytes, one after another. It fails only if memory runs out. */
static int flatten_files(flat_words *flat, const bibkeep_named *files, size_t count, bool names) {
    size_t size = 0;
    for (size_t i = 0; i < count; i++) {
        size_t more = names ? files[i].name.size : files[i].text.size;
        if (more > SIZE_MAX / 2 - size)
            return BIBKEEP_MEMORY;
        size += more;
    }
    if (make_room(flat, size, count))
        return BIBKEEP_MEMORY;
    for (size_t i = 0; i < count; i++)
        add_word(flat, names ? files[i].name : files[i].text);
    return BIBKEEP_OK;
}

int bibkeep_run_files(bibkeep *handle, bibkeep_bytes command, const bibkeep_bytes *args, size_t count,
                      const bibkeep_options *options, const bibkeep_named *files, size_t file_count, bibkeep_answer *answer,
                      bibkeep_error *error) {
    const bibkeep_options *given = options ? options : &no_options;
    flat_words words = {0}, aux = {0}, names = {0}, texts = {0};
    *answer = no_answer;
    forget(handle);
    if (given->depth > 255 || file_count == 0) {
        answer->status = 2;
        return tell(error, refusal(BIBKEEP_MISUSE));
    }
    if (flatten(&words, &files[0].name, args, count) || flatten(&aux, NULL, given->aux, given->aux_count) ||
        flatten_files(&names, files, file_count, true) || flatten_files(&texts, files, file_count, false)) {
        answer->status = 4;
    } else {
        core_options core = core_of(given);
        answer->status = bib_c_run_files(&handle->core, at(command), command.size, words.text, words.size, words.lens, words.count,
                                         aux.text, aux.size, aux.lens, aux.count, &core, names.text, names.size, names.lens,
                                         names.count, texts.text, texts.size, texts.lens, texts.count);
    }
    unflatten(&words);
    unflatten(&aux);
    unflatten(&names);
    unflatten(&texts);
    return answer->status == 4 ? tell(error, refusal(BIBKEEP_MEMORY)) : answered(handle, answer, error);
}

static int read_only(bibkeep *handle, const char *name, bibkeep_bytes file, const bibkeep_bytes *args, size_t count,
                     unsigned number, unsigned depth, bibkeep_answer *answer, bibkeep_error *error) {
    bibkeep_options options = {0};
    options.number = number;
    options.depth = depth;
    return bibkeep_run(handle, (bibkeep_bytes){name, strlen(name)}, args, count, &options, file, NULL, nothing, answer, error);
}

int bibkeep_check(bibkeep *handle, bibkeep_bytes file, bibkeep_answer *answer, bibkeep_error *error) {
    return read_only(handle, "check", file, NULL, 0, 0, 0, answer, error);
}

int bibkeep_lint(bibkeep *handle, bibkeep_bytes file, bibkeep_answer *answer, bibkeep_error *error) {
    return read_only(handle, "lint", file, NULL, 0, 0, 0, answer, error);
}

int bibkeep_show(bibkeep *handle, bibkeep_bytes file, bibkeep_bytes key, unsigned depth, bibkeep_answer *answer,
                 bibkeep_error *error) {
    return read_only(handle, "show", file, &key, 1, 0, depth, answer, error);
}

int bibkeep_cite(bibkeep *handle, bibkeep_bytes file, const bibkeep_bytes *keys, size_t count, unsigned min_crossrefs,
                 bibkeep_answer *answer, bibkeep_error *error) {
    return read_only(handle, "cite", file, keys, count, min_crossrefs, 0, answer, error);
}

int bibkeep_labels(bibkeep *handle, bibkeep_bytes file, const bibkeep_bytes *keys, size_t count, unsigned depth,
                   bibkeep_answer *answer, bibkeep_error *error) {
    return read_only(handle, "labels", file, keys, count, 0, depth, answer, error);
}

int bibkeep_names(bibkeep *handle, bibkeep_bytes file, bibkeep_bytes key, bibkeep_bytes format, unsigned depth,
                  bibkeep_answer *answer, bibkeep_error *error) {
    bibkeep_bytes args[2] = {key, format};
    return read_only(handle, "names", file, args, 2, 0, depth, answer, error);
}

int bibkeep_json(bibkeep *handle, bibkeep_bytes file, const bibkeep_bytes *keys, size_t count, unsigned depth,
                 bibkeep_answer *answer, bibkeep_error *error) {
    return read_only(handle, "json", file, keys, count, 0, depth, answer, error);
}

int bibkeep_ris(bibkeep *handle, bibkeep_bytes file, const bibkeep_bytes *keys, size_t count, unsigned depth,
                bibkeep_answer *answer, bibkeep_error *error) {
    return read_only(handle, "ris", file, keys, count, 0, depth, answer, error);
}

int bibkeep_newkeys(bibkeep *handle, bibkeep_bytes file, unsigned depth, bibkeep_answer *answer, bibkeep_error *error) {
    return read_only(handle, "newkeys", file, NULL, 0, 0, depth, answer, error);
}

int bibkeep_extract(bibkeep *handle, bibkeep_bytes file, const bibkeep_bytes *keys, size_t count, bibkeep_answer *answer,
                    bibkeep_error *error) {
    return read_only(handle, "extract", file, keys, count, 0, 0, answer, error);
}
