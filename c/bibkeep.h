/*
 * bibkeep: edits BibTeX files without changing a byte that nobody asked to change, with undo.
 *
 * The library opens no file, reads no clock and no locale, and keeps nothing outside its handles. The caller reads and writes
 * files, and gives and takes bytes. All texts are bytes with a length: none ends in a NUL, and none has a character set.
 * Offsets count bytes from 0; lines count from 1.
 *
 * Handles.   bibkeep_new makes a handle, and bibkeep_free frees it. Different threads may use different handles at the same
 *            time. One call at a time may use a handle, from any thread. A thread that edits needs 256 KiB of stack. No call may
 *            be made from a signal handler, or in the child of a process with threads before it runs another program.
 * Memory.    The caller owns what it passes, and may free or change it when the call returns: the library keeps no pointer into
 *            it. Bytes that a call gives out belong to the handle. They stay until the next call with this handle, except
 *            bibkeep_undo_count and bibkeep_redo_count, which leave them; bibkeep_free frees them. The library takes its memory
 *            from malloc, calloc and realloc of the C library, and answers BIBKEEP_MEMORY if they refuse.
 * Results.   Each call that can fail returns an int: 0 (BIBKEEP_OK), the number of a fault of docs/FAULTS.md (1 to 99), or
 *            BIBKEEP_MISUSE. It also fills in the error that is passed, which may be NULL. A call that fails changes neither the
 *            file nor the steps that can be undone or redone. The exceptions are bibkeep_script, bibkeep_undo and bibkeep_redo:
 *            they keep what they did before the failure, and `done` says how much that is.
 *
 * What each call does is proved of the engine below this header: crates/bib_c states it, and docs/PROMISES.md says what the
 * proof rests on. The name in parentheses after each call is that of the function whose contract says it.
 */
#ifndef BIBKEEP_H
#define BIBKEEP_H

#include <stddef.h>

#ifdef __cplusplus
extern "C" {
#endif

/* The version of this header. A library with the same major number has all that is declared here. */
#define BIBKEEP_VERSION_MAJOR 0
#define BIBKEEP_VERSION_MINOR 1
#define BIBKEEP_VERSION "0.1.0"

/* The version of the library, which is that of the program, as MAJOR.MINOR.PATCH. */
const char *bibkeep_version(void);

/* ---- bytes and errors ---- */

/* Bytes that are lent. `data` may be NULL if `size` is 0. */
typedef struct {
    const char *data;
    size_t size;
} bibkeep_bytes;

/* What came of a call. */
typedef struct {
    int number;     /* 0, the number of the fault, or BIBKEEP_MISUSE */
    int has_offset; /* 1 if reading failed at a byte */
    size_t offset;  /* that byte */
    size_t line;    /* the line of a script that was refused, from 1; else 0 */
    size_t done;    /* how many steps, or requests of a script, were done */
} bibkeep_error;

#define BIBKEEP_OK 0
#define BIBKEEP_MEMORY 10 /* memory ran out */
#define BIBKEEP_MISUSE 1000 /* the call is not allowed: no session is open, or an argument is out of its range */

/* The name of a fault by its number, as docs/FAULTS.md has it: "NoSuchEntry" of 11. "" if no fault has this number. */
const char *bibkeep_error_name(int number);

/* Writes the error as the program does, as "6 UnbalancedBrace at 15" or "line 5: 39 Referred", with a NUL after it, cut to
 * `size` bytes. */
void bibkeep_error_text(const bibkeep_error *error, char *to, size_t size);

/* ---- handles ---- */

typedef struct bibkeep bibkeep;

/* Makes a handle without a session. Fails with BIBKEEP_MEMORY, and then gives NULL. (bib_c_new) */
int bibkeep_new(bibkeep **out);

/* Frees a handle with all that it has. NULL is allowed. (bib_c_free) */
void bibkeep_free(bibkeep *handle);

/* ---- sessions: an open file with its steps ----
 *
 * A handle has at most one session. A call on a handle without one fails with BIBKEEP_MISUSE. */

/* Opens a session over a copy of these bytes, with the steps of the journal that was stored with them, if `journal` is not
 * NULL. It takes the place of the session that is open; if it fails, that one stays. Fails with 1 to 10, 53, 54. (bib_c_open) */
int bibkeep_open(bibkeep *handle, bibkeep_bytes file, const bibkeep_bytes *journal, bibkeep_error *error);

/* Closes the session, if one is open, and forgets its steps. (bib_c_close) */
void bibkeep_close(bibkeep *handle);

/* Makes one edit, given as the words of a line of a script: {"set", "l94", "year", "1995"}. It is a step of its own, or a part
 * of the step that is open. A word may have any bytes. Fails with 8 to 10, 31 to 41, 71; then no step is left open that was
 * not. (bib_c_edit) */
int bibkeep_edit(bibkeep *handle, const bibkeep_bytes *words, size_t count, bibkeep_error *error);

/* The same, with the words as one text, and a NUL between two of them: "set\0l94\0year\01995" has 4. The numbers are of type int,
 * which other languages pass with least work. Fails with BIBKEEP_MISUSE too if the text has not so many words, as where a word has
 * a NUL. (bib_c_edit) */
int bibkeep_edit_joined(bibkeep *handle, const char *words, int size, int count, bibkeep_error *error);

/* Does the lines of a script in order, up to the first that is refused. Fails with 8 to 10, 31 to 41, 55, 56, 71.
 * (bib_c_script) */
int bibkeep_script(bibkeep *handle, bibkeep_bytes script, bibkeep_error *error);

/* Begins a step of several edits, with a label of at most 255 bytes without control bytes; it may be empty. Fails with 55, and
 * with BIBKEEP_MISUSE if that is no label. (bib_c_begin) */
int bibkeep_begin(bibkeep *handle, bibkeep_bytes label, bibkeep_error *error);

/* Ends the step that is open. A step without an edit is forgotten. Fails with 56. (bib_c_end) */
int bibkeep_end(bibkeep *handle, bibkeep_error *error);

/* Undoes up to `count` steps, or redoes them. Fails with 8 to 10, 51, 52, 55. (bib_c_undo, bib_c_redo) */
int bibkeep_undo(bibkeep *handle, size_t count, bibkeep_error *error);
int bibkeep_redo(bibkeep *handle, size_t count, bibkeep_error *error);

/* How many steps can be undone, or redone: 0 without a session. (bib_c_undo_count, bib_c_redo_count) */
size_t bibkeep_undo_count(bibkeep *handle);
size_t bibkeep_redo_count(bibkeep *handle);

/* Gives the bytes of the file as it is now. (bib_c_file) */
int bibkeep_file(bibkeep *handle, bibkeep_bytes *file, bibkeep_error *error);

/* Gives the file and its journal: store both, and bibkeep_open takes them up again. (bib_c_save) */
int bibkeep_save(bibkeep *handle, bibkeep_bytes *file, bibkeep_bytes *journal, bibkeep_error *error);

/* Gives the keys of all entries in the order of the file, a line feed after each. (bib_c_keys) */
int bibkeep_keys(bibkeep *handle, bibkeep_bytes *keys, bibkeep_error *error);

/* Gives the first entry with this key, ignoring case, as a line of JSON: its type, key, fields with macros expanded and with
 * what it inherits from up to `depth` parents, from 1 to 8, and its parent. Fails with 10, 11, 24, and with BIBKEEP_MISUSE if
 * the depth is out of its range. (bib_c_entry) */
int bibkeep_entry(bibkeep *handle, bibkeep_bytes key, int depth, bibkeep_bytes *json, bibkeep_error *error);

/* ---- commands of the program over bytes ----
 *
 * These answer what the program answers to the same bytes. They need a handle for what they give out, and leave its session as
 * it is. They return the number of the fault in the message, or 0; `error` has its place and line too. The place is one of the
 * file; with 53 of the journal; with 61 to 65, or if the message ends with ` in standard input`, of the input. bibkeep_lint
 * returns 0 if it found something, and the answer has status 1. (bib_c_run)
 *
 * diff takes the name of the new file as its one argument, and the new file as the input; messages call the old file `-`, and of
 * the new one they end with ` in ` and its name. It returns 0 if there is a difference, and the answer has status 1.
 *
 * Two things of the program are not there: its option --hints, and what lint finds in aux files, which is keys that a document cites
 * and no entry has (missing-key). No aux file is read: the caller finds the keys that a document cites, and passes them as arguments
 * of cite, labels, json, ris and extract. cite prints `? KEY` for a key that no entry has. */

/* What a command gives. Bytes that it does not give have size 0. */
typedef struct {
    int status;            /* the exit status of the program: 0 done, 1 refused, 2 no such command, 4 out of memory */
    bibkeep_bytes output;  /* what the program writes to standard output */
    bibkeep_bytes message; /* what it writes to standard error */
    int has_file;          /* 1 if there is a new file, which the caller is to store */
    bibkeep_bytes file;
    int has_journal;       /* 1 if there is a new journal, which the caller is to store */
    bibkeep_bytes journal;
} bibkeep_answer;

/* The options of a command. A field of 0 is an option that is not given. */
typedef struct {
    unsigned number;          /* the number of undo, redo and cite --min-crossrefs, 1 to 65535: undo and redo need it */
    unsigned depth;           /* --depth, 1 to 8, which commands that show records need */
    int print;                /* --print */
    int new_journal;          /* --new-journal */
    int no_journal;           /* --no-journal */
    int all_or_nothing;       /* --all-or-nothing */
    int dropped;              /* --dropped */
    int at;                   /* --at */
    int strict;               /* --strict */
    int latex;                /* --latex */
    int raw;                  /* --raw */
    int skipped;              /* --skipped */
    int plain;                /* --plain */
    int bibtex;               /* --bibtex, over one file; depth is needed, but has no effect then */
    const bibkeep_bytes *aux; /* the names of the aux files whose keys are among the arguments; lint makes nothing of them */
    size_t aux_count;
} bibkeep_options;

/* Runs any command: its name, its arguments without the file's name, its options, and the bytes that it reads. `options` may be
 * NULL, and `journal` is NULL if the file has none. */
int bibkeep_run(bibkeep *handle, bibkeep_bytes command, const bibkeep_bytes *args, size_t count,
                const bibkeep_options *options, bibkeep_bytes file, const bibkeep_bytes *journal, bibkeep_bytes input,
                bibkeep_answer *answer, bibkeep_error *error);

/* A file with its name: what messages, lint and json call it. */
typedef struct {
    bibkeep_bytes name;
    bibkeep_bytes text;
} bibkeep_named;

/* Runs a command that only reads over several files, in this order, which are read as one: what the program answers if the options
 * --before and --after name the files before and after its own. There is at least one file, and together they may have 16 MiB. The
 * command is check, lint, show, cite, labels, json, names, newkeys, ris or extract; its arguments come without the file. The place
 * is one of the file that the message names. (bib_c_run_files) */
int bibkeep_run_files(bibkeep *handle, bibkeep_bytes command, const bibkeep_bytes *args, size_t count,
                      const bibkeep_options *options, const bibkeep_named *files, size_t file_count, bibkeep_answer *answer,
                      bibkeep_error *error);

/* The commands that only read, with the options that they need. */
int bibkeep_check(bibkeep *handle, bibkeep_bytes file, bibkeep_answer *answer, bibkeep_error *error);
int bibkeep_lint(bibkeep *handle, bibkeep_bytes file, bibkeep_answer *answer, bibkeep_error *error);
int bibkeep_show(bibkeep *handle, bibkeep_bytes file, bibkeep_bytes key, unsigned depth, bibkeep_answer *answer,
                 bibkeep_error *error);
int bibkeep_cite(bibkeep *handle, bibkeep_bytes file, const bibkeep_bytes *keys, size_t count, unsigned min_crossrefs,
                 bibkeep_answer *answer, bibkeep_error *error);
int bibkeep_labels(bibkeep *handle, bibkeep_bytes file, const bibkeep_bytes *keys, size_t count, unsigned depth,
                   bibkeep_answer *answer, bibkeep_error *error);
int bibkeep_names(bibkeep *handle, bibkeep_bytes file, bibkeep_bytes key, bibkeep_bytes format, unsigned depth,
                  bibkeep_answer *answer, bibkeep_error *error);
int bibkeep_json(bibkeep *handle, bibkeep_bytes file, const bibkeep_bytes *keys, size_t count, unsigned depth,
                 bibkeep_answer *answer, bibkeep_error *error);
int bibkeep_ris(bibkeep *handle, bibkeep_bytes file, const bibkeep_bytes *keys, size_t count, unsigned depth,
                bibkeep_answer *answer, bibkeep_error *error);
int bibkeep_newkeys(bibkeep *handle, bibkeep_bytes file, unsigned depth, bibkeep_answer *answer, bibkeep_error *error);
int bibkeep_extract(bibkeep *handle, bibkeep_bytes file, const bibkeep_bytes *keys, size_t count, bibkeep_answer *answer,
                    bibkeep_error *error);

#ifdef __cplusplus
}
#endif

#endif
