/* Calls each function of bibkeep.h over the worked examples of README.md. It prints what goes wrong, and then
 * `N passed, M failed`. */
#include "bibkeep.h"

#include <pthread.h>
#include <stdio.h>
#include <stdlib.h>
#include <string.h>

static int passed, failed;

#define CHECK(that) ((that) ? (void)passed++ : (void)(failed++, printf("%s:%d: %s\n", __FILE__, __LINE__, #that)))

static bibkeep_bytes text(const char *s) {
    return (bibkeep_bytes){s, strlen(s)};
}

static int is(bibkeep_bytes bytes, const char *s) {
    return bytes.size == strlen(s) && (bytes.size == 0 || !memcmp(bytes.data, s, bytes.size));
}

static const char REFS[] = "% mail joe@x.org when a page moves\n"
                           "@string{cup = \"Cambridge University Press\"}\n"
                           "@Book(l94, author = {Lamport, Leslie}, publisher = cUp,\n"
                           "  year=1994 , month = mai)\n"
                           "@inproceedings{ld86, author = \"Leslie Lamport and Dijkstra, E. W.\",\n"
                           "  title = {On   Interprocess\n"
                           "           Communication}, crossref = {podc},}\n"
                           "@proceedings{podc, title = {Distributed Computing}, year = 1986}\n";

static int edit(bibkeep *h, bibkeep_error *e, int count, const char **words) {
    bibkeep_bytes lent[8];
    for (int i = 0; i < count; i++)
        lent[i] = text(words[i]);
    return bibkeep_edit(h, lent, (size_t)count, e);
}

static void sessions(void) {
    bibkeep *h;
    bibkeep_error e;
    bibkeep_bytes file, journal, json, keys;
    char words[80];

    CHECK(bibkeep_new(&h) == 0);
    CHECK(bibkeep_file(h, &file, &e) == BIBKEEP_MISUSE);
    CHECK(bibkeep_open(h, text(REFS), NULL, &e) == 0);
    CHECK(bibkeep_file(h, &file, &e) == 0 && is(file, REFS));
    CHECK(bibkeep_keys(h, &keys, &e) == 0 && is(keys, "l94\nld86\npodc\n"));
    CHECK(bibkeep_undo(h, 1, &e) == 51 && e.done == 0);

    /* an edit and its undo */
    CHECK(edit(h, &e, 4, (const char *[]){"set", "l94", "year", "1995"}) == 0);
    CHECK(bibkeep_undo_count(h) == 1 && bibkeep_redo_count(h) == 0);
    CHECK(bibkeep_file(h, &file, &e) == 0 && file.size == strlen(REFS) && memcmp(file.data, REFS, file.size));
    CHECK(bibkeep_undo(h, 1, &e) == 0 && e.done == 1);
    CHECK(bibkeep_file(h, &file, &e) == 0 && is(file, REFS));
    CHECK(bibkeep_redo(h, 2, &e) == 52 && e.done == 1);

    /* a refused edit changes nothing, and leaves no step open */
    CHECK(edit(h, &e, 4, (const char *[]){"set", "nobody", "year", "1995"}) == 35);
    CHECK(e.number == 35 && !e.has_offset);
    CHECK(bibkeep_end(h, &e) == 56);
    CHECK(bibkeep_undo_count(h) == 1);
    CHECK(edit(h, &e, 2, (const char *[]){"frobnicate", "x"}) == 71);

    /* an edit as one text */
    CHECK(bibkeep_edit_joined(h, "set\0nobody\0year\0001995", 20, 4, &e) == 35 && bibkeep_end(h, &e) == 56);
    CHECK(bibkeep_edit_joined(h, "set\0l94\0year\0{\xff\t}", 17, 4, &e) == 0 && bibkeep_undo_count(h) == 2);
    CHECK(bibkeep_file(h, &file, &e) == 0 && file.size == strlen(REFS) && memcmp(file.data, REFS, file.size));
    CHECK(bibkeep_edit_joined(h, "set\0l94\0year\0", 13, 4, &e) == 33 && bibkeep_edit_joined(h, "drop\0l94\0month", 14, 3, &e) == 0);
    CHECK(bibkeep_edit_joined(h, NULL, 0, 1, &e) == 71 && bibkeep_edit_joined(h, "set\0", 4, 2, &e) == 71);
    CHECK(bibkeep_edit_joined(h, "drop\0l94\0note", -1, 3, &e) == BIBKEEP_MISUSE);
    CHECK(bibkeep_edit_joined(h, "drop\0l94\0no\0e", 13, 3, &e) == BIBKEEP_MISUSE && bibkeep_undo_count(h) == 3);
    CHECK(bibkeep_undo(h, 2, &e) == 0 && bibkeep_undo_count(h) == 1);

    /* a script */
    CHECK(bibkeep_script(h, text("group\tprint run\nset\tl94\tyear\t1995\nset\tld86\tnote\t{x}\nend\nremove\tpodc\n"), &e) == 39);
    bibkeep_error_text(&e, words, sizeof words);
    CHECK(!strcmp(words, "line 5: 39 Referred"));
    CHECK(bibkeep_undo_count(h) == 2);

    /* a step of several edits */
    CHECK(bibkeep_begin(h, text("two"), &e) == 0);
    CHECK(edit(h, &e, 3, (const char *[]){"rename-key", "podc", "podc86"}) == 0);
    CHECK(edit(h, &e, 4, (const char *[]){"set", "podc86", "year", "1987"}) == 0);
    CHECK(bibkeep_end(h, &e) == 0);
    CHECK(bibkeep_undo_count(h) == 3);
    CHECK(bibkeep_entry(h, text("LD86"), 1, &json, &e) == 0);
    CHECK(json.size > 10 && !memcmp(json.data + json.size - 2, "}\n", 2) && json.data[0] == '{');
    CHECK(bibkeep_entry(h, text("nobody"), 1, &json, &e) == 11 && json.size == 0);
    CHECK(bibkeep_entry(h, text("l94"), 0, &json, &e) == BIBKEEP_MISUSE);

    /* the journal outlives the handle */
    CHECK(bibkeep_save(h, &file, &journal, &e) == 0 && journal.size > 0);
    bibkeep *other;
    CHECK(bibkeep_new(&other) == 0);
    CHECK(bibkeep_open(other, file, &journal, &e) == 0);
    CHECK(bibkeep_undo(other, 3, &e) == 0 && e.done == 3);
    CHECK(bibkeep_open(other, text(REFS), &journal, &e) == 54);
    bibkeep_bytes bad = text("no journal");
    CHECK(bibkeep_open(other, text(REFS), &bad, &e) == 53 && e.has_offset);
    CHECK(bibkeep_file(other, &file, &e) == 0 && is(file, REFS)); /* the session before is still open */
    bibkeep_free(other);

    /* bytes that are no file */
    CHECK(bibkeep_open(h, text("@misc{a, t = \"x}y\"}"), NULL, NULL) == 6);
    CHECK(bibkeep_open(h, text("@misc{a, t = \"x}y\"}"), NULL, &e) == 6 && e.has_offset && e.offset == 15);
    CHECK(bibkeep_open(h, (bibkeep_bytes){NULL, 0}, NULL, &e) == 0);
    CHECK(bibkeep_file(h, &file, &e) == 0 && file.size == 0);
    CHECK(bibkeep_open(h, (bibkeep_bytes){"@misc{a, t={\0\xff}}", 17}, NULL, &e) == 0);
    CHECK(bibkeep_file(h, &file, &e) == 0 && file.size == 17 && !memcmp(file.data, "@misc{a, t={\0\xff}}", 17));
    CHECK(bibkeep_entry(h, text("a"), 1, &json, &e) == 24);

    /* a session that was closed gives nothing */
    CHECK(edit(h, &e, 4, (const char *[]){"set", "a", "y", "{2}"}) == 0 && bibkeep_undo_count(h) == 1);
    bibkeep_close(h);
    CHECK(bibkeep_file(h, &file, &e) == BIBKEEP_MISUSE && file.size == 0 && bibkeep_undo_count(h) == 0);
    CHECK(bibkeep_save(h, &file, &journal, &e) == BIBKEEP_MISUSE && file.size == 0 && journal.size == 0);
    CHECK(bibkeep_undo(h, 1, &e) == BIBKEEP_MISUSE && edit(h, &e, 1, (const char *[]){"end"}) == BIBKEEP_MISUSE);

    /* labels and steps */
    CHECK(bibkeep_open(h, text("@misc{a, t = 1,}"), NULL, &e) == 0);
    CHECK(bibkeep_begin(h, text("two\nlines"), &e) == BIBKEEP_MISUSE);
    CHECK(bibkeep_begin(h, text(""), &e) == 0 && bibkeep_begin(h, text(""), &e) == 55);
    CHECK(bibkeep_undo(h, 1, &e) == 55 && bibkeep_end(h, &e) == 0 && bibkeep_end(h, &e) == 56);
    CHECK(bibkeep_script(h, text(""), &e) == 0 && e.done == 0);
    CHECK(edit(h, &e, 4, (const char *[]){"set", "a", "y", "{\xff\t}"}) == 0); /* a word that no script can have */
    CHECK(bibkeep_undo(h, 0, &e) == 0 && e.done == 0 && bibkeep_undo_count(h) == 1);
    bibkeep_free(h);
    bibkeep_free(NULL);
}

static void commands(void) {
    bibkeep *h;
    bibkeep_error e;
    bibkeep_answer a;
    bibkeep_bytes two[2] = {text("ld86"), text("nobody")}, all = text("*");

    CHECK(bibkeep_new(&h) == 0);
    CHECK(bibkeep_check(h, text(REFS), &a, &e) == 0);
    CHECK(is(a.output, "items 4\nentries 3\nmacros 1\npreambles 0\ncomments 0\nundefined macro mai\n") && !a.has_file);
    CHECK(bibkeep_show(h, text(REFS), text("ld86"), 1, &a, &e) == 0);
    CHECK(is(a.output, "@inproceedings ld86\nauthor = Leslie Lamport and Dijkstra, E. W.\n"
                       "title = On Interprocess Communication\nyear = 1986\ncrossref = podc\n"));
    CHECK(bibkeep_cite(h, text(REFS), two, 2, 1, &a, &e) == 0 && is(a.output, "ld86\tpodc\npodc\n? nobody\n"));
    CHECK(bibkeep_labels(h, text(REFS), &all, 1, 1, &a, &e) == 0 && is(a.output, "Lam94\tl94\nLD86\tld86\nanon86\tpodc\n"));
    CHECK(bibkeep_names(h, text(REFS), text("ld86"), text("{ll}{, f.}"), 1, &a, &e) == 0);
    CHECK(is(a.output, "Lamport, L.\nDijkstra, E.~W.\n"));
    CHECK(bibkeep_ris(h, text(REFS), two, 1, 1, &a, &e) == 0 && a.output.size > 20 && !memcmp(a.output.data, "TY  - CONF\n", 11));
    CHECK(bibkeep_json(h, text(REFS), two, 1, 1, &a, &e) == 0 && a.output.data[0] == '{');
    CHECK(bibkeep_newkeys(h, text(REFS), 1, &a, &e) == 0 && a.output.size > 0);
    CHECK(bibkeep_lint(h, text(REFS), &a, &e) == 0 && a.status == 1 && a.output.size > 0);

    CHECK(bibkeep_extract(h, text(REFS), two, 1, &a, &e) == 0 && !memcmp(a.output.data, "@inproceedings{ld86,", 20));

    /* refusals: the status, the message, the number and the place */
    CHECK(bibkeep_show(h, text(REFS), text("q"), 1, &a, &e) == 11 && a.status == 1);
    CHECK(is(a.message, "bibkeep: 11 NoSuchEntry\n"));
    CHECK(bibkeep_check(h, text("@misc{a, t = \"x}y\"}"), &a, &e) == 6 && e.has_offset && e.offset == 15);
    CHECK(bibkeep_show(h, text(REFS), text("q"), 9, &a, &e) == BIBKEEP_MISUSE && a.status == 2);

    /* a command that makes a new file */
    bibkeep_bytes words[4] = {text("set"), text("l94"), text("year"), text("1995")};
    CHECK(bibkeep_run(h, text("edit"), words, 4, NULL, text(REFS), NULL, text(""), &a, &e) == 0);
    CHECK(a.has_file && a.has_journal && a.file.size == strlen(REFS) && a.journal.size > 0 && is(a.output, "applied 1\n"));

    /* each option reaches the command */
    bibkeep_options o = {0};
    o.no_journal = 1;
    CHECK(bibkeep_run(h, text("edit"), words, 4, &o, text(REFS), NULL, text(""), &a, &e) == 0 && a.has_file && !a.has_journal);
    o.no_journal = 0, o.print = 1;
    CHECK(bibkeep_run(h, text("edit"), words, 4, &o, text(REFS), NULL, text(""), &a, &e) == 0 && !a.has_file && a.output.size == strlen(REFS));
    o.print = 0, o.new_journal = 1;
    CHECK(bibkeep_run(h, text("edit"), words, 4, &o, text(REFS), &all, text(""), &a, &e) == 0 && a.has_journal);
    o.new_journal = 0;
    CHECK(bibkeep_run(h, text("edit"), words, 4, &o, text(REFS), &all, text(""), &a, &e) == 53 && e.has_offset);
    o.all_or_nothing = 1;
    CHECK(bibkeep_run(h, text("edit"), NULL, 0, &o, text(REFS), NULL, text("set\tl94\tyear\t1995\nremove\tpodc\n"), &a, &e) == 39);
    CHECK(e.line == 2 && !a.has_file);
    o.all_or_nothing = 0;
    CHECK(bibkeep_run(h, text("edit"), NULL, 0, &o, text(REFS), NULL, text("set\tl94\tyear\t1995\nremove\tpodc\n"), &a, &e) == 39);
    CHECK(e.line == 2 && a.has_file && a.has_journal);
    o.strict = 1, o.number = 1;
    CHECK(bibkeep_run(h, text("cite"), two, 2, &o, text(REFS), NULL, text(""), &a, &e) >= 0 && a.status == 1);
    o.strict = 0;
    CHECK(bibkeep_run(h, text("cite"), two, 2, &o, text(REFS), NULL, text(""), &a, &e) == 0 && a.status == 0);
    o.number = 0, o.at = 1;
    CHECK(bibkeep_run(h, text("entry"), two, 1, &o, text(REFS), NULL, text(""), &a, &e) == 0 && a.output.data[0] != '@');
    o.at = 0;
    CHECK(bibkeep_run(h, text("entry"), two, 1, &o, text(REFS), NULL, text(""), &a, &e) == 0 && a.output.data[0] == '@');
    o.dropped = 1, o.depth = 1;
    CHECK(bibkeep_run(h, text("ris"), &all, 1, &o, text(REFS), NULL, text(""), &a, &e) == 0 && a.status == 0);
    CHECK(bibkeep_run(h, text("json"), &all, 1, &o, text(REFS), NULL, text(""), &a, &e) == BIBKEEP_MISUSE && a.status == 2);
    o.dropped = 0, o.plain = 1;
    CHECK(bibkeep_run(h, text("ris"), &all, 1, &o, text("@misc{a, title = {{B}}}"), NULL, text(""), &a, &e) == 0);
    CHECK(is(a.output, "TY  - GEN\nTI  - B\nID  - a\nER  - \n"));
    CHECK(bibkeep_run(h, text("json"), &all, 1, &o, text(REFS), NULL, text(""), &a, &e) == BIBKEEP_MISUSE && a.status == 2);
    o.plain = 0, o.bibtex = 1;
    CHECK(bibkeep_run(h, text("show"), (bibkeep_bytes[]){text("c")}, 1, &o, text("@misc{p, t = 1}@misc{c, crossref = {p}}\n\n"), NULL, text(""), &a, &e) == 0);
    CHECK(is(a.output, "@misc c\n"));
    CHECK(bibkeep_run(h, text("json"), &all, 1, &o, text("@misc{a,\n t=1}@misc{b}\n"), NULL, text(""), &a, &e) == 14 && a.status == 1);
    CHECK(e.has_offset && e.offset == 14 && is(a.message, "bibkeep: 14 NotPlain at 14\n"));
    CHECK(bibkeep_run(h, text("labels"), &all, 1, &o, text("@book{k, author = {D. E. Knuth}, year = 1984}\n\n"), NULL, text(""), &a, &e) == 0);
    CHECK(is(a.output, "Knu84\tk\n"));
    CHECK(bibkeep_run(h, text("newkeys"), NULL, 0, &o, text(REFS), NULL, text(""), &a, &e) == BIBKEEP_MISUSE && a.status == 2);
    o.bibtex = 0, o.raw = 1;
    CHECK(bibkeep_run(h, text("json"), &all, 1, &o, text(REFS), NULL, text(""), &a, &e) == 0 && a.status == 0);
    CHECK(bibkeep_run(h, text("labels"), &all, 1, &o, text(REFS), NULL, text(""), &a, &e) == BIBKEEP_MISUSE && a.status == 2);
    o.raw = 0, o.depth = 0, o.latex = 1;
    CHECK(bibkeep_run(h, text("import"), NULL, 0, &o, text(""), NULL, text("TY  - GEN\nTI  - 5 % of A & B\nER  - \n"), &a, &e) == 0);
    CHECK(a.has_file && is(a.file, "@misc{anon,\n  title = {5 \\% of A \\& B}\n}\n"));
    CHECK(bibkeep_run(h, text("check"), NULL, 0, &o, text(REFS), NULL, text(""), &a, &e) == BIBKEEP_MISUSE && a.status == 2);
    o.latex = 0;
    CHECK(bibkeep_run(h, text("import"), NULL, 0, &o, text(""), NULL, text("TY  - GEN\nTI  - 5 % of A & B\nER  - \n"), &a, &e) == 0);
    CHECK(a.has_file && is(a.file, "@misc{anon,\n  title = {5 % of A & B}\n}\n"));
    o.skipped = 1;
    CHECK(bibkeep_run(h, text("import"), NULL, 0, &o, text(""), NULL, text("TY  - GEN\nXX  - 1\nID  - a\nER  - \n"), &a, &e) == 0);
    CHECK(a.has_file && is(a.output, "added 1 skipped 1\nskipped 2: XX  - 1\n"));
    CHECK(bibkeep_run(h, text("insert"), NULL, 0, &o, text(REFS), NULL, text(""), &a, &e) == BIBKEEP_MISUSE && a.status == 2);
    o.skipped = 0, o.strict = 1;
    CHECK(bibkeep_run(h, text("import"), NULL, 0, &o, text(""), NULL, text("TY  - GEN\nXX  - 1\nID  - a\nER  - \n"), &a, &e) == 65);
    CHECK(e.has_offset && e.offset == 10 && !a.has_file);
    o.strict = 0;
    o.depth = 1;
    CHECK(bibkeep_run(h, text("labels"), NULL, 0, &o, text(REFS), NULL, text(""), &a, &e) == BIBKEEP_MISUSE);
    o.aux = two, o.aux_count = 1; /* an aux file that cites no key */
    CHECK(bibkeep_run(h, text("labels"), NULL, 0, &o, text(REFS), NULL, text(""), &a, &e) == 0 && a.output.size == 0);
    o.aux_count = 0, o.depth = 256;
    CHECK(bibkeep_run(h, text("labels"), &all, 1, &o, text(REFS), NULL, text(""), &a, &e) == BIBKEEP_MISUSE);
    CHECK(bibkeep_run(h, text("explain"), (bibkeep_bytes[]){text("39")}, 1, NULL, text(""), NULL, text(""), &a, &e) == 0 && a.output.size > 0);
    CHECK(bibkeep_run(h, text("explain"), (bibkeep_bytes[]){text("999")}, 1, NULL, text(""), NULL, text(""), &a, &e) == 13);
    CHECK(bibkeep_run(h, text("frobnicate"), NULL, 0, NULL, text(REFS), NULL, text(""), &a, &e) == BIBKEEP_MISUSE && a.status == 2);

    /* several files that are read as one */
    bibkeep_named files[3] = {{text("m.bib"), text("@string{m = \"x\"}\n")}, {text("a.bib"), text("@misc{a, t = m, crossref = {b}}\n")},
                              {text("b.bib"), text("@misc{b, y = {2}}\n")}};
    o = (bibkeep_options){.depth = 1};
    CHECK(bibkeep_run_files(h, text("show"), (bibkeep_bytes[]){text("a")}, 1, &o, files, 3, &a, &e) == 0);
    CHECK(is(a.output, "@misc a\nt = x\ny = 2\ncrossref = b\n"));
    o.bibtex = 1;
    CHECK(bibkeep_run_files(h, text("show"), (bibkeep_bytes[]){text("a")}, 1, &o, files, 3, &a, &e) == BIBKEEP_MISUSE && a.status == 2);
    CHECK(bibkeep_run_files(h, text("check"), NULL, 0, NULL, files, 3, &a, &e) == 0);
    CHECK(is(a.output, "items 3\nentries 2\nmacros 1\npreambles 0\ncomments 0\n"));
    CHECK(bibkeep_run_files(h, text("lint"), NULL, 0, NULL, files + 1, 1, &a, &e) == 0 && a.status == 1 && !memcmp(a.output.data, "a.bib:1:", 8));
    files[1].text = text("@misc{a,,}");
    CHECK(bibkeep_run_files(h, text("check"), NULL, 0, NULL, files, 3, &a, &e) == 2 && e.has_offset && e.offset == 8);
    CHECK(is(a.message, "bibkeep: 2 ExpectedName at 8 in a.bib\n"));
    CHECK(bibkeep_run_files(h, text("entry"), two, 1, NULL, files, 3, &a, &e) == BIBKEEP_MISUSE && a.status == 2);
    CHECK(bibkeep_run_files(h, text("check"), NULL, 0, NULL, files, 0, &a, &e) == BIBKEEP_MISUSE && a.status == 2);

    /* a command leaves the session alone */
    bibkeep_bytes file;
    CHECK(bibkeep_open(h, text("@misc{a}"), NULL, &e) == 0 && bibkeep_check(h, text(REFS), &a, &e) == 0);
    CHECK(bibkeep_file(h, &file, &e) == 0 && is(file, "@misc{a}"));
    bibkeep_free(h);
}

/* Each thread has a handle of its own. */
static void *one_thread(void *n) {
    bibkeep *h;
    bibkeep_bytes file;
    char year[16];
    if (bibkeep_new(&h) || bibkeep_open(h, text(REFS), NULL, NULL))
        return (void *)1;
    for (int i = 0; i < 50; i++) {
        snprintf(year, sizeof year, "%d", 1000 + i + *(int *)n);
        if (edit(h, NULL, 4, (const char *[]){"set", "l94", "year", year}))
            return (void *)1;
    }
    if (bibkeep_undo(h, 50, NULL) || bibkeep_file(h, &file, NULL) || !is(file, REFS))
        return (void *)1;
    bibkeep_free(h);
    return NULL;
}

static void threads(void) {
    pthread_t t[4];
    int n[4];
    void *result;
    for (int i = 0; i < 4; i++) {
        n[i] = i * 100;
        CHECK(pthread_create(&t[i], NULL, one_thread, &n[i]) == 0);
    }
    for (int i = 0; i < 4; i++) {
        pthread_join(t[i], &result);
        CHECK(!result);
    }
}

int main(int count, char **words) {
    if (count == 2 && !strcmp(words[1], "names")) {
        for (int number = 1; number < 100; number++)
            if (*bibkeep_error_name(number))
                printf("%d %s\n", number, bibkeep_error_name(number));
        return 0;
    }
    CHECK(!strcmp(bibkeep_version(), BIBKEEP_VERSION));
    CHECK(!strcmp(bibkeep_error_name(39), "Referred") && !strcmp(bibkeep_error_name(98), ""));
    sessions();
    commands();
    threads();
    printf("%d passed, %d failed\n", passed, failed);
    return failed != 0;
}
