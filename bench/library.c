/* What bench/library measures through C: library WHAT FILE SCRIPT. It opens the file, and with WHAT
 *   open     does nothing more;
 *   look     looks up the entry of each line of the script;
 *   edits    makes the edits of the script one by one, and stores file and journal;
 *   script   runs the script in one call, and stores file and journal. */
#include <bibkeep.h>
#include <stdio.h>
#include <stdlib.h>
#include <string.h>

static bibkeep *handle;
static bibkeep_error error;

static void must(int number, const char *what) {
    if (number) {
        fprintf(stderr, "%s: %d %s\n", what, number, bibkeep_error_name(number));
        exit(1);
    }
}

static bibkeep_bytes read_file(const char *path) {
    FILE *file = fopen(path, "rb");
    if (!file || fseek(file, 0, SEEK_END))
        return perror(path), exit(1), (bibkeep_bytes){NULL, 0};
    size_t size = (size_t)ftell(file);
    char *text = malloc(size + 1);
    rewind(file);
    if (!text || fread(text, 1, size, file) != size)
        return perror(path), exit(1), (bibkeep_bytes){NULL, 0};
    fclose(file);
    return (bibkeep_bytes){text, size};
}

static void write_file(const char *path, bibkeep_bytes bytes) {
    FILE *file = fopen(path, "wb");
    if (!file || fwrite(bytes.data, 1, bytes.size, file) != bytes.size || fclose(file))
        perror(path), exit(1);
}

/* The words of the next line of four; moves past it. */
static void read_line(const char **from, const char *end, bibkeep_bytes words[4]) {
    for (int n = 0; n < 4; n++) {
        const char *to = memchr(*from, n < 3 ? '\t' : '\n', (size_t)(end - *from));
        words[n] = (bibkeep_bytes){*from, (size_t)(to - *from)};
        *from = to + 1;
    }
}

static void store(const char *path) {
    char beside[4096];
    bibkeep_bytes file, journal;
    must(bibkeep_save(handle, &file, &journal, &error), "save");
    write_file(path, file);
    snprintf(beside, sizeof beside, "%s.bibkeep", path);
    write_file(beside, journal);
}

int main(int count, char **args) {
    if (count != 4)
        return fputs("usage: library open|look|edits|script FILE SCRIPT\n", stderr), 2;
    bibkeep_bytes file = read_file(args[2]), script = read_file(args[3]), words[4], json;
    must(bibkeep_new(&handle), "new");
    must(bibkeep_open(handle, file, NULL, &error), "open");
    const char *from = script.data, *end = script.data + script.size;
    if (!strcmp(args[1], "look")) {
        while (from < end) {
            read_line(&from, end, words);
            must(bibkeep_entry(handle, words[1], 1, &json, &error), "entry");
        }
    } else if (!strcmp(args[1], "edits")) {
        while (from < end) {
            read_line(&from, end, words);
            must(bibkeep_edit(handle, words, 4, &error), "edit");
        }
        store(args[2]);
    } else if (!strcmp(args[1], "script")) {
        must(bibkeep_script(handle, script, &error), "script");
        store(args[2]);
    }
    bibkeep_free(handle);
    return 0;
}
