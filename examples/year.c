/* Sets the year of an entry, and leaves every other byte of the file: year FILE KEY YEAR. It keeps no journal. */
#include <bibkeep.h>
#include <stdio.h>
#include <stdlib.h>
#include <string.h>

int main(int count, char **args) {
    if (count != 4)
        return fputs("usage: year FILE KEY YEAR\n", stderr), 2;
    static char text[(1 << 24) + 1]; /* one byte more than a file may have: a longer one is refused */
    FILE *file = fopen(args[1], "rb");
    if (!file)
        return perror(args[1]), 1;
    bibkeep_bytes bytes = {text, fread(text, 1, sizeof text, file)};
    fclose(file);

    bibkeep *handle;
    bibkeep_error error = {BIBKEEP_MEMORY, 0, 0, 0, 0};
    bibkeep_bytes words[4] = {{"set", 3}, {args[2], strlen(args[2])}, {"year", 4}, {args[3], strlen(args[3])}};
    if (bibkeep_new(&handle) || bibkeep_open(handle, bytes, NULL, &error) || bibkeep_edit(handle, words, 4, &error) ||
        bibkeep_file(handle, &bytes, &error)) {
        char why[80];
        bibkeep_error_text(&error, why, sizeof why);
        return fprintf(stderr, "%s: %s\n", args[1], why), 1;
    }
    file = fopen(args[1], "wb");
    if (!file || fwrite(bytes.data, 1, bytes.size, file) != bytes.size || fclose(file))
        return perror(args[1]), 1;
    bibkeep_free(handle);
    return 0;
}
