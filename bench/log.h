/* The log that a program of the bench works on. */
#include <stdint.h>
#include <stdio.h>
#include <stdlib.h>

enum { LONGEST_LOG = 65535, MOST_CHANGES = 32767 };

static uint8_t log_bytes[LONGEST_LOG + 1]; /* one byte more, to know a log that is too long */

static size_t load(const char *path) {
    FILE *file = fopen(path, "rb");
    if (file == NULL) {
        fprintf(stderr, "cannot open %s\n", path);
        exit(2);
    }
    size_t length = fread(log_bytes, 1, sizeof log_bytes, file);
    fclose(file);
    return length;
}
