/* The rows that lib/rows/flat.py writes, whose text describes them. */
#ifndef ROWS_H
#define ROWS_H

#include "check.h"

/* Returns the bytes that a field has in hex. The caller frees them. */
static inline bytes unhexed(const char *hex) {
    bytes found = {0};
    append(&found, NULL, 0);
    for (; hex[0] != 0; hex += 2) {
        const char digits[] = {hex[0], hex[1], 0};
        const uint8_t one = (uint8_t)strtoul(digits, NULL, 16);
        append(&found, &one, 1);
    }
    return found;
}

/* Calls `use` with the fields of each row of a file. Returns how many rows there are. */
static inline size_t each_row(const char *path, void (*use)(char **fields, size_t count)) {
    static char line[1 << 16];
    size_t rows = 0;
    FILE *file = fopen(path, "r");
    if (file == NULL) abort();
    for (; fgets(line, sizeof line, file) != NULL; rows++) {
        char *fields[12];
        size_t count = 0;
        if (line[strcspn(line, "\n")] != '\n') abort();
        line[strcspn(line, "\n")] = 0;
        for (char *at = line; at != NULL && count < sizeof fields / sizeof *fields; count++) {
            fields[count] = at;
            if ((at = strchr(at, '\t')) != NULL) *at++ = 0;
        }
        use(fields, count);
    }
    fclose(file);
    return rows;
}

#endif
