/* sizes: plays standard input on a terminal of one size, changes it to another size, and prints its rows in brackets.
 *   make lib && gcc -Ilib/c/include -o sizes lib/c/examples/sizes.c out/libvt220.a
 *   ./sizes ROWS COLUMNS ROWS COLUMNS */
#include <stdio.h>
#include <stdlib.h>
#include <vt220.h>

/* Changes the size, and returns how many rows leave at the top. */
static uint32_t change(vt220 *t, vt220_scratch *s, size_t rows, size_t columns, size_t *left) {
    vt220_cursor_place cursor;
    vt220_cursor(t, &cursor);
    *left = cursor.row > rows ? cursor.row - rows : 0; /* vt220_row_text writes rows 1 to *left now */
    uint32_t status = vt220_resize(t, rows, columns);
    return status == VT220_OK ? vt220_scratch_fit(s, t) : status;
}

int main(int count, char **words) {
    static uint8_t bytes[4096], line[3 * VT220_MOST_COLUMNS + 1]; /* VT220_OF_ROW_TEXT of the largest size */
    vt220 terminal = VT220_INIT;
    vt220_scratch scratch = VT220_INIT;
    size_t len, left = 0;
    if (count != 5) return 2;
    uint32_t status = vt220_open_as(&terminal, VT220_UTF8, strtoul(words[1], NULL, 10), strtoul(words[2], NULL, 10));
    while (status == VT220_OK && (len = fread(bytes, 1, sizeof bytes, stdin)) > 0) vt220_feed(&terminal, bytes, len, NULL, 0, NULL);
    if (status == VT220_OK) status = change(&terminal, &scratch, strtoul(words[3], NULL, 10), strtoul(words[4], NULL, 10), &left);
    if (status == VT220_OK) printf("rows that left: %zu\n", left);
    for (size_t row = 1; status == VT220_OK && row <= vt220_rows(&terminal); row++) {
        status = vt220_row_text(&terminal, &scratch, row, line, sizeof line, &len);
        if (status == VT220_OK) printf("[%.*s]\n", (int)len - 1, (const char *)line);
    }
    if (status != VT220_OK) fprintf(stderr, "sizes: %s\n", vt220_status_text(status));
    vt220_scratch_close(&scratch);
    vt220_close(&terminal);
    return status != VT220_OK;
}
