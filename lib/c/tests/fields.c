/* fields FILE ABI: what each reader returns, one field at a time, as FILE has it, which is fields.rows of lib/rows/flat.py. So two fields of a struct can't be
 * swapped. ABI (lib/c/tests/abi.txt) has the name and the place of each mode, which the compiler confirms apart from this. */
#include "rows.h"

/* The fields that a row has, each with a space before and after it, and how many were found. */
static char wanted[8192];
static size_t found;

/* Checks that the row has this field with this value. */
static void put(const char *of, const char *name, unsigned long value) {
    char text[64];
    snprintf(text, sizeof text, " %s%s=%lu ", of, name, value);
    check(strstr(wanted, text) != NULL, text, wanted);
    found++;
}

#define PUT(of, from, name) put(#of ".", #name, (from).name)
#define PUT_BRUSH(of, from) (PUT(of, from, bold), PUT(of, from, underline), PUT(of, from, blink), PUT(of, from, reverse), PUT(of, from, is_protected))
#define PUT_SETS(of, from) (PUT(of, from, g0), PUT(of, from, g1), PUT(of, from, g2), PUT(of, from, g3), PUT(of, from, gl), PUT(of, from, gr))
#define PUT_CURSOR(of, from) (PUT(of, from, row), PUT(of, from, col), PUT(of, from, wrap))
/* A reader needs nothing of the caller before, and zeros what is reserved. */
#define READ(reader, t, part) CHECK((memset(&(part), 0xA5, sizeof(part)), reader(t, &(part))) && RESERVED(part))

/* The modes of vt220_mode_set: their names, and their places in it. */
typedef struct mode {
    char name[32];
    size_t place;
} mode;

static mode all_modes[sizeof(vt220_mode_set)];
static size_t mode_count;

/* Reads the rows of the file that are modes: all fields of their struct but the last one, `reserved`. */
static void read_modes(const char *path) {
    static char line[128];
    FILE *file = fopen(path, "r");
    if (file == NULL) abort();
    while (fgets(line, sizeof line, file) != NULL && mode_count < sizeof all_modes / sizeof all_modes[0]) {
        mode *next = &all_modes[mode_count];
        size_t size;
        if (sscanf(line, "vt220_mode_set.%31s %zu %zu", next->name, &next->place, &size) == 3 && size == sizeof(bool)) mode_count++;
    }
    fclose(file);
    CHECK(mode_count >= 13);
}

static void put_parts(const vt220 *t) {
    vt220_cursor_place cursor;
    vt220_margin_rows margins;
    vt220_mode_set modes;
    vt220_brush_look brush;
    vt220_graphic_sets sets;
    vt220_saved_record saved;
    vt220_tab_stops stops;
    vt220_cell cells[VT220_COLUMNS];
    READ(vt220_cursor, t, cursor), READ(vt220_margins, t, margins), READ(vt220_modes, t, modes), READ(vt220_brush, t, brush), READ(vt220_sets, t, sets);
    READ(vt220_saved, t, saved), READ(vt220_stops, t, stops);
    CHECK(vt220_row(t, 1, cells, VT220_COLUMNS) == vt220_width(t) && RESERVED(cells[0]));
    PUT_CURSOR(cursor, cursor), PUT(margins, margins, top), PUT(margins, margins, bottom);
    for (size_t i = 0; i < mode_count; i++) put("modes.", all_modes[i].name, ((const unsigned char *)&modes)[all_modes[i].place]);
    PUT(cell, cells[0], glyph), PUT_BRUSH(cell, cells[0]), PUT_BRUSH(brush, brush), PUT_SETS(sets, sets), PUT(sets, sets, single_shift);
    PUT_CURSOR(saved, saved), PUT(saved, saved, origin), PUT_BRUSH(saved, saved), PUT_SETS(saved, saved);
    for (size_t i = 0; i < VT220_COLUMNS; i++) {
        char column[8];
        snprintf(column, sizeof column, "%zu", i + 1);
        put("stop.", column, stops.stop[i]);
    }
}

static void one_row(char **fields, size_t count) {
    bytes input = unhexed(fields[1]);
    uint8_t reports[64];
    size_t written, due = 0;
    vt220 t = opened_as(VT220_BYTES, VT220_ROWS, 80, "");
    if (count != 3 || (size_t)snprintf(wanted, sizeof wanted, " %s ", fields[2]) >= sizeof wanted) abort();
    for (const char *at = wanted; (at = strchr(at, '=')) != NULL; at++) due++;
    CHECK(vt220_feed(&t, input.at, input.len, reports, sizeof reports, &written) == input.len && written == 0);
    found = 0;
    put("", "width", vt220_width(&t)), put("", "bells", (unsigned long)vt220_bells(&t)), put("", "held", vt220_held_kind(&t));
    put_parts(&t);
    check_number(due, found, fields[0], "the number of fields");
    vt220_close(&t);
    free(input.at);
}

/* Ten bytes of room for each byte take a whole piece: each byte here (DECID) is answered by ten. */
static void whole_pieces(void) {
    static uint8_t piece[3000], reports[VT220_REPORT_LIMIT * sizeof piece];
    memset(piece, 0x9A, sizeof piece);
    vt220 t = opened_as(VT220_BYTES, VT220_ROWS, 80, "");
    size_t written = 0;
    for (size_t len = 0; len <= sizeof piece; len += 500)
        CHECK(vt220_feed(&t, piece, len, reports, VT220_REPORT_LIMIT * len, &written) == len && written == VT220_REPORT_LIMIT * len);
    vt220_close(&t);
}

int main(int count, char **words) {
    if (count != 3) return 2;
    read_modes(words[2]);
    whole_pieces();
    CHECK(each_row(words[1], one_row) >= 50);
    return finish("fields");
}
