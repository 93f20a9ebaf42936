/* The exports of the module: the calls of vt220.h and vt220-keys.h with addresses, lengths and statuses as numbers of 32 bits, so that
 * JavaScript needs no BigInt. A terminal is the address of its handle. There is one buffer of each kind, and for each size one that calls work
 * in and one that they write to, since JavaScript copies what a call wrote before it makes the next one. Only js_open and js_resize allocate. */
#include "heap.h"
#include "vt220-keys.h"
#include "vt220.h"
#include <string.h>

#define EXPORT(name) __attribute__((export_name(#name)))
#define AT(type, p) ((type *)(uintptr_t)(p))

/* INPUT is how many bytes are fed at once. With REPORTS and LINES bytes a call takes as many as without a limit, on a screen of a VT220's size. */
enum { INPUT = 65536, REPORTS = 5120, LINES = 400000, NARROW = 80 };

/* What the calls for terminals of a size work in and write to. It lasts as long as these terminals. */
typedef struct place {
    vt220_scratch scratch;
    uint8_t *out;
    size_t out_size;
    uint32_t size, users;
    struct place *next;
} place;

/* A terminal, and what its calls work in. */
typedef struct screen {
    vt220 terminal;
    place *at;
} screen;

static uint8_t input[INPUT], reports[REPORTS], lines[LINES], out[VT220_PICTURE_LIMIT];
static vt220_cell cells[VT220_MOST_COLUMNS];
static uint32_t part[VT220_MOST_COLUMNS]; /* the fields of a struct, in the header's order, or numbers of columns or rows */
static size_t written, lines_written;
/* That of a VT220's size, which always lasts, and those of other sizes after it. And the one that the last call used. */
static place first = {.out = out, .out_size = sizeof out, .users = 1}, *used = &first;
/* How many bytes of the buffers the calls use, which only a test changes. */
static uint32_t reports_size = REPORTS, lines_size = LINES, most_out = ~(uint32_t)0;

_Static_assert(sizeof(vt220_cell) == 12, "JavaScript reads three words a cell");
_Static_assert(offsetof(screen, terminal) == 0, "the address of a screen is that of its handle");
_Static_assert(LINES >= 2 * VT220_MOST_ROWS * (3 * VT220_MOST_COLUMNS + 1) && REPORTS >= VT220_REPORT_LIMIT, "a call takes at least one byte");
_Static_assert(VT220_MOST_COLUMNS < 256, "size_number has another number for each size");

static uint32_t address(const void *p) { return (uint32_t)(uintptr_t)p; }

/* --- the buffers --- */

EXPORT(input) uint32_t js_input(void) { return address(input); }
EXPORT(input_size) uint32_t js_input_size(void) { return INPUT; }
EXPORT(reports) uint32_t js_reports(void) { return address(reports); }
EXPORT(lines) uint32_t js_lines(void) { return address(lines); }
/* Returns the address of what the last call wrote. */
EXPORT(out) uint32_t js_out(void) { return address(used->out); }
EXPORT(cells) uint32_t js_cells(void) { return address(cells); }
EXPORT(part) uint32_t js_part(void) { return address(part); }
/* Returns how many bytes the last call wrote to `out`, or to `reports` if it was a feed. */
EXPORT(written) uint32_t js_written(void) { return (uint32_t)written; }
EXPORT(lines_written) uint32_t js_lines_written(void) { return (uint32_t)lines_written; }

/* --- handles --- */

EXPORT(version) uint32_t js_version(void) { return vt220_version(); }
EXPORT(status_text) uint32_t js_status_text(uint32_t status) { return address(vt220_status_text(status)); }

/* Opens the scratch buffer for a VT220's size, before any other call. Returns a status. */
EXPORT(start) uint32_t js_start(void) { return vt220_scratch_open(&first.scratch); }

/* --- the places of sizes --- */

/* Returns the number of a size that DECCOLM leaves. A VT220's size has 0. */
static uint32_t size_number(uint32_t rows, uint32_t columns) { return rows << 8 | columns; }

static void *taken(size_t size) {
    tried got = rattle_alloc(size, _Alignof(vt220));
    return got.ok ? got.p : NULL;
}

/* Ends the use of a place. Without another user it is closed. */
static void leave(place *at) {
    if (--at->users > 0) return;
    place *before = &first;
    while (before->next != at) before = before->next;
    before->next = at->next;
    vt220_scratch_close(&at->scratch);
    if (at->out != NULL) rattle_dealloc(at->out);
    rattle_dealloc(at);
    used = &first;
}

/* Makes a place ready for the size of a terminal. A picture is the longest of what is written. Returns whether the allocations succeeded. */
static bool is_fitted(place *at, const vt220 *model) {
    at->out_size = vt220_limit(model, VT220_OF_PICTURE);
    at->out = taken(at->out_size);
    return at->out != NULL && vt220_scratch_fit(&at->scratch, model) == VT220_OK;
}

/* Makes a place for a size that DECCOLM leaves, with one user. Returns NULL if an allocation failed. */
static place *made(uint32_t rows, uint32_t columns) {
    vt220 model = VT220_INIT;
    place *at = taken(sizeof *at);
    if (at == NULL) return NULL;
    *at = (place){.scratch = VT220_INIT, .size = size_number(rows, columns), .users = 1, .next = first.next};
    first.next = at;
    bool is_made = vt220_open(&model) == VT220_OK && vt220_resize(&model, rows, columns) == VT220_OK && is_fitted(at, &model);
    vt220_close(&model);
    if (is_made) return at;
    leave(at);
    return NULL;
}

/* Returns the place for a size, which has one user more, or NULL if an allocation failed. `of` is the number of the size. */
static place *entered(uint32_t of, uint32_t rows, uint32_t columns) {
    for (place *at = &first; at != NULL; at = at->next) {
        if (at->size != of) continue;
        at->users++;
        return at;
    }
    return made(rows, columns);
}

/* Chooses the place of a terminal for a call. */
static place *place_of(uint32_t t) { return used = AT(screen, t)->at; }

static size_t out_size(const place *at) { return at->out_size < most_out ? at->out_size : most_out; }

/* --- terminals --- */

/* Opens a terminal for a language and of a size. Returns its address, or 0 if there is no such language or size, or the allocation failed. */
EXPORT(open) uint32_t js_open(uint32_t language, uint32_t rows, uint32_t columns) {
    screen *it = taken(sizeof *it);
    if (it == NULL) return 0;
    *it = (screen){VT220_INIT, NULL};
    bool is_vt220 = rows == VT220_ROWS && columns == NARROW;
    if (vt220_open_as(&it->terminal, language, rows, columns) == VT220_OK) it->at = entered(is_vt220 ? 0 : size_number(rows, columns), rows, columns);
    if (it->at != NULL) return address(it);
    vt220_close(&it->terminal);
    rattle_dealloc(it);
    return 0;
}

/* Closes a terminal. What a test reads of it afterwards is that of a closed one. */
EXPORT(close) void js_close(uint32_t t) {
    screen *it = AT(screen, t);
    vt220_close(&it->terminal);
    leave(it->at);
    it->at = &first;
    rattle_dealloc(it);
}

/* Changes the size of a terminal to one that a screen may have. Returns a status. */
EXPORT(resize) uint32_t js_resize(uint32_t t, uint32_t rows, uint32_t columns) {
    screen *it = AT(screen, t);
    if (!vt220_is_open(&it->terminal)) return VT220_CLOSED;
    place *at = entered(size_number(rows, columns), rows, columns);
    if (at == NULL) return VT220_MEMORY;
    uint32_t status = vt220_resize(&it->terminal, rows, columns);
    leave(status == VT220_OK ? it->at : at);
    if (status == VT220_OK) it->at = at;
    return status;
}

/* --- the host's bytes --- */

/* Feeds bytes of `input`. Returns how many were processed. */
EXPORT(feed) uint32_t js_feed(uint32_t t, uint32_t from, uint32_t to) {
    return (uint32_t)vt220_feed(AT(vt220, t), input + from, to - from, reports, reports_size, &written);
}

EXPORT(feed_log) uint32_t js_feed_log(uint32_t t, uint32_t from, uint32_t to) {
    return (uint32_t)vt220_feed_log(AT(vt220, t), &place_of(t)->scratch, input + from, to - from, reports, reports_size, &written, lines, lines_size,
                                    &lines_written);
}

EXPORT(bells) double js_bells(uint32_t t) { return (double)vt220_bells(AT(vt220, t)); }
EXPORT(reset) uint32_t js_reset(uint32_t t) { return vt220_reset(AT(vt220, t)); }
EXPORT(copy) uint32_t js_copy(uint32_t to, uint32_t from) { return vt220_copy(AT(vt220, to), AT(vt220, from)); }

/* --- what is written to `out` --- */

/* The arguments by which a call works and writes at the place of a terminal. */
#define WORKS(at) &(at)->scratch, (at)->out, out_size(at), &written

#define WRITES(name)                                             \
    EXPORT(name) uint32_t js_##name(uint32_t t) {                \
        place *at = place_of(t);                                 \
        return vt220_##name(AT(vt220, t), WORKS(at));            \
    }

WRITES(text)
WRITES(show)
WRITES(picture)

EXPORT(repaint) uint32_t js_repaint(uint32_t t, uint32_t language) {
    place *at = place_of(t);
    return vt220_repaint_as(AT(vt220, t), language, WORKS(at));
}

EXPORT(row_text) uint32_t js_row_text(uint32_t t, uint32_t row) {
    place *at = place_of(t);
    return vt220_row_text(AT(vt220, t), &at->scratch, row, at->out, out_size(at), &written);
}

EXPORT(update) uint32_t js_update(uint32_t shown, uint32_t to) {
    place *at = place_of(to);
    return vt220_update(AT(vt220, shown), AT(vt220, to), WORKS(at));
}

/* `shown` is 0 if the terminal that is drawn on shows anything. */
EXPORT(draw) uint32_t js_draw(uint32_t shown, uint32_t to) {
    place *at = place_of(to);
    return vt220_draw(AT(vt220, shown), AT(vt220, to), WORKS(at));
}

/* --- cells and parts of the state --- */

EXPORT(rows) uint32_t js_rows(uint32_t t) { return (uint32_t)vt220_rows(AT(vt220, t)); }
EXPORT(width) uint32_t js_width(uint32_t t) { return (uint32_t)vt220_width(AT(vt220, t)); }
EXPORT(row) uint32_t js_row(uint32_t t, uint32_t row) { return (uint32_t)vt220_row(AT(vt220, t), row, cells, VT220_MOST_COLUMNS); }

/* Returns whether a row of `to` has a cell that `shown` lacks. Each has one, if the two have different sizes or widths. */
static bool differs(const vt220 *shown, const vt220 *to, uint32_t row) {
    bool changed[VT220_MOST_COLUMNS];
    size_t width = vt220_width(to);
    if (vt220_width(shown) != width || vt220_changes_of(shown, to, row, changed, VT220_MOST_COLUMNS) != VT220_OK) return true;
    return memchr(changed, true, width) != NULL;
}

/* Writes to `part` the rows in which `to` has a cell that `shown` lacks, and returns how many there are. */
EXPORT(changed_rows) uint32_t js_changed_rows(uint32_t shown, uint32_t to) {
    uint32_t count = 0, rows = js_rows(to);
    for (uint32_t row = 1; row <= rows; row++)
        if (differs(AT(vt220, shown), AT(vt220, to), row)) part[count++] = row;
    return count;
}

EXPORT(row_changes) uint32_t js_row_changes(uint32_t shown, uint32_t to, uint32_t row) {
    bool changed[VT220_MOST_COLUMNS];
    uint32_t status = vt220_changes_of(AT(vt220, shown), AT(vt220, to), row, changed, VT220_MOST_COLUMNS), width = js_width(to);
    for (size_t i = 0; status == VT220_OK && i < width; i++) part[i] = changed[i];
    return status;
}

/* Defines a call that writes the fields of a part of the state to `part`. */
#define PART(name, type, ...)                      \
    EXPORT(name) void js_##name(uint32_t t) {      \
        type it;                                   \
        if (!vt220_##name(AT(vt220, t), &it)) return; \
        const uint32_t fields[] = {__VA_ARGS__};   \
        for (size_t i = 0; i < sizeof fields / sizeof fields[0]; i++) part[i] = fields[i]; \
    }

PART(cursor, vt220_cursor_place, (uint32_t)it.row, (uint32_t)it.col, it.wrap)
PART(margins, vt220_margin_rows, (uint32_t)it.top, (uint32_t)it.bottom)
PART(modes, vt220_mode_set, it.kam, it.irm, it.srm, it.lnm, it.decckm, it.decsclm, it.decscnm, it.decom, it.decawm, it.decarm, it.dectcem,
     it.keypad_application, it.reports_8bit)
PART(brush, vt220_brush_look, it.bold, it.underline, it.blink, it.reverse, it.is_protected)
PART(sets, vt220_graphic_sets, it.g0, it.g1, it.g2, it.g3, it.gl, it.gr, it.single_shift)
PART(saved, vt220_saved_record, (uint32_t)it.row, (uint32_t)it.col, it.wrap, it.origin, it.bold, it.underline, it.blink, it.reverse,
     it.is_protected, it.g0, it.g1, it.g2, it.g3, it.gl, it.gr)

/* Writes the columns of the tab stops to `part`, and returns how many there are. */
EXPORT(stops) uint32_t js_stops(uint32_t t) {
    bool stops[VT220_MOST_COLUMNS];
    uint32_t count = 0;
    size_t columns = vt220_stops_of(AT(vt220, t), stops, VT220_MOST_COLUMNS);
    for (size_t i = 0; i < columns; i++)
        if (stops[i]) part[count++] = (uint32_t)i + 1;
    return count;
}

PART(language, vt220_language_state, it.alternate, it.bracketed_paste, it.pending_len, it.pending[0], it.pending[1], it.pending[2])

EXPORT(is_between) uint32_t js_is_between(uint32_t t) { return vt220_is_between(AT(vt220, t)); }
EXPORT(held_kind) uint32_t js_held_kind(uint32_t t) { return vt220_held_kind(AT(vt220, t)); }
EXPORT(same_state) uint32_t js_same_state(uint32_t a, uint32_t b) { return vt220_same_state(AT(vt220, a), AT(vt220, b)); }

/* --- the keyboard --- */

/* Writes what a key sends to `out`. The key is in `input`; bit i of `modes` is the field i of vt220_mode_set. */
EXPORT(key) uint32_t js_key(uint32_t language, uint32_t modes, uint32_t len) {
    const vt220_mode_set set = {
        .lnm = modes >> 3 & 1, .decckm = modes >> 4 & 1, .keypad_application = modes >> 11 & 1, .reports_8bit = modes >> 12 & 1,
    };
    used = &first;
    return vt220_key(language, &set, (const char *)input, len, used->out, out_size(used), &written);
}

EXPORT(key_length) uint32_t js_key_length(uint32_t len) { return (uint32_t)vt220_key_length((const char *)input, len); }

/* --- UTF-8 --- */

/* Returns the glyph with which UTF-8 shows a character, and writes to `part` how many cells it has. */
EXPORT(shown) uint32_t js_shown(uint32_t character) {
    size_t count;
    uint32_t glyph = vt220_shown(character, &count);
    part[0] = (uint32_t)count;
    return glyph;
}

/* --- for tests --- */

/* Sets how many bytes the calls use of `reports` and of `lines`, which have as many, and at most of what they write to. */
EXPORT(test_sizes) void js_test_sizes(uint32_t of_reports, uint32_t of_lines, uint32_t of_out) {
    reports_size = of_reports, lines_size = of_lines, most_out = of_out;
}

/* Allocates, moves and frees a block, which the library does with no size but its own. Returns whether the heap did as it should. */
EXPORT(test_heap) uint32_t js_test_heap(uint32_t n) {
    tried a = rattle_alloc(n, 8), b, c;
    if (!a.ok) return false;
    for (uint32_t i = 0; i < n; i++) AT(uint8_t, address(a.p))[i] = (uint8_t)(i * 7);
    b = rattle_realloc(a.p, n, 2 * (size_t)n + 1, 8);
    if (!b.ok) return false;
    bool is_kept = true;
    for (uint32_t i = 0; i < n; i++) is_kept = is_kept && AT(uint8_t, address(b.p))[i] == (uint8_t)(i * 7);
    c = rattle_alloc(n, 8); /* the block that a was */
    bool is_again = c.ok && c.p == a.p;
    rattle_dealloc(b.p);
    rattle_dealloc(c.p);
    return is_kept && is_again && address(b.p) % 16 == 0 && !rattle_alloc(SIZE_MAX / 2, 8).ok && !rattle_alloc(0xFFFF0000, 8).ok;
}
